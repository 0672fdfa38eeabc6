#include "baseline.h"

#include <stdbool.h>
#include <stdlib.h>
#include <string.h>

#define EARLIER (OJEONBUT_ROUTES - 1) /* the most earlier routes of a round */

/* A live partial route. Label 0 is the empty chain at the start. */
struct label {
    uint64_t length;
    uint64_t overlap[EARLIER]; /* with each earlier route */
    uint32_t arc;              /* its last arc */
    uint32_t extends;          /* the label that the last arc extends */
    uint32_t arcs;             /* how many it has */
    uint32_t end;              /* the node it ends at */
    uint32_t before;           /* the label made before it at the same node, or OJEONBUT_NONE */
};

_Static_assert(sizeof(struct label) <= OJEONBUT_LABEL, "a label stands in the bytes lent for it");

/* A label with an arc more, not yet taken up. */
struct candidate {
    uint64_t length;
    uint32_t label, arc;
};

struct search {
    const uint8_t *table;
    const uint8_t *closed; /* a byte for each arc, or NULL where none is closed */
    uint32_t *first;  /* the first arc of each node, and the number of arcs after the last node */
    uint32_t *newest; /* the label last made at each node, or OJEONBUT_NONE */
    uint16_t *driven; /* for each arc, bit p is set if earlier route p drives its road */
    struct label *made;
    size_t count, room;
    struct candidate *heap; /* places from 1; none precedes the one at half its place */
    size_t waiting, space;
    uint64_t lengths[OJEONBUT_ROUTES]; /* of the earlier routes */
    uint32_t earlier, a, b;
};

static void *memory(void *old, size_t bytes)
{
    void *p = realloc(old, bytes);
    if (!p)
        abort();
    return p;
}

/* Word i of an arc's record: 0 its start node, 1 its end node, 2 its length, 3 its road number. */
static uint32_t word(const uint8_t *table, uint32_t arc, int i)
{
    const uint8_t *p = table + (size_t)arc * OJEONBUT_RECORD + 4 * i;
    return p[0] | (uint32_t)p[1] << 8 | (uint32_t)p[2] << 16 | (uint32_t)p[3] << 24;
}

/* The same candidate without its last arc. */
static void step_back(const struct label *made, struct candidate *c)
{
    c->arc = made[c->label].arc;
    c->label = made[c->label].extends;
}

/* Rule 3. At equal length both chains are walked back, in step, to where they part; the difference nearest to the start decides. */
static bool precedes(const struct label *made, struct candidate x, struct candidate y)
{
    if (x.length != y.length)
        return x.length < y.length;
    bool first = made[x.label].arcs < made[y.label].arcs;
    while (made[x.label].arcs != made[y.label].arcs)
        step_back(made, made[x.label].arcs > made[y.label].arcs ? &x : &y);
    for (;;) {
        if (x.arc != y.arc)
            first = x.arc < y.arc;
        if (x.label == y.label)
            return first;
        step_back(made, &x);
        step_back(made, &y);
    }
}

static void push(struct search *s, struct candidate c)
{
    size_t i = ++s->waiting;
    if (i >= s->space) {
        s->space = s->space * 2 + 64;
        s->heap = memory(s->heap, s->space * sizeof *s->heap);
    }
    for (; i > 1 && precedes(s->made, c, s->heap[i / 2]); i /= 2)
        s->heap[i] = s->heap[i / 2];
    s->heap[i] = c;
}

static struct candidate pop(struct search *s)
{
    struct candidate top = s->heap[1], last = s->heap[s->waiting--];
    size_t i = 1;
    for (size_t child; (child = 2 * i) <= s->waiting; i = child) {
        if (child < s->waiting && precedes(s->made, s->heap[child + 1], s->heap[child]))
            child++;
        if (!precedes(s->made, s->heap[child], last))
            break;
        s->heap[i] = s->heap[child];
    }
    s->heap[i] = last;
    return top;
}

/* Whether a label at the end of l, each of which precedes l, has no greater overlap with each earlier route. */
static bool beaten(const struct search *s, const struct label *l)
{
    for (uint32_t i = s->newest[l->end]; i != OJEONBUT_NONE; i = s->made[i].before) {
        uint32_t p = 0;
        while (p < s->earlier && s->made[i].overlap[p] <= l->overlap[p])
            p++;
        if (p == s->earlier)
            return true;
    }
    return false;
}

/* l becomes a label, and with each open arc that leaves its end a candidate; false where there is no room. */
static bool take_up(struct search *s, struct label l)
{
    if (s->count == s->room)
        return false;
    uint32_t i = s->count++;
    l.before = s->newest[l.end];
    s->newest[l.end] = i;
    s->made[i] = l;
    for (uint32_t arc = s->first[l.end]; arc < s->first[l.end + 1]; arc++)
        if (!s->closed || !s->closed[arc])
            push(s, (struct candidate){l.length + word(s->table, arc, 2), i, arc});
    return true;
}

/* One round; its outcome is that of a query for one route more than there are. An answer is the last label made. */
static uint32_t search_round(struct search *s, uint32_t start, uint32_t goal)
{
    if (!take_up(s, (struct label){.arc = OJEONBUT_NONE, .end = start}))
        return OJEONBUT_ROOM;
    while (s->waiting > 0) {
        struct candidate c = pop(s);
        struct label l = s->made[c.label];
        bool within = true; /* the threshold of every earlier route */
        for (uint32_t p = 0; p < s->earlier; p++) {
            l.overlap[p] += (s->driven[c.arc] >> p & 1) * word(s->table, c.arc, 2);
            within = within && s->b * l.overlap[p] <= s->a * s->lengths[p];
        }
        l.length = c.length;
        l.arc = c.arc;
        l.extends = c.label;
        l.arcs++;
        l.end = word(s->table, c.arc, 1);
        if (!within || beaten(s, &l))
            continue;
        if (!take_up(s, l))
            return OJEONBUT_ROOM;
        if (l.end == goal)
            return OJEONBUT_FOUND;
    }
    return OJEONBUT_FEWER;
}

/* The place of a road number in a set of `size` places, a power of two, some of them free: where it stands, or a free one, which holds 0. */
static size_t place_of(const uint32_t *set, size_t size, uint32_t road)
{
    size_t i = (road * 0x9e3779b1u >> 8) & (size - 1);
    while (set[i] && set[i] != road)
        i = (i + 1) & (size - 1);
    return i;
}

/* Marks what earlier route p drives: its arcs, and where these have road numbers every arc that has one of them. */
static void mark_driven(struct search *s, uint32_t arcs, const uint32_t *route, size_t count, uint32_t p)
{
    size_t size = 4, roads = 0;
    while (size < 4 * count) /* three places of four stay free, so that most looks end at the first */
        size *= 2;
    uint32_t *set = memset(memory(NULL, size * sizeof *set), 0, size * sizeof *set);
    for (size_t i = 0; i < count; i++) {
        uint32_t road = word(s->table, route[i], 3);
        s->driven[route[i]] |= 1u << p;
        if (road) {
            set[place_of(set, size, road)] = road;
            roads++;
        }
    }
    for (uint32_t arc = 0; roads && arc < arcs; arc++) {
        uint32_t road = word(s->table, arc, 3);
        if (road && set[place_of(set, size, road)])
            s->driven[arc] |= 1u << p;
    }
    free(set);
}

ojeonbut_reply baseline_query_closed(const uint8_t *table, size_t table_bytes, uint32_t nodes, uint32_t start, uint32_t goal, uint32_t k, uint32_t a, uint32_t b,
                                     const uint8_t *closed, size_t closed_bytes, uint8_t *labels, size_t label_bytes, uint32_t *area, size_t area_words,
                                     ojeonbut_summary *summaries, size_t summary_count)
{
    uint32_t arcs = table_bytes / OJEONBUT_RECORD;
    size_t width = nodes - 1;
    struct search s = {.table = table, .closed = closed, .made = (struct label *)labels, .room = label_bytes / OJEONBUT_LABEL, .a = a, .b = b};
    s.first = memory(NULL, (nodes + 1 + nodes) * sizeof *s.first);
    s.newest = s.first + nodes + 1;
    s.driven = memset(memory(NULL, (arcs + 1) * sizeof *s.driven), 0, (arcs + 1) * sizeof *s.driven);
    for (uint32_t node = 0, arc = 0; node <= nodes; s.first[node++] = arc)
        while (arc < arcs && word(table, arc, 0) < node)
            arc++;
    (void)closed_bytes, (void)area_words, (void)summary_count;
    memset(area, 0xff, k * width * sizeof *area);
    memset(summaries, 0, k * sizeof *summaries);
    ojeonbut_reply reply = {OJEONBUT_FOUND, 0};
    for (uint32_t r = 0; r < k; s.earlier = ++r) {
        memset(s.newest, 0xff, nodes * sizeof *s.newest);
        s.count = s.waiting = 0;
        reply.outcome = search_round(&s, start, goal);
        summaries[r].labels = s.count;
        reply.number = reply.outcome == OJEONBUT_ROOM ? r + 1 : 0;
        if (reply.outcome != OJEONBUT_FOUND)
            break;
        const struct label *l = &s.made[s.count - 1];
        s.lengths[r] = summaries[r].length = l->length;
        summaries[r].arcs = l->arcs;
        for (size_t i = l->arcs; i > 0; l = &s.made[l->extends])
            area[r * width + --i] = l->arc;
        if (r + 1 < k)
            mark_driven(&s, arcs, area + r * width, summaries[r].arcs, r);
    }
    free(s.first);
    free(s.driven);
    free(s.heap);
    return reply;
}

ojeonbut_reply baseline_query(const uint8_t *table, size_t table_bytes, uint32_t nodes, uint32_t start, uint32_t goal, uint32_t k, uint32_t a, uint32_t b,
                              uint8_t *labels, size_t label_bytes, uint32_t *area, size_t area_words, ojeonbut_summary *summaries, size_t summary_count)
{
    return baseline_query_closed(table, table_bytes, nodes, start, goal, k, a, b, NULL, 0, labels, label_bytes, area, area_words, summaries, summary_count);
}
