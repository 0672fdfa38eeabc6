#include "suurballe.h"

#include <stdbool.h>
#include <stdlib.h>
#include <string.h>

#define FAR UINT64_MAX /* the length to a node that is not reached */

/* A node in the heap. */
struct entry {
    uint64_t length;
    uint32_t node;
};

struct search {
    const uint8_t *table;
    const uint8_t *closed; /* a byte for each arc */
    uint32_t nodes, start, goal;
    uint32_t *first;         /* the first arc of each node, and the number of arcs after the last node */
    uint64_t *least, *again; /* the least length from the start to each node in the first search and in the second, or FAR */
    uint32_t *last;          /* the last arc of a shortest route to each node, or OJEONBUT_NONE */
    uint32_t *last_again;    /* the arc by which the second search comes to each node, which may be a turned one that leaves it */
    uint8_t *used;           /* for each arc, whether the route, or in the end the pair, has it */
    struct entry *heap;      /* places from 1; none is shorter than the one at half its place */
    size_t waiting;
};

static void *memory(size_t bytes)
{
    void *p = malloc(bytes);
    if (!p)
        abort();
    return p;
}

/* Word i of an arc's record: 0 its start node, 1 its end node, 2 its length. */
static uint32_t word(const uint8_t *table, uint32_t arc, int i)
{
    const uint8_t *p = table + (size_t)arc * OJEONBUT_RECORD + 4 * i;
    return p[0] | (uint32_t)p[1] << 8 | (uint32_t)p[2] << 16 | (uint32_t)p[3] << 24;
}

static void push(struct search *s, struct entry e)
{
    size_t i = ++s->waiting;
    for (; i > 1 && e.length < s->heap[i / 2].length; i /= 2)
        s->heap[i] = s->heap[i / 2];
    s->heap[i] = e;
}

static struct entry pop(struct search *s)
{
    struct entry top = s->heap[1], last = s->heap[s->waiting--];
    size_t i = 1;
    for (size_t child; (child = 2 * i) <= s->waiting; i = child) {
        if (child < s->waiting && s->heap[child + 1].length < s->heap[child].length)
            child++;
        if (s->heap[child].length >= last.length)
            break;
        s->heap[i] = s->heap[child];
    }
    s->heap[i] = last;
    return top;
}

static void reach(struct search *s, uint64_t *least, uint32_t *last, uint32_t node, uint32_t arc, uint64_t length)
{
    if (length < least[node]) {
        least[node] = length;
        last[node] = arc;
        push(s, (struct entry){length, node});
    }
}

/* Dijkstra's search over the open arcs, to all nodes; an entry that a shorter one has overtaken is passed over. */
static void search_first(struct search *s)
{
    memset(s->least, 0xff, s->nodes * sizeof *s->least);
    for (reach(s, s->least, s->last, s->start, OJEONBUT_NONE, 0); s->waiting > 0;) {
        struct entry e = pop(s);
        if (e.length != s->least[e.node])
            continue;
        for (uint32_t arc = s->first[e.node]; arc < s->first[e.node + 1]; arc++)
            if (!s->closed[arc])
                reach(s, s->least, s->last, word(s->table, arc, 1), arc, e.length + word(s->table, arc, 2));
    }
}

/* The same as far as the goal, with each length less by what the first search gained: the arcs of the shortest route lead back, at no length, and the others keep their
 * detour. Every node that is met has been reached before. */
static void search_second(struct search *s)
{
    memset(s->again, 0xff, s->nodes * sizeof *s->again);
    for (reach(s, s->again, s->last_again, s->start, OJEONBUT_NONE, 0); s->waiting > 0;) {
        struct entry e = pop(s);
        if (e.node == s->goal)
            break;
        if (e.length != s->again[e.node])
            continue;
        for (uint32_t arc = s->first[e.node]; arc < s->first[e.node + 1]; arc++) {
            uint32_t to = word(s->table, arc, 1);
            if (!s->closed[arc] && !s->used[arc])
                reach(s, s->again, s->last_again, to, arc, e.length + word(s->table, arc, 2) + s->least[e.node] - s->least[to]);
        }
        uint32_t back = s->last[e.node];
        if (back != OJEONBUT_NONE && s->used[back])
            reach(s, s->again, s->last_again, word(s->table, back, 0), back, e.length);
    }
}

/* The arcs of a shortest route. */
static void use_first(struct search *s)
{
    for (uint32_t v = s->goal; v != s->start; v = word(s->table, s->last[v], 0))
        s->used[s->last[v]] = 1;
}

/* What the second search went back over is used no longer, and what it went over is. */
static void use_second(struct search *s)
{
    for (uint32_t v = s->goal; v != s->start;) {
        uint32_t arc = s->last_again[v], from = word(s->table, arc, 0);
        s->used[arc] ^= 1;
        v = from == v ? word(s->table, arc, 1) : from;
    }
}

/* A route over used arcs, which are used no longer. Were a node visited twice, two routes without what lies between would be shorter. */
static ojeonbut_summary walk(struct search *s, uint32_t *slot)
{
    ojeonbut_summary route = {0, 0, 0};
    for (uint32_t v = s->start; v != s->goal;) {
        uint32_t arc = s->first[v];
        while (!s->used[arc])
            arc++;
        s->used[arc] = 0;
        slot[route.arcs++] = arc;
        route.length += word(s->table, arc, 2);
        v = word(s->table, arc, 1);
    }
    return route;
}

/* Puts the route that precedes first. Two of one length differ at the first arc, and the lower one was walked first. */
static void order(uint32_t *area, size_t width, ojeonbut_summary *summaries)
{
    if (summaries[0].length <= summaries[1].length)
        return;
    ojeonbut_summary summary = summaries[0];
    summaries[0] = summaries[1];
    summaries[1] = summary;
    for (size_t i = 0; i < width; i++) {
        uint32_t arc = area[i];
        area[i] = area[width + i];
        area[width + i] = arc;
    }
}

/* Where the run of each node begins, and after the last node the number of arcs. */
static void count_runs(const uint8_t *table, uint32_t arcs, uint32_t nodes, uint32_t *first)
{
    memset(first, 0, (nodes + 1) * sizeof *first);
    for (uint32_t arc = 0; arc < arcs; arc++)
        first[word(table, arc, 0) + 1]++;
    for (uint32_t v = 0; v < nodes; v++)
        first[v + 1] += first[v];
}

/* Whether there is a pair; its arcs are used then. */
static bool find(struct search *s)
{
    search_first(s);
    if (s->least[s->goal] == FAR)
        return false;
    use_first(s);
    s->waiting = 0;
    search_second(s);
    if (s->again[s->goal] == FAR)
        return false;
    use_second(s);
    return true;
}

ojeonbut_reply suurballe_pair(const uint8_t *table, size_t table_bytes, uint32_t nodes, uint32_t start, uint32_t goal, const uint8_t *closed, size_t closed_bytes,
                              uint32_t *area, size_t area_words, ojeonbut_summary *summaries, size_t summary_count, uint8_t *work, size_t work_bytes)
{
    uint32_t arcs = table_bytes / OJEONBUT_RECORD;
    size_t width = nodes - 1;
    struct search s = {.table = table, .closed = closed, .nodes = nodes, .start = start, .goal = goal};
    (void)closed_bytes, (void)area_words, (void)summary_count, (void)work, (void)work_bytes;
    s.least = memory(2 * nodes * sizeof *s.least);
    s.again = s.least + nodes;
    s.first = memory((nodes + 1 + 2 * (size_t)nodes) * sizeof *s.first);
    s.last = s.first + nodes + 1;
    s.last_again = s.last + nodes;
    s.used = memset(memory(arcs + 1), 0, arcs + 1);
    s.heap = memory((arcs + (size_t)nodes + 2) * sizeof *s.heap); /* each arc puts in one entry at most, and so does each turned one */
    count_runs(table, arcs, nodes, s.first);
    memset(area, 0xff, 2 * width * sizeof *area);
    memset(summaries, 0, 2 * sizeof *summaries);
    bool found = find(&s);
    if (found) {
        summaries[0] = walk(&s, area);
        summaries[1] = walk(&s, area + width);
        order(area, width, summaries);
    }
    free(s.least);
    free(s.first);
    free(s.used);
    free(s.heap);
    return (ojeonbut_reply){found ? OJEONBUT_FOUND : OJEONBUT_NO_PAIR, 0};
}
