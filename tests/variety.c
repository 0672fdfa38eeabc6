/* The most different of the near-shortest, on drawn small tables, queries and closures, right and spoilt, in buffers that lie in junk. Each outcome, and every byte that is to be
 * zero, filled or untouched, is held against the refusals and the definition written out here: all simple routes from the start to the goal are listed, those in range are put
 * in order, and of all sets of k of them the best is taken, of equal ones the first. Prints how many calls there were, how often each outcome occurred and what the lists and
 * choices were like; exits 1 at the first call that differs, and prints it. */
#include "ojeonbut.h"

#include <inttypes.h>
#include <stdbool.h>
#include <stdio.h>
#include <stdlib.h>
#include <string.h>
#include <ucontext.h>

enum { CASES = 10000, NODES = 8, ARCS = 16, MOST = 4096, SLOTS = 12, NODE_WORK = 64, AROUND = 3, JUNK = 0xa5 };

struct query {
    uint8_t table[(ARCS + 2) * OJEONBUT_RECORD];
    uint8_t closed[ARCS + 2];
    size_t table_bytes, closed_bytes, list_words, area_words, work_bytes;
    size_t work_from; /* bytes off its alignment, since none is asked for */
    uint32_t nodes, start, goal, k, c, d;
};

struct lent {
    uint32_t list[AROUND + (SLOTS + 1) * NODES + AROUND], area[AROUND + OJEONBUT_ROUTES * NODES + 4 + AROUND];
    uint8_t work[(AROUND + NODES + 1 + AROUND) * NODE_WORK];
};

/* A route; bit a of `set` is set for each of its arcs. */
struct route {
    uint64_t length;
    uint32_t count, set, arcs[NODES];
};

/* The routes of a query, in order of rule 3. */
static struct route routes[MOST];
static uint32_t listed;

/* Of the queries with outcome 0: how many routes were listed, how often one that is no shortest is in range exactly, how often three or more were chosen and some left out, how
 * often of these one of the most dissimilar two, and how often several sets were the best. And of those with 24, how often there was a route. */
static uint32_t in_lists, exact, chosen, without_two, several, some;

static uint64_t state = 1;

/* A number below n. */
static uint32_t draw(uint32_t n)
{
    state = state * 6364136223846793005u + 1442695040888963407u;
    return (uint32_t)((state >> 33) % n);
}

static uint32_t word(const uint8_t *p) { return p[0] | (uint32_t)p[1] << 8 | (uint32_t)p[2] << 16 | (uint32_t)p[3] << 24; }

static void put(uint8_t *p, uint32_t v)
{
    for (int i = 0; i < 4; i++)
        p[i] = (uint8_t)(v >> 8 * i);
}

static void put_arc(uint8_t *record, uint32_t from, uint32_t to, uint32_t length, uint32_t road)
{
    put(record, from);
    put(record + 4, to);
    put(record + 8, length);
    put(record + 12, road);
}

/* Word i of an arc's record: 0 its start node, 1 its end node, 2 its length, 3 its road number. */
static uint32_t part_of(const struct query *q, uint32_t arc, int i) { return word(q->table + arc * OJEONBUT_RECORD + 4 * i); }

/* Arc i: from one drawn node to another, or one that leaves the start or comes to the goal. In manners 2 and 3 the nodes stand in a ring, from the start to the goal just before
 * it, with about as many arcs from each, and most arcs lead to the next node or the one after it. */
static void draw_ends(const struct query *q, uint32_t manner, uint32_t i, uint32_t *from, uint32_t *to)
{
    uint32_t which = draw(manner == 1 ? 5 : 1);
    *from = which == 1 || which == 2 ? q->start : manner >= 2 ? (q->start + i) % q->nodes : draw(q->nodes);
    *to = which >= 3 && *from != q->goal ? q->goal : (*from + 1 + draw(q->nodes - 1)) % q->nodes;
    if (manner >= 2 && q->nodes > 2 && draw(8))
        *to = (*from + 1 + (i / q->nodes + draw(4) / 3) % 2) % q->nodes;
}

/* A query that no refusal is due to, of few nodes and mostly short lengths, so that ties and parallel arcs are common. */
static struct query draw_query(void)
{
    struct query q = {.nodes = 2 + (draw(4) ? NODES - 2 - draw(4) : draw(NODES - 1))};
    uint32_t arcs = draw(4) ? ARCS - draw(5) : draw(ARCS + 1), manner = draw(4), long_ones = draw(8) == 0, longest = 1 + draw(4), roads = draw(3);
    q.start = draw(q.nodes);
    q.goal = (q.start + (manner >= 2 ? q.nodes - 1 : 1 + draw(q.nodes - 1))) % q.nodes;
    for (uint32_t i = 0, from, to; i < arcs; i++) {
        draw_ends(&q, manner, i, &from, &to);
        uint8_t *record = q.table + i * OJEONBUT_RECORD;
        for (; record > q.table && word(record - OJEONBUT_RECORD) > from; record -= OJEONBUT_RECORD)
            memcpy(record, record - OJEONBUT_RECORD, OJEONBUT_RECORD);
        bool past = manner == 3 && to == (from + 2) % q.nodes;
        uint32_t length = long_ones ? OJEONBUT_LENGTH - draw(1000) : 1 + draw(longest) + (past ? 2 : 0), road = roads == 0 ? 0 : roads == 1 ? draw(3) : 0u - draw(3);
        put_arc(record, from, to, length, road);
    }
    q.table_bytes = arcs * OJEONBUT_RECORD;
    q.closed_bytes = arcs;
    uint32_t closing = draw(12), node = draw(q.nodes); /* none, all arcs that come to one node, or one in so many */
    for (uint32_t i = 0; closing > 1 && i < arcs; i++)
        q.closed[i] = closing == 2 ? part_of(&q, i, 1) == node : draw(2 * closing) == 0;
    q.k = draw(4) ? 2 + draw(2) : 1 + draw(draw(8) ? 4 : OJEONBUT_ROUTES);
    q.d = 1 + draw(draw(4) ? 4 : OJEONBUT_D);
    q.c = draw(2) ? q.d : draw(q.d + 1);
    q.list_words = (draw(4) ? SLOTS : draw(SLOTS + 1)) * (q.nodes - 1);
    q.list_words += draw(q.nodes - 1);
    q.area_words = q.k * (q.nodes - 1) + draw(4);
    q.work_bytes = q.nodes * NODE_WORK + (draw(2) ? draw(NODE_WORK) : 0);
    q.work_from = draw(8);
    return q;
}

/* One thing made wrong, or nothing. No length is ever greater than what is lent. */
static void spoil(struct query *q)
{
    uint8_t *record = q->table + draw(ARCS) * OJEONBUT_RECORD;
    bool sized = q->nodes > 1 && q->nodes <= NODES; /* a fault before may have made it otherwise */
    switch (draw(36)) {
    case 0: record += 4 * draw(2); put(record, draw(2) ? q->nodes : 0xffffffff); break;
    case 1: put(record + 4, word(record)); break;
    case 2: put(record + 8, draw(2) ? 0 : OJEONBUT_LENGTH + 1); break;
    case 3: put(record, 0); break;
    case 4: q->start = draw(2) ? q->goal : q->nodes; break;
    case 5: q->goal = draw(2) ? q->nodes : 0xffffffff; break;
    case 6: q->area_words = sized && q->k > 0 && q->k <= OJEONBUT_ROUTES ? q->k * (q->nodes - 1) - 1 : 0; break;
    case 7: q->k = draw(2) ? 0 : draw(2) ? OJEONBUT_ROUTES + 1 : 0xffffffff; break;
    case 8: q->nodes = draw(2) ? 0 : OJEONBUT_NODES + 1; break;
    case 9: q->table_bytes += 1 + draw(15); break;
    case 10: q->closed_bytes = draw(2) ? q->closed_bytes + 1 : q->closed_bytes ? draw((uint32_t)q->closed_bytes) : 1; break;
    case 11: q->closed[draw(ARCS)] = (uint8_t)(2 + draw(254)); break;
    case 12: q->work_bytes = sized ? q->nodes * NODE_WORK - 1 - (draw(2) ? draw(NODE_WORK) : 0) : 0; break;
    case 13: q->d = draw(2) ? 0 : OJEONBUT_D + 1; break;
    case 14: q->c = draw(2) ? q->d + 1 : 0xffffffff; break;
    case 15: q->list_words = sized ? draw(q->nodes - 1) : 0; break; /* no slot, which is no cause for 10 */
    default: break;
    }
}

/* 13, or the lowest of 2 to 6 in the lowest faulty record. */
static ojeonbut_reply table_fault(const struct query *q)
{
    if (q->nodes < 1 || q->nodes > OJEONBUT_NODES || q->table_bytes % OJEONBUT_RECORD)
        return (ojeonbut_reply){OJEONBUT_SIZE, 0};
    for (uint32_t i = 0, before = 0; i < q->table_bytes / OJEONBUT_RECORD; before = part_of(q, i++, 0)) {
        uint32_t from = part_of(q, i, 0), to = part_of(q, i, 1), length = part_of(q, i, 2);
        if (from >= q->nodes || to >= q->nodes)
            return (ojeonbut_reply){OJEONBUT_NODE, i};
        if (from == to)
            return (ojeonbut_reply){OJEONBUT_LOOP, i};
        if (length < 1 || length > OJEONBUT_LENGTH)
            return (ojeonbut_reply){OJEONBUT_BAD_LENGTH, i};
        if (from < before)
            return (ojeonbut_reply){OJEONBUT_ORDER, i};
    }
    return (ojeonbut_reply){OJEONBUT_FOUND, 0};
}

/* The refusal due to a query, or outcome 0. */
static ojeonbut_reply refusal(const struct query *q)
{
    ojeonbut_reply r = table_fault(q);
    if (r.outcome)
        return r;
    bool closures = q->closed_bytes == q->table_bytes / OJEONBUT_RECORD;
    for (size_t i = 0; i < q->closed_bytes; i++)
        closures = closures && q->closed[i] <= 1;
    if (!closures)
        r.outcome = OJEONBUT_CLOSURES;
    else if (q->start >= q->nodes || q->goal >= q->nodes || q->start == q->goal)
        r.outcome = OJEONBUT_ENDS;
    else if (q->k < 1 || q->k > OJEONBUT_ROUTES)
        r.outcome = OJEONBUT_WANTED;
    else if (q->area_words < q->k * (q->nodes - 1) || q->work_bytes < q->nodes * NODE_WORK)
        r.outcome = OJEONBUT_BUFFERS;
    else if (q->d < 1 || q->d > OJEONBUT_D || q->c > q->d)
        r.outcome = OJEONBUT_RANGE;
    return r;
}

/* Rule 3: below 0 where x precedes y, 0 where they are the same. */
static int order(const void *of_x, const void *of_y)
{
    const struct route *x = of_x, *y = of_y;
    if (x->length != y->length)
        return x->length < y->length ? -1 : 1;
    for (uint32_t i = 0; i < x->count && i < y->count; i++)
        if (x->arcs[i] != y->arcs[i])
            return x->arcs[i] < y->arcs[i] ? -1 : 1;
    return (int)x->count - (int)y->count;
}

/* Lists all routes over open arcs that extend r, which ends at node `at`. Bit v of `visited` is set for each node that r visits. */
static void extend(const struct query *q, const struct route *r, uint32_t at, uint32_t visited)
{
    if (at == q->goal) {
        if (listed == MOST)
            abort();
        routes[listed++] = *r;
        return;
    }
    for (uint32_t arc = 0; arc < q->table_bytes / OJEONBUT_RECORD; arc++) {
        uint32_t end = part_of(q, arc, 1);
        if (part_of(q, arc, 0) != at || q->closed[arc] || visited >> end & 1)
            continue;
        struct route further = *r;
        further.arcs[further.count++] = arc;
        further.set |= 1u << arc;
        further.length += part_of(q, arc, 2);
        extend(q, &further, end, visited | 1u << end);
    }
}

/* Lists the routes in range by rank, and no others. */
static void list_near(const struct query *q)
{
    const struct route empty = {0};
    uint32_t near = 0;
    listed = 0;
    extend(q, &empty, q->start, 1u << q->start);
    qsort(routes, listed, sizeof *routes, order);
    for (uint32_t i = 0; i < listed && routes[i].length * q->d <= (uint64_t)(q->d + q->c) * routes[0].length; i++)
        near++;
    listed = near;
}

/* The length of the arcs of the set. */
static uint64_t length_of(const struct query *q, uint32_t set)
{
    uint64_t length = 0;
    for (uint32_t arc = 0; arc < ARCS; arc++)
        if (set >> arc & 1)
            length += part_of(q, arc, 2);
    return length;
}

/* How dissimilar the routes of each two ranks are, the lower first. */
static uint64_t tops[SLOTS][SLOTS], bottoms[SLOTS][SLOTS];

static void find_apart(const struct query *q)
{
    for (uint32_t i = 0; i < listed; i++)
        for (uint32_t j = i + 1; j < listed; j++) {
            bottoms[i][j] = length_of(q, routes[i].set | routes[j].set);
            tops[i][j] = bottoms[i][j] - length_of(q, routes[i].set & routes[j].set);
        }
}

/* The least dissimilarity of two routes of the set, whose bit i is set for rank i; that of no two is 1. */
static void least_of(uint32_t set, uint64_t *top, uint64_t *bottom)
{
    *top = *bottom = 1;
    for (uint32_t i = 0; i < listed; i++)
        for (uint32_t j = i + 1; j < listed; j++)
            if ((set >> i & set >> j & 1) && tops[i][j] * *bottom < *top * bottoms[i][j]) {
                *top = tops[i][j];
                *bottom = bottoms[i][j];
            }
}

/* Whether the ranks of x come before those of y, as many: the lowest rank that only one has is in x. */
static bool first_of(uint32_t x, uint32_t y) { return x & ((x ^ y) & -(x ^ y)); }

/* The best set of k ranks, of all; counts those that are as good. */
static uint32_t best_set(uint32_t k, uint32_t *equal)
{
    uint64_t top = 0, bottom = 1, own_top, own_bottom;
    uint32_t best = 0;
    *equal = 0;
    for (uint32_t set = 1; set < 1u << listed; set++) {
        if ((uint32_t)__builtin_popcount(set) != k)
            continue;
        least_of(set, &own_top, &own_bottom);
        bool more = top * own_bottom < own_top * bottom, same = top * own_bottom == own_top * bottom;
        *equal = more ? 1 : *equal + same;
        if (more || (same && first_of(set, best)))
            best = set;
        if (more) {
            top = own_top;
            bottom = own_bottom;
        }
    }
    return best;
}

static void put_slot(const struct query *q, const struct route *r, uint32_t *slot)
{
    for (uint32_t i = 0; i + 1 < q->nodes; i++)
        slot[i] = i < r->count ? r->arcs[i] : OJEONBUT_NONE;
}

/* What a query that is not refused before the listing leaves, and what it replies. */
static ojeonbut_reply due_routes(const struct query *q, struct lent *m)
{
    uint32_t width = q->nodes - 1, equal, pairs, slot = 0;
    list_near(q);
    memset(m->work + AROUND * NODE_WORK + q->work_from, 0, q->work_bytes);
    if (listed > q->list_words / width || listed < q->k) {
        bool full = listed > q->list_words / width;
        memset(m->list + AROUND, 0xff, q->list_words * sizeof *m->list);
        memset(m->area + AROUND, 0xff, q->k * width * sizeof *m->area);
        some += !full && listed > 0;
        return (ojeonbut_reply){full ? OJEONBUT_LIST_FULL : OJEONBUT_TOO_FEW, 0};
    }
    find_apart(q);
    uint32_t set = best_set(q->k, &equal), two = best_set(2, &pairs);
    for (uint32_t i = 0; i < listed; i++) {
        put_slot(q, &routes[i], m->list + AROUND + i * width);
        if (set >> i & 1)
            put_slot(q, &routes[i], m->area + AROUND + slot++ * width);
    }
    in_lists += listed;
    exact += q->c > 0 && routes[listed - 1].length * q->d == (uint64_t)(q->d + q->c) * routes[0].length;
    chosen += q->k > 2 && listed > q->k;
    without_two += q->k > 2 && (set & two) != two;
    several += q->k > 1 && equal > 1;
    return (ojeonbut_reply){OJEONBUT_FOUND, listed};
}

static void print_lent(const char *name, const struct query *q, ojeonbut_reply r, const struct lent *m)
{
    printf("  %s: outcome %" PRIu32 ", number %" PRIu32 "; list:", name, r.outcome, r.number);
    for (size_t i = 0; i < sizeof m->list / sizeof *m->list; i++)
        printf(" %" PRIx32, m->list[i]);
    printf("; area:");
    for (size_t i = 0; i < sizeof m->area / sizeof *m->area; i++)
        printf(" %" PRIx32, m->area[i]);
    size_t from = AROUND * NODE_WORK + q->work_from, zero = 0, junk = 0;
    for (size_t i = 0; i < sizeof m->work; i++) {
        bool inside = i >= from && i < from + q->work_bytes;
        zero += inside && m->work[i] == 0;
        junk += !inside && m->work[i] == JUNK;
    }
    printf("; of %zu bytes of work %zu zero, of %zu round them %zu untouched\n", q->work_bytes, zero, sizeof m->work - q->work_bytes, junk);
}

static void print_query(const struct query *q)
{
    printf("%" PRIu32 " nodes, start %" PRIu32 ", goal %" PRIu32 ", k %" PRIu32 ", c %" PRIu32 ", d %" PRIu32 ", %zu table bytes, %zu closure bytes, %zu words of the list, %zu of the area, %zu bytes of work\n",
           q->nodes, q->start, q->goal, q->k, q->c, q->d, q->table_bytes, q->closed_bytes, q->list_words, q->area_words, q->work_bytes);
    for (size_t i = 0; i * OJEONBUT_RECORD < q->table_bytes; i++)
        printf("  arc %zu: %" PRIu32 " %" PRIu32 " %" PRIu32 " %" PRIu32 ", closure %u\n", i, part_of(q, i, 0), part_of(q, i, 1), part_of(q, i, 2), part_of(q, i, 3), q->closed[i]);
}

/* Whether the query does what is due; the library leaves its answer in `found`. */
static bool query_as_due(const struct query *q, ojeonbut_reply *got, struct lent *found)
{
    static struct lent due;
    struct query asked = *q; /* what is lent for reading has to stay */
    memset(&due, JUNK, sizeof due);
    memset(found, JUNK, sizeof *found);
    *got = ojeonbut_variety(asked.table, q->table_bytes, q->nodes, q->start, q->goal, q->k, q->c, q->d, asked.closed, q->closed_bytes, found->list + AROUND, q->list_words,
                            found->area + AROUND, q->area_words, found->work + AROUND * NODE_WORK + q->work_from, q->work_bytes);
    ojeonbut_reply r = refusal(q);
    if (!r.outcome)
        r = due_routes(q, &due);
    if (got->outcome == r.outcome && got->number == r.number && memcmp(&due, found, sizeof due) == 0 && memcmp(asked.table, q->table, sizeof q->table) == 0 &&
        memcmp(asked.closed, q->closed, sizeof q->closed) == 0)
        return true;
    printf("the first difference, of ojeonbut_variety: ");
    print_query(q);
    print_lent("due", q, r, &due);
    print_lent("got", q, *got, found);
    return false;
}

/* Whether the area's first slots, of three words, are these. */
static bool stand(const uint32_t *slots, const uint32_t (*due)[3], size_t count) { return memcmp(slots, due, count * sizeof *due) == 0; }

/* Five routes, of lengths 3, 4, 4, 5 and 6: at 1/1 the longest is in range exactly, and one less than d for c leaves it out. The most dissimilar two are of ranks 2 and 4, 8/9;
 * but the best three are of ranks 1, 2 and 3, 6/7, and with those two 5/6 is the most. With arc 3 closed there are two best sets of two, ranks 0 and 3 and ranks 1 and 2, both 7/8. */
static bool figures_as_due(void)
{
    static const uint32_t arcs[][3] = {{0, 1, 1}, {1, 2, 1}, {1, 2, 3}, {1, 3, 3}, {2, 3, 1}, {2, 3, 2}};
    static const uint32_t list[][3] = {{0, 1, 4}, {0, 1, 5}, {0, 3, OJEONBUT_NONE}, {0, 2, 4}, {0, 2, 5}}, three[][3] = {{0, 1, 5}, {0, 3, OJEONBUT_NONE}, {0, 2, 4}};
    static const uint32_t two[][3] = {{0, 3, OJEONBUT_NONE}, {0, 2, 5}}, equal[][3] = {{0, 1, 4}, {0, 2, 5}};
    static struct lent m;
    struct query q = {.table_bytes = 6 * OJEONBUT_RECORD, .closed_bytes = 6, .list_words = 17, .area_words = 19, .work_bytes = 4 * NODE_WORK + 5, .nodes = 4, .goal = 3};
    ojeonbut_reply r;
    for (uint32_t i = 0; i < 6; i++)
        put_arc(q.table + i * OJEONBUT_RECORD, arcs[i][0], arcs[i][1], arcs[i][2], i % 4 == 0 ? 7 : 0); /* road numbers are set aside */
    q.k = 3;
    q.c = q.d = 1;
    bool right = query_as_due(&q, &r, &m) && r.outcome == OJEONBUT_FOUND && r.number == 5 && stand(m.list + AROUND, list, 5) && stand(m.area + AROUND, three, 3);
    right = right && m.list[AROUND + 15] == 0xa5a5a5a5 && m.list[AROUND + 16] == 0xa5a5a5a5; /* no whole slot: untouched */
    q.k = 2;
    right = right && query_as_due(&q, &r, &m) && r.number == 5 && stand(m.area + AROUND, two, 2);
    q.k = 1;
    right = right && query_as_due(&q, &r, &m) && r.number == 5 && stand(m.area + AROUND, list, 1);
    q.c = 999;
    q.d = 1000;
    right = right && query_as_due(&q, &r, &m) && r.outcome == OJEONBUT_FOUND && r.number == 4;
    q.c = 1000;
    q.list_words = 14; /* four slots, for five routes */
    right = right && query_as_due(&q, &r, &m) && r.outcome == OJEONBUT_LIST_FULL && r.number == 0 && m.list[AROUND + 13] == OJEONBUT_NONE && m.list[AROUND + 14] == 0xa5a5a5a5;
    q.k = 6;
    right = right && query_as_due(&q, &r, &m) && r.outcome == OJEONBUT_LIST_FULL; /* and fewer than k: the first in order */
    q.list_words = 17;
    right = right && query_as_due(&q, &r, &m) && r.outcome == OJEONBUT_TOO_FEW && r.number == 0 && m.list[AROUND + 16] == OJEONBUT_NONE && m.area[AROUND + 17] == OJEONBUT_NONE;
    q.d = 0;
    right = right && query_as_due(&q, &r, &m) && r.outcome == OJEONBUT_RANGE;
    q.d = 1001;
    right = right && query_as_due(&q, &r, &m) && r.outcome == OJEONBUT_RANGE;
    q.d = 999;
    right = right && query_as_due(&q, &r, &m) && r.outcome == OJEONBUT_RANGE;
    q.k = 2;
    q.d = 1000;
    q.closed[3] = 1;
    right = right && query_as_due(&q, &r, &m) && r.outcome == OJEONBUT_FOUND && r.number == 4 && stand(m.area + AROUND, equal, 2);
    q.closed[0] = 1;
    return right && query_as_due(&q, &r, &m) && r.outcome == OJEONBUT_TOO_FEW;
}

enum { STEPS = OJEONBUT_NODES - 1, DEEP = 1 << 28 };
static uint8_t table[(OJEONBUT_ARCS + 1) * OJEONBUT_RECORD], closed[OJEONBUT_ARCS + 1], work[OJEONBUT_NODES * NODE_WORK], deep[DEEP];
static uint32_t list[2 * STEPS], area[2 * STEPS];
static ojeonbut_reply replied;
static ucontext_t here, there;

static void call(void)
{
    replied = ojeonbut_variety(table, OJEONBUT_NODES * OJEONBUT_RECORD, OJEONBUT_NODES, STEPS, 0, 2, 1000, 1000, closed, OJEONBUT_NODES, list, 2 * STEPS, area, 2 * STEPS, work,
                               sizeof work);
}

/* The longest routes there are: the most nodes in a line, each with an arc of the greatest length to the one below it, the start with two. A level of the listing for each node:
 * on a stack of its own. And one record more than may be lent. */
static bool limits_as_due(void)
{
    for (uint32_t i = 0; i < OJEONBUT_NODES; i++) {
        uint32_t from = i < STEPS ? i + 1 : STEPS;
        put_arc(table + i * OJEONBUT_RECORD, from, from - 1, OJEONBUT_LENGTH, 0);
    }
    getcontext(&there);
    there.uc_stack.ss_sp = deep;
    there.uc_stack.ss_size = sizeof deep;
    there.uc_link = &here;
    makecontext(&there, call, 0);
    swapcontext(&here, &there);
    bool right = replied.outcome == OJEONBUT_FOUND && replied.number == 2 && memcmp(list, area, sizeof list) == 0;
    for (uint32_t i = 0; i < STEPS; i++)
        right = right && list[i] == STEPS - 1 - i && list[STEPS + i] == (i == 0 ? STEPS : STEPS - 1 - i);
    for (size_t i = 0; i < sizeof work; i++)
        right = right && work[i] == 0;
    for (uint32_t i = 0; i <= OJEONBUT_ARCS; i++)
        put_arc(table + i * OJEONBUT_RECORD, 0, 1, OJEONBUT_LENGTH - (i == OJEONBUT_ARCS - 1), 0);
    ojeonbut_reply r = ojeonbut_variety(table, OJEONBUT_ARCS * OJEONBUT_RECORD, 2, 0, 1, 1, 0, 1, closed, OJEONBUT_ARCS, list, 1, area, 1, work, 2 * NODE_WORK);
    right = right && r.outcome == OJEONBUT_FOUND && r.number == 1 && area[0] == OJEONBUT_ARCS - 1;
    r = ojeonbut_variety(table, sizeof table, 2, 0, 1, 1, 0, 1, closed, OJEONBUT_ARCS + 1, list, 1, area, 1, work, 2 * NODE_WORK);
    return right && r.outcome == OJEONBUT_SIZE && r.number == 0 && area[0] == OJEONBUT_ARCS - 1;
}

int main(void)
{
    static struct lent found;
    uint32_t outcomes[OJEONBUT_TOO_FEW + 1] = {0};
    bool figures = figures_as_due() && limits_as_due();
    in_lists = exact = chosen = without_two = several = some = 0;
    for (uint32_t i = 0; i < CASES; i++) {
        struct query q = draw_query();
        spoil(&q);
        if (draw(4) == 0) /* two faults, of which the first in the order of refusals decides */
            spoil(&q);
        ojeonbut_reply r;
        if (!query_as_due(&q, &r, &found))
            return 1;
        outcomes[r.outcome]++;
    }
    printf("variety: drawn cases %d, all as due; the figures and the limits %s\noutcomes:", CASES, figures ? "as due" : "NOT as due");
    for (int i = 0; i <= OJEONBUT_TOO_FEW; i++)
        if (outcomes[i] > 0)
            printf(" %d in %" PRIu32 ",", i, outcomes[i]);
    printf(" no other\nroutes listed: %" PRIu32 "; lists with one in range exactly, and no shortest: %" PRIu32 "; choices of three or more that leave some out: %" PRIu32
           ", without one of the most dissimilar two: %" PRIu32 "; choices with several best sets: %" PRIu32 "\ntoo few although there is a route: %" PRIu32 "\n",
           in_lists, exact, chosen, without_two, several, some);
    return figures && exact > 0 && without_two > 0 && several > 0 ? 0 : 1;
}
