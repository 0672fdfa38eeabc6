/* Two routes with nothing in common, on drawn small tables, queries and closures, right and spoilt, in buffers that lie in junk. Each outcome, and every byte that is to be
 * zero, filled or untouched, is held against the refusals and the definition written out here: all simple routes from the start to the goal are listed, and of all two that
 * share no arc the least total is taken. Which pair of this total comes out is left open: the library's two routes have to be listed ones that share no arc, of this total,
 * the one that precedes first. Prints how many calls there were, how often each outcome occurred and how often the first route is of no use; exits 1 at the first call that
 * differs, and prints it. */
#include "ojeonbut.h"

#include <inttypes.h>
#include <stdbool.h>
#include <stdio.h>
#include <stdlib.h>
#include <string.h>

enum { CASES = 10000, NODES = 8, ARCS = 16, MOST = 4096, NODE_WORK = 64, AROUND = 3, JUNK = 0xa5 };

struct query {
    uint8_t table[(ARCS + 2) * OJEONBUT_RECORD];
    uint8_t closed[ARCS + 2];
    size_t table_bytes, closed_bytes, area_words, summary_count, work_bytes;
    size_t work_from; /* bytes off its alignment, since none is asked for */
    uint32_t nodes, start, goal;
};

struct lent {
    uint32_t area[AROUND + 2 * NODES + 4 + AROUND];
    ojeonbut_summary summaries[AROUND + 5 + AROUND];
    uint8_t work[(AROUND + NODES + 1 + AROUND) * NODE_WORK];
};

/* A route; bit a of `set` is set for each of its arcs. */
struct route {
    uint64_t length;
    uint32_t count, set, arcs[NODES];
};

/* The routes of a query, in order of rule 3. */
static struct route routes[MOST];
static uint32_t listed;

/* Of the queries with a pair: how often the first route shares an arc with every other, how often the first pair with it is longer than the least, and how often several
 * pairs have the least total. And of those without one, how often there are two routes or more. */
static uint32_t cut_off, longer, several, crowded;

static uint64_t state = 1;

/* A number below n. */
static uint32_t draw(uint32_t n)
{
    state = state * 6364136223846793005u + 1442695040888963407u;
    return (uint32_t)((state >> 33) % n);
}

static uint32_t word(const uint8_t *p) { return p[0] | (uint32_t)p[1] << 8 | (uint32_t)p[2] << 16 | (uint32_t)p[3] << 24; }

static void put(uint8_t *p, uint32_t v)
{
    for (int i = 0; i < 4; i++)
        p[i] = (uint8_t)(v >> 8 * i);
}

static void put_arc(uint8_t *record, uint32_t from, uint32_t to, uint32_t length, uint32_t road)
{
    put(record, from);
    put(record + 4, to);
    put(record + 8, length);
    put(record + 12, road);
}

/* Word i of an arc's record: 0 its start node, 1 its end node, 2 its length, 3 its road number. */
static uint32_t part_of(const struct query *q, uint32_t arc, int i) { return word(q->table + arc * OJEONBUT_RECORD + 4 * i); }

/* Arc i: from one drawn node to another, or one that leaves the start or comes to the goal. In manners 2 and 3 the nodes stand in a ring, from the start to the goal just before
 * it, with about as many arcs from each, and most arcs lead to the next node or the one after it. */
static void draw_ends(const struct query *q, uint32_t manner, uint32_t i, uint32_t *from, uint32_t *to)
{
    uint32_t which = draw(manner == 1 ? 5 : 1);
    *from = which == 1 || which == 2 ? q->start : manner >= 2 ? (q->start + i) % q->nodes : draw(q->nodes);
    *to = which >= 3 && *from != q->goal ? q->goal : (*from + 1 + draw(q->nodes - 1)) % q->nodes;
    if (manner >= 2 && q->nodes > 2 && draw(8))
        *to = (*from + 1 + (i / q->nodes + draw(4) / 3) % 2) % q->nodes;
}

/* A query that no refusal is due to, of few nodes and mostly short lengths, so that ties and parallel arcs are common. */
static struct query draw_query(void)
{
    struct query q = {.nodes = 2 + (draw(4) ? NODES - 2 - draw(4) : draw(NODES - 1)), .work_from = draw(8)};
    uint32_t arcs = draw(4) ? ARCS - draw(5) : draw(ARCS + 1), manner = draw(4), long_ones = draw(8) == 0, longest = 1 + draw(4), roads = draw(3);
    q.start = draw(q.nodes);
    q.goal = (q.start + (manner >= 2 ? q.nodes - 1 : 1 + draw(q.nodes - 1))) % q.nodes;
    for (uint32_t i = 0, from, to; i < arcs; i++) {
        draw_ends(&q, manner, i, &from, &to);
        uint8_t *record = q.table + i * OJEONBUT_RECORD;
        for (; record > q.table && word(record - OJEONBUT_RECORD) > from; record -= OJEONBUT_RECORD)
            memcpy(record, record - OJEONBUT_RECORD, OJEONBUT_RECORD);
        bool past = manner == 3 && to == (from + 2) % q.nodes;
        put_arc(record, from, to, long_ones ? OJEONBUT_LENGTH - draw(1000) : 1 + draw(longest) + (past ? 2 : 0), roads == 0 ? 0 : roads == 1 ? draw(3) : 0u - draw(3));
    }
    q.table_bytes = arcs * OJEONBUT_RECORD;
    q.closed_bytes = arcs;
    uint32_t closing = draw(12), node = draw(q.nodes); /* none, all arcs that come to one node, or one in so many */
    for (uint32_t i = 0; closing > 1 && i < arcs; i++)
        q.closed[i] = closing == 2 ? part_of(&q, i, 1) == node : draw(2 * closing) == 0;
    q.area_words = 2 * (q.nodes - 1) + draw(4);
    q.summary_count = 2 + draw(4);
    q.work_bytes = q.nodes * NODE_WORK + (draw(2) ? draw(NODE_WORK) : 0);
    return q;
}

/* One thing made wrong, or nothing. No length is ever greater than what is lent. */
static void spoil(struct query *q)
{
    uint8_t *record = q->table + draw(ARCS) * OJEONBUT_RECORD;
    bool sized = q->nodes > 1 && q->nodes <= NODES; /* a fault before may have made it otherwise */
    switch (draw(36)) {
    case 0: put(record + 4 * draw(2), draw(2) ? q->nodes : 0xffffffff); break;
    case 1: put(record + 4, word(record)); break;
    case 2: put(record + 8, draw(2) ? 0 : OJEONBUT_LENGTH + 1); break;
    case 3: put(record, 0); break;
    case 4: q->start = draw(2) ? q->goal : q->nodes; break;
    case 5: q->goal = draw(2) ? q->nodes : 0xffffffff; break;
    case 6: q->area_words = sized ? 2 * (q->nodes - 1) - 1 : 0; break;
    case 7: q->summary_count = draw(2); break;
    case 8: q->nodes = draw(2) ? 0 : OJEONBUT_NODES + 1; break;
    case 9: q->table_bytes += 1 + draw(15); break;
    case 10: q->closed_bytes = draw(2) ? q->closed_bytes + 1 : q->closed_bytes ? draw((uint32_t)q->closed_bytes) : 1; break;
    case 11: q->closed[draw(ARCS)] = (uint8_t)(2 + draw(254)); break;
    case 12: q->work_bytes = sized ? q->nodes * NODE_WORK - 1 - (draw(2) ? draw(NODE_WORK) : 0) : 0; break;
    default: break;
    }
}

/* 13, or the lowest of 2 to 6 in the lowest faulty record. */
static ojeonbut_reply table_fault(const struct query *q)
{
    if (q->nodes < 1 || q->nodes > OJEONBUT_NODES || q->table_bytes % OJEONBUT_RECORD)
        return (ojeonbut_reply){OJEONBUT_SIZE, 0};
    for (uint32_t i = 0, before = 0; i < q->table_bytes / OJEONBUT_RECORD; before = part_of(q, i++, 0)) {
        uint32_t from = part_of(q, i, 0), to = part_of(q, i, 1), length = part_of(q, i, 2);
        if (from >= q->nodes || to >= q->nodes)
            return (ojeonbut_reply){OJEONBUT_NODE, i};
        if (from == to)
            return (ojeonbut_reply){OJEONBUT_LOOP, i};
        if (length < 1 || length > OJEONBUT_LENGTH)
            return (ojeonbut_reply){OJEONBUT_BAD_LENGTH, i};
        if (from < before)
            return (ojeonbut_reply){OJEONBUT_ORDER, i};
    }
    return (ojeonbut_reply){OJEONBUT_FOUND, 0};
}

/* The refusal due to a query, or outcome 0. */
static ojeonbut_reply refusal(const struct query *q)
{
    ojeonbut_reply r = table_fault(q);
    if (r.outcome)
        return r;
    bool closures = q->closed_bytes == q->table_bytes / OJEONBUT_RECORD;
    for (size_t i = 0; i < q->closed_bytes; i++)
        closures = closures && q->closed[i] <= 1;
    if (!closures)
        r.outcome = OJEONBUT_CLOSURES;
    else if (q->start >= q->nodes || q->goal >= q->nodes || q->start == q->goal)
        r.outcome = OJEONBUT_ENDS;
    else if (q->area_words < 2 * (q->nodes - 1) || q->summary_count < 2 || q->work_bytes < q->nodes * NODE_WORK)
        r.outcome = OJEONBUT_BUFFERS;
    return r;
}

/* Rule 3: below 0 where x precedes y, 0 where they are the same. */
static int order(const void *of_x, const void *of_y)
{
    const struct route *x = of_x, *y = of_y;
    if (x->length != y->length)
        return x->length < y->length ? -1 : 1;
    for (uint32_t i = 0; i < x->count && i < y->count; i++)
        if (x->arcs[i] != y->arcs[i])
            return x->arcs[i] < y->arcs[i] ? -1 : 1;
    return (int)x->count - (int)y->count;
}

/* Lists all routes over open arcs that extend r, which ends at node `at`. Bit v of `visited` is set for each node that r visits. */
static void extend(const struct query *q, const struct route *r, uint32_t at, uint32_t visited)
{
    if (at == q->goal) {
        if (listed == MOST)
            abort();
        routes[listed++] = *r;
        return;
    }
    for (uint32_t arc = 0; arc < q->table_bytes / OJEONBUT_RECORD; arc++) {
        uint32_t end = part_of(q, arc, 1);
        if (part_of(q, arc, 0) != at || q->closed[arc] || visited >> end & 1)
            continue;
        struct route further = *r;
        further.arcs[further.count++] = arc;
        further.set |= 1u << arc;
        further.length += part_of(q, arc, 2);
        extend(q, &further, end, visited | 1u << end);
    }
}

/* The least total of two routes that share no arc, or 0; counts what there is. */
static uint64_t least_total(const struct query *q)
{
    const struct route empty = {0};
    listed = 0;
    extend(q, &empty, q->start, 1u << q->start);
    qsort(routes, listed, sizeof *routes, order);
    uint64_t least = 0, with_first = 0;
    uint32_t pairs = 0;
    for (uint32_t i = 0; i < listed; i++)
        for (uint32_t j = i + 1; j < listed; j++) {
            uint64_t total = routes[i].length + routes[j].length;
            if (routes[i].set & routes[j].set)
                continue;
            if (i == 0 && with_first == 0)
                with_first = total;
            if (least == 0 || total < least)
                pairs = 0;
            if (least == 0 || total <= least) {
                least = total;
                pairs++;
            }
        }
    cut_off += least > 0 && with_first == 0;
    longer += with_first > least;
    several += pairs > 1;
    crowded += least == 0 && listed > 1;
    return least;
}

/* The listed route that stands in the slot, and after it only words without an arc; or NULL. */
static const struct route *route_in(const struct query *q, const uint32_t *slot)
{
    for (uint32_t i = 0; i < listed; i++) {
        bool same = true;
        for (uint32_t j = 0; j + 1 < q->nodes; j++)
            same = same && slot[j] == (j < routes[i].count ? routes[i].arcs[j] : OJEONBUT_NONE);
        if (same)
            return &routes[i];
    }
    return NULL;
}

/* What a query that is not refused leaves, and its outcome. Where there is a pair the routes are those that the library has left in `found`, if they are one. */
static uint32_t due_routes(const struct query *q, struct lent *m, const struct lent *found)
{
    const struct route empty = {0}, *pair[2] = {&empty, &empty};
    uint64_t least = least_total(q);
    if (least > 0) {
        const struct route *x = route_in(q, found->area + AROUND), *y = route_in(q, found->area + AROUND + q->nodes - 1);
        if (x && y && !(x->set & y->set) && x->length + y->length == least && order(x, y) < 0) {
            pair[0] = x;
            pair[1] = y;
        }
    }
    for (uint32_t r = 0; r < 2; r++) {
        for (uint32_t i = 0; i + 1 < q->nodes; i++)
            m->area[AROUND + r * (q->nodes - 1) + i] = i < pair[r]->count ? pair[r]->arcs[i] : OJEONBUT_NONE;
        m->summaries[AROUND + r] = (ojeonbut_summary){pair[r]->length, pair[r]->count, 0};
    }
    memset(m->work + AROUND * NODE_WORK + q->work_from, 0, q->work_bytes);
    return least > 0 ? OJEONBUT_FOUND : OJEONBUT_NO_PAIR;
}

static void print_lent(const char *name, const struct query *q, ojeonbut_reply r, const struct lent *m)
{
    printf("  %s: outcome %" PRIu32 ", number %" PRIu32 "; words:", name, r.outcome, r.number);
    for (size_t i = 0; i < sizeof m->area / sizeof *m->area; i++)
        printf(" %" PRIx32, m->area[i]);
    printf("; summaries:");
    for (size_t i = 0; i < sizeof m->summaries / sizeof *m->summaries; i++)
        printf(" %" PRIx64 " %" PRIx64 " %" PRIx64 ",", m->summaries[i].length, m->summaries[i].arcs, m->summaries[i].labels);
    size_t from = AROUND * NODE_WORK + q->work_from, zero = 0, junk = 0;
    for (size_t i = 0; i < sizeof m->work; i++) {
        bool inside = i >= from && i < from + q->work_bytes;
        zero += inside && m->work[i] == 0;
        junk += !inside && m->work[i] == JUNK;
    }
    printf(" of %zu bytes of work %zu zero, of %zu round them %zu untouched\n", q->work_bytes, zero, sizeof m->work - q->work_bytes, junk);
}

static void print_query(const struct query *q)
{
    printf("%" PRIu32 " nodes, start %" PRIu32 ", goal %" PRIu32 ", %zu table bytes, %zu closure bytes, %zu words, %zu summaries, %zu bytes of work\n", q->nodes, q->start,
           q->goal, q->table_bytes, q->closed_bytes, q->area_words, q->summary_count, q->work_bytes);
    for (size_t i = 0; i * OJEONBUT_RECORD < q->table_bytes; i++)
        printf("  arc %zu: %" PRIu32 " %" PRIu32 " %" PRIu32 " %" PRIu32 ", closure %u\n", i, part_of(q, i, 0), part_of(q, i, 1), part_of(q, i, 2), part_of(q, i, 3), q->closed[i]);
}

/* Whether the query does what is due; the library leaves its answer in `found`. */
static bool query_as_due(const struct query *q, ojeonbut_reply *got, struct lent *found)
{
    static struct lent due;
    struct query asked = *q; /* what is lent for reading has to stay */
    memset(&due, JUNK, sizeof due);
    memset(found, JUNK, sizeof *found);
    *got = ojeonbut_pair(asked.table, q->table_bytes, q->nodes, q->start, q->goal, asked.closed, q->closed_bytes, found->area + AROUND, q->area_words,
                         found->summaries + AROUND, q->summary_count, found->work + AROUND * NODE_WORK + q->work_from, q->work_bytes);
    ojeonbut_reply r = refusal(q);
    if (!r.outcome)
        r.outcome = due_routes(q, &due, found);
    if (got->outcome == r.outcome && got->number == r.number && memcmp(&due, found, sizeof due) == 0 && memcmp(asked.table, q->table, sizeof q->table) == 0 &&
        memcmp(asked.closed, q->closed, sizeof q->closed) == 0)
        return true;
    printf("the first difference, of ojeonbut_pair: ");
    print_query(q);
    print_lent("due (of several pairs no one)", q, r, &due);
    print_lent("got", q, *got, found);
    return false;
}

/* The figure of crates/pair/specs/Figures.antt: the first route, 0 2 4, cuts off every other one, and the pair is 0 3 and 1 4, of total 8, also where 0 and 4 are of one road.
 * With arc 1 closed there is none, although there are two routes. */
static bool trap_as_due(void)
{
    static const uint32_t arcs[][3] = {{0, 1, 1}, {0, 2, 3}, {1, 2, 1}, {1, 3, 3}, {2, 3, 1}};
    struct query q = {.table_bytes = 5 * OJEONBUT_RECORD, .closed_bytes = 5, .area_words = 6, .summary_count = 2, .work_bytes = 4 * NODE_WORK, .nodes = 4, .start = 0, .goal = 3};
    struct lent m;
    ojeonbut_reply r;
    for (uint32_t i = 0; i < 5; i++)
        put_arc(q.table + i * OJEONBUT_RECORD, arcs[i][0], arcs[i][1], arcs[i][2], i % 4 == 0 ? 7 : 0);
    static const uint32_t slots[] = {0, 3, OJEONBUT_NONE, 1, 4, OJEONBUT_NONE};
    const ojeonbut_summary *s = m.summaries + AROUND;
    bool right = query_as_due(&q, &r, &m) && r.outcome == OJEONBUT_FOUND && memcmp(m.area + AROUND, slots, sizeof slots) == 0;
    right = right && s[0].length == 4 && s[0].arcs == 2 && s[1].length == 4 && s[1].arcs == 2;
    q.closed[1] = 1;
    return right && query_as_due(&q, &r, &m) && r.outcome == OJEONBUT_NO_PAIR;
}

/* The longest pair there is: the most nodes in a line, with two arcs of the greatest length from each to the next. And one record more than may be lent. */
static bool limits_as_due(void)
{
    enum { STEPS = OJEONBUT_NODES - 1 };
    static uint8_t table[(OJEONBUT_ARCS + 1) * OJEONBUT_RECORD], closed[OJEONBUT_ARCS + 1], work[OJEONBUT_NODES * NODE_WORK];
    static uint32_t area[2 * STEPS];
    ojeonbut_summary s[2];
    for (uint32_t i = 0; i < 2 * STEPS; i++)
        put_arc(table + i * OJEONBUT_RECORD, i / 2, i / 2 + 1, OJEONBUT_LENGTH, 0);
    ojeonbut_reply r = ojeonbut_pair(table, 2 * STEPS * OJEONBUT_RECORD, OJEONBUT_NODES, 0, STEPS, closed, 2 * STEPS, area, 2 * STEPS, s, 2, work, sizeof work);
    bool right = r.outcome == OJEONBUT_FOUND && r.number == 0 && area[0] == 0;
    for (uint32_t i = 0; i < 2; i++)
        right = right && s[i].length == (uint64_t)STEPS * OJEONBUT_LENGTH && s[i].arcs == STEPS && s[i].labels == 0;
    for (uint32_t i = 0; i < STEPS; i++)
        right = right && area[i] / 2 == i && area[STEPS + i] == (area[i] ^ 1);
    closed[STEPS] = 1;
    r = ojeonbut_pair(table, 2 * STEPS * OJEONBUT_RECORD, OJEONBUT_NODES, 0, STEPS, closed, 2 * STEPS, area, 2 * STEPS, s, 2, work, sizeof work);
    right = right && r.outcome == OJEONBUT_NO_PAIR && r.number == 0 && s[0].length == 0 && s[1].arcs == 0 && area[0] == OJEONBUT_NONE && area[2 * STEPS - 1] == OJEONBUT_NONE;
    closed[STEPS] = 0;
    for (uint32_t i = 0; i <= OJEONBUT_ARCS; i++)
        put_arc(table + i * OJEONBUT_RECORD, 0, 1, 2 + OJEONBUT_ARCS - i, 0);
    r = ojeonbut_pair(table, OJEONBUT_ARCS * OJEONBUT_RECORD, 2, 0, 1, closed, OJEONBUT_ARCS, area, 2, s, 2, work, 2 * NODE_WORK);
    right = right && r.outcome == OJEONBUT_FOUND && area[0] == OJEONBUT_ARCS - 1 && area[1] == OJEONBUT_ARCS - 2 && s[0].length == 3 && s[1].length == 4;
    r = ojeonbut_pair(table, sizeof table, 2, 0, 1, closed, OJEONBUT_ARCS + 1, area, 2, s, 2, work, 2 * NODE_WORK);
    return right && r.outcome == OJEONBUT_SIZE && r.number == 0 && area[0] == OJEONBUT_ARCS - 1 && s[0].length == 3;
}

int main(void)
{
    static struct lent found;
    uint32_t outcomes[OJEONBUT_NO_PAIR + 1] = {0};
    bool figures = trap_as_due() && limits_as_due();
    cut_off = longer = several = crowded = 0;
    for (uint32_t i = 0; i < CASES; i++) {
        struct query q = draw_query();
        spoil(&q);
        if (draw(4) == 0) /* two faults, of which the first in the order of refusals decides */
            spoil(&q);
        ojeonbut_reply r;
        if (!query_as_due(&q, &r, &found))
            return 1;
        outcomes[r.outcome]++;
    }
    printf("pairs: drawn cases %d, all as due; the figure and the limits %s\noutcomes:", CASES, figures ? "as due" : "NOT as due");
    for (int i = 0; i <= OJEONBUT_NO_PAIR; i++)
        if (outcomes[i] > 0)
            printf(" %d in %" PRIu32 ",", i, outcomes[i]);
    printf(" no other\npairs where the first route cuts off every second one: %" PRIu32 "; where the first route with the next that shares no arc is longer: %" PRIu32
           "; with several of the least total: %" PRIu32 "\nno pair although there are two routes: %" PRIu32 "\n",
           cut_off, longer, several, crowded);
    return figures && cut_off > 0 && longer > 0 ? 0 : 1;
}
