/* The via routes and the lookup of runs on drawn small tables, second tables, queries and closures, right and spoilt, in buffers that lie in junk. Each outcome, and every byte
 * that is to be zero, filled or untouched, is held against the refusals and the definition written out here: all simple routes from the start to each node and from it to
 * the goal are listed, the first of each joined, and the chains sifted. Prints how many calls there were, how often each outcome occurred and what the candidates were like;
 * exits 1 at the first call that differs, and prints it. */
#include "ojeonbut.h"

#include <inttypes.h>
#include <stdbool.h>
#include <stdio.h>
#include <stdlib.h>
#include <string.h>

enum { CASES = 10000, NODES = 8, ARCS = 16, NODE_WORK = 64, AROUND = 3, JUNK = 0xa5, SECOND = 20 /* the outcome for a wrong second table */ };

struct query {
    uint8_t table[(ARCS + 2) * OJEONBUT_RECORD], second[(ARCS + 2) * OJEONBUT_RECORD];
    uint8_t closed[ARCS + 2];
    size_t table_bytes, second_bytes, closed_bytes, area_words, summary_count, work_bytes;
    size_t work_from; /* bytes off its alignment, since none is asked for */
    uint32_t nodes, start, goal, k, a, b;
};

struct lent {
    uint32_t area[AROUND + OJEONBUT_ROUTES * NODES + AROUND];
    ojeonbut_summary summaries[AROUND + OJEONBUT_ROUTES + 2 + AROUND];
    uint8_t work[(AROUND + NODES + 1 + AROUND) * NODE_WORK];
};

/* A chain of arcs. */
struct chain {
    uint64_t length;
    uint32_t count, arcs[2 * NODES];
};

/* In how many queries there were candidates of each kind. */
static uint32_t crossing, repeated, tied, sifted, routes_of[OJEONBUT_ROUTES + 1];

static uint64_t state = 1;

/* A number below n. */
static uint32_t draw(uint32_t n)
{
    state = state * 6364136223846793005u + 1442695040888963407u;
    return (uint32_t)((state >> 33) % n);
}

static uint32_t word(const uint8_t *p) { return p[0] | (uint32_t)p[1] << 8 | (uint32_t)p[2] << 16 | (uint32_t)p[3] << 24; }

static void put(uint8_t *p, uint32_t v)
{
    for (int i = 0; i < 4; i++)
        p[i] = (uint8_t)(v >> 8 * i);
}

/* Word i of an arc's record: 0 its start node, 1 its end node, 2 its length, 3 its road number. */
static uint32_t part_of(const struct query *q, uint32_t arc, int i) { return word(q->table + arc * OJEONBUT_RECORD + 4 * i); }

/* The arcs that come to each node in turn, by number; the bytes of the second table that is due, if no record names another node. */
static size_t due_second(const struct query *q, uint8_t *out)
{
    size_t bytes = 0;
    for (uint32_t node = 0; node < q->nodes; node++)
        for (uint32_t arc = 0; arc < q->table_bytes / OJEONBUT_RECORD; arc++)
            if (part_of(q, arc, 1) == node) {
                memcpy(out + bytes, q->table + arc * OJEONBUT_RECORD, OJEONBUT_RECORD);
                bytes += OJEONBUT_RECORD;
            }
    return bytes;
}

/* The road number of an arc, one of so many; in three manners of eight 0. */
static uint32_t draw_road(uint32_t manner, uint32_t from, uint32_t to, uint32_t arcs)
{
    switch (manner) {
    case 0: return from < to ? from * NODES + to : to * NODES + from; /* both sides of a street */
    case 1: return draw(3);                                           /* few roads */
    case 2: return 0u - draw(3);                                      /* the greatest numbers */
    case 3: return 1u << 8 * draw(4);                                 /* told apart by one byte */
    case 4: return draw(arcs);                                        /* the numbers of arcs */
    default: return 0;
    }
}

/* An arc from one drawn node to another, or one that leaves the start or comes to the goal, so that several ways lead there. */
static void draw_ends(const struct query *q, uint32_t manner, uint32_t *from, uint32_t *to)
{
    uint32_t which = draw(manner ? 5 : 1);
    *from = which == 1 || which == 2 ? q->start : draw(q->nodes);
    *to = which >= 3 && *from != q->goal ? q->goal : (*from + 1 + draw(q->nodes - 1)) % q->nodes;
}

/* A query that no refusal is due to, of few nodes and mostly short lengths, so that ties and parallel arcs are common. */
static struct query draw_query(void)
{
    struct query q = {.nodes = 2 + (draw(4) ? NODES - 2 - draw(3) : draw(NODES - 1)), .k = 1 + draw(draw(2) ? 3 : OJEONBUT_ROUTES), .work_from = draw(8)};
    uint32_t arcs = draw(4) ? ARCS - draw(4) : draw(ARCS + 1), manner = draw(4), long_ones = draw(4) == 0, longest = 1 + draw(4), roads = draw(8);
    q.b = 1 + draw(draw(2) ? 5 : 1000);
    q.a = draw(3) ? draw(q.b) : q.b - 1;
    q.start = draw(q.nodes);
    q.goal = (q.start + 1 + draw(q.nodes - 1)) % q.nodes;
    for (uint32_t i = 0, from, to; i < arcs; i++) {
        draw_ends(&q, manner, &from, &to);
        uint8_t *record = q.table + i * OJEONBUT_RECORD;
        for (; record > q.table && word(record - OJEONBUT_RECORD) > from; record -= OJEONBUT_RECORD)
            memcpy(record, record - OJEONBUT_RECORD, OJEONBUT_RECORD);
        put(record, from);
        put(record + 4, to);
        put(record + 8, long_ones ? OJEONBUT_LENGTH - draw(1000) : 1 + draw(longest));
        put(record + 12, draw_road(roads, from, to, arcs));
    }
    q.table_bytes = arcs * OJEONBUT_RECORD;
    q.second_bytes = due_second(&q, q.second);
    q.closed_bytes = arcs;
    uint32_t closing = draw(12), node = draw(q.nodes); /* none, all arcs that come to one node, or one in so many */
    for (uint32_t i = 0; closing > 1 && i < arcs; i++)
        q.closed[i] = closing == 2 ? part_of(&q, i, 1) == node : draw(closing) == 0;
    q.area_words = q.k * (q.nodes - 1) + draw(4);
    q.summary_count = q.k + draw(3);
    q.work_bytes = q.nodes * NODE_WORK + (draw(2) ? draw(NODE_WORK) : 0);
    return q;
}

static void exchange(uint8_t *record, uint8_t *other)
{
    uint8_t kept[OJEONBUT_RECORD];
    memcpy(kept, record, OJEONBUT_RECORD);
    memcpy(record, other, OJEONBUT_RECORD);
    memcpy(other, kept, OJEONBUT_RECORD);
}

/* Two neighbours of the second table exchanged: parallel arcs, or other arcs to one node. */
static void exchange_neighbours(struct query *q, bool parallel)
{
    for (size_t i = 0; i + 2 * OJEONBUT_RECORD <= q->second_bytes; i += OJEONBUT_RECORD) {
        uint8_t *record = q->second + i, *other = record + OJEONBUT_RECORD;
        bool same_start = word(record) == word(other), same_end = word(record + 4) == word(other + 4);
        if (same_end && same_start == parallel && draw(2)) {
            exchange(record, other);
            return;
        }
    }
}

/* The second table made wrong; where its records are equal it may stay right. */
static void spoil_second(struct query *q)
{
    size_t records = q->second_bytes / OJEONBUT_RECORD, place = draw(ARCS + 1) * OJEONBUT_RECORD;
    if (place + OJEONBUT_RECORD > q->second_bytes)
        place = 0;
    switch (draw(9)) {
    case 0:
    case 1: exchange_neighbours(q, true); break;
    case 2: exchange_neighbours(q, false); break;
    case 3:
        if (records > 0)
            exchange(q->second + place, q->second + draw((uint32_t)records) * OJEONBUT_RECORD);
        break;
    case 4: q->second[place + draw(OJEONBUT_RECORD)] ^= (uint8_t)(1 + draw(255)); break;
    case 5: /* a record missing */
        if (records > 0) {
            memmove(q->second + place, q->second + place + OJEONBUT_RECORD, q->second_bytes - place - OJEONBUT_RECORD);
            q->second_bytes -= OJEONBUT_RECORD;
        }
        break;
    case 6: /* a record twice */
        memmove(q->second + place + OJEONBUT_RECORD, q->second + place, q->second_bytes - place);
        q->second_bytes += OJEONBUT_RECORD;
        break;
    case 7: memcpy(q->second, q->table, q->table_bytes); break; /* in order of start node */
    default: q->second_bytes = draw(2) || records == 0 ? q->second_bytes + 1 + draw(15) : q->second_bytes - 1 - draw(15); break;
    }
}

/* One thing made wrong, or nothing. No length is ever greater than what is lent. */
static void spoil(struct query *q)
{
    uint8_t *record = q->table + draw(ARCS) * OJEONBUT_RECORD;
    bool sized = q->k > 0 && q->nodes > 1 && q->nodes <= NODES; /* a fault before may have made it otherwise */
    switch (draw(44)) {
    case 0: put(record + 4 * draw(2), draw(2) ? q->nodes : 0xffffffff); break;
    case 1: put(record + 4, word(record)); break;
    case 2: put(record + 8, draw(2) ? 0 : OJEONBUT_LENGTH + 1); break;
    case 3: put(record, 0); break;
    case 4: q->start = draw(2) ? q->goal : q->nodes; break;
    case 5: q->goal = draw(2) ? q->nodes : 0xffffffff; break;
    case 6: q->k = draw(2) ? 0 : OJEONBUT_ROUTES + 1; break;
    case 7: q->a = q->b; break;
    case 8: q->b = draw(2) ? 0 : 1001; break;
    case 9: q->area_words = sized ? q->k * (q->nodes - 1) - 1 : 0; break;
    case 10: q->summary_count = sized ? q->k - 1 : 0; break;
    case 11: q->nodes = draw(2) ? 0 : OJEONBUT_NODES + 1; break;
    case 12: q->table_bytes += 1 + draw(15); break;
    case 13: q->closed_bytes = draw(2) ? q->closed_bytes + 1 : q->closed_bytes ? draw((uint32_t)q->closed_bytes) : 1; break;
    case 14: q->closed[draw(ARCS)] = (uint8_t)(2 + draw(254)); break;
    case 15: q->work_bytes = sized ? q->nodes * NODE_WORK - 1 - (draw(2) ? draw(NODE_WORK) : 0) : 0; break;
    case 16: put(record + 8, 1 + draw(9)); break; /* of the first table only */
    case 17:
    case 18:
    case 19:
    case 20: spoil_second(q); break;
    default: break;
    }
}

/* 13, or the lowest of 2 to 6 in the lowest faulty record. */
static ojeonbut_reply table_fault(const struct query *q)
{
    if (q->nodes < 1 || q->nodes > OJEONBUT_NODES || q->table_bytes % OJEONBUT_RECORD)
        return (ojeonbut_reply){OJEONBUT_SIZE, 0};
    for (uint32_t i = 0, before = 0; i < q->table_bytes / OJEONBUT_RECORD; before = part_of(q, i++, 0)) {
        uint32_t from = part_of(q, i, 0), to = part_of(q, i, 1), length = part_of(q, i, 2);
        if (from >= q->nodes || to >= q->nodes)
            return (ojeonbut_reply){OJEONBUT_NODE, i};
        if (from == to)
            return (ojeonbut_reply){OJEONBUT_LOOP, i};
        if (length < 1 || length > OJEONBUT_LENGTH)
            return (ojeonbut_reply){OJEONBUT_BAD_LENGTH, i};
        if (from < before)
            return (ojeonbut_reply){OJEONBUT_ORDER, i};
    }
    return (ojeonbut_reply){OJEONBUT_FOUND, 0};
}

/* The same, or 20. */
static ojeonbut_reply tables_fault(const struct query *q)
{
    uint8_t due[sizeof q->table];
    ojeonbut_reply r = table_fault(q);
    if (r.outcome == OJEONBUT_FOUND && (due_second(q, due) != q->second_bytes || memcmp(due, q->second, q->second_bytes) != 0))
        r.outcome = SECOND;
    return r;
}

/* The refusal due to a query, or outcome 0. */
static ojeonbut_reply refusal(const struct query *q)
{
    ojeonbut_reply r = tables_fault(q);
    if (r.outcome)
        return r;
    bool closures = q->closed_bytes == q->table_bytes / OJEONBUT_RECORD;
    for (size_t i = 0; i < q->closed_bytes; i++)
        closures = closures && q->closed[i] <= 1;
    if (!closures)
        r.outcome = OJEONBUT_CLOSURES;
    else if (q->start >= q->nodes || q->goal >= q->nodes || q->start == q->goal)
        r.outcome = OJEONBUT_ENDS;
    else if (q->k < 1 || q->k > OJEONBUT_ROUTES)
        r.outcome = OJEONBUT_WANTED;
    else if (q->b < 1 || q->b > 1000 || q->a >= q->b)
        r.outcome = OJEONBUT_THRESHOLD;
    else if (q->area_words < q->k * (q->nodes - 1) || q->summary_count < q->k || q->work_bytes < q->nodes * NODE_WORK)
        r.outcome = OJEONBUT_BUFFERS;
    return r;
}

/* Rule 3: below 0 where x precedes y, 0 where they are the same. */
static int order(const struct chain *x, const struct chain *y)
{
    if (x->length != y->length)
        return x->length < y->length ? -1 : 1;
    for (uint32_t i = 0; i < x->count && i < y->count; i++)
        if (x->arcs[i] != y->arcs[i])
            return x->arcs[i] < y->arcs[i] ? -1 : 1;
    return (int)x->count - (int)y->count;
}

static int order_any(const void *x, const void *y) { return order(x, y); }

static void append(const struct query *q, struct chain *c, uint32_t arc)
{
    c->arcs[c->count++] = arc;
    c->length += part_of(q, arc, 2);
}

/* Goes through all chains over open arcs that extend c, which ends at node `at`, to node `to` and visit no node twice; keeps the first in `first`, which holds one once `any`
 * is set. Bit v of `visited` is set for each node that c visits. */
static void list(const struct query *q, const struct chain *c, uint32_t at, uint32_t to, uint32_t visited, struct chain *first, bool *any)
{
    if (at == to) {
        if (!*any || order(c, first) < 0)
            *first = *c;
        *any = true;
        return;
    }
    for (uint32_t arc = 0; arc < q->table_bytes / OJEONBUT_RECORD; arc++) {
        uint32_t end = part_of(q, arc, 1);
        if (part_of(q, arc, 0) != at || q->closed[arc] || visited >> end & 1)
            continue;
        struct chain longer = *c;
        append(q, &longer, arc);
        list(q, &longer, end, to, visited | 1u << end, first, any);
    }
}

static bool first_route(const struct query *q, uint32_t from, uint32_t to, struct chain *first)
{
    const struct chain empty = {0};
    bool any = false;
    list(q, &empty, from, to, 1u << from, first, &any);
    return any;
}

static bool visits_twice(const struct query *q, const struct chain *c)
{
    uint32_t visited = 1u << q->start;
    for (uint32_t i = 0; i < c->count; i++) {
        uint32_t end = part_of(q, c->arcs[i], 1);
        if (visited >> end & 1)
            return true;
        visited |= 1u << end;
    }
    return false;
}

/* The candidates in order, each once; how many. */
static uint32_t candidates(const struct query *q, struct chain *found)
{
    uint32_t count = 0, once = 0;
    bool crosses = false, ties = false;
    for (uint32_t node = 0; node < q->nodes; node++) {
        struct chain to = {0}, from = {0};
        if (!first_route(q, q->start, node, &to) || !first_route(q, node, q->goal, &from))
            continue;
        for (uint32_t i = 0; i < from.count; i++)
            append(q, &to, from.arcs[i]);
        if (visits_twice(q, &to))
            crosses = true;
        else
            found[count++] = to;
    }
    qsort(found, count, sizeof *found, order_any);
    for (uint32_t i = 0; i < count; i++)
        if (i == 0 || order(&found[i], &found[once - 1]) != 0) {
            ties |= i > 0 && found[i].length == found[once - 1].length;
            found[once++] = found[i];
        }
    crossing += crosses;
    repeated += once < count;
    tied += ties;
    return once;
}

/* The length of c's arcs whose road the kept one drives. */
static uint64_t overlap(const struct query *q, const struct chain *c, const struct chain *kept)
{
    uint64_t sum = 0;
    for (uint32_t i = 0; i < c->count; i++) {
        bool driven = false;
        for (uint32_t j = 0; j < kept->count; j++)
            driven |= c->arcs[i] == kept->arcs[j] || (part_of(q, c->arcs[i], 3) != 0 && part_of(q, c->arcs[i], 3) == part_of(q, kept->arcs[j], 3));
        if (driven)
            sum += part_of(q, c->arcs[i], 2);
    }
    return sum;
}

/* What a query that is not refused leaves, and its outcome. */
static uint32_t due_routes(const struct query *q, struct lent *m)
{
    struct chain found[NODES], kept[OJEONBUT_ROUTES];
    uint32_t count = candidates(q, found), routes = 0;
    bool passed = false;
    for (uint32_t i = 0; i < count && routes < q->k; i++) {
        bool within = true;
        for (uint32_t p = 0; p < routes; p++)
            within = within && q->b * overlap(q, &found[i], &kept[p]) <= q->a * kept[p].length;
        if (within)
            kept[routes++] = found[i];
        passed |= !within;
    }
    sifted += passed;
    routes_of[routes]++;
    for (uint32_t r = 0; r < q->k; r++) {
        const struct chain *c = r < routes ? &kept[r] : &(struct chain){0};
        for (uint32_t i = 0; i + 1 < q->nodes; i++)
            m->area[AROUND + r * (q->nodes - 1) + i] = i < c->count ? c->arcs[i] : OJEONBUT_NONE;
        m->summaries[AROUND + r] = (ojeonbut_summary){c->length, c->count, 0};
    }
    memset(m->work + AROUND * NODE_WORK + q->work_from, 0, q->work_bytes);
    return routes == q->k ? OJEONBUT_FOUND : OJEONBUT_FEWER;
}

static void print_lent(const char *name, const struct query *q, ojeonbut_reply r, const struct lent *m)
{
    printf("  %s: outcome %" PRIu32 ", number %" PRIu32 "; words:", name, r.outcome, r.number);
    for (size_t i = 0; i < sizeof m->area / sizeof *m->area; i++)
        printf(" %" PRIx32, m->area[i]);
    printf("; summaries:");
    for (size_t i = 0; i < sizeof m->summaries / sizeof *m->summaries; i++)
        printf(" %" PRIx64 " %" PRIx64 " %" PRIx64 ",", m->summaries[i].length, m->summaries[i].arcs, m->summaries[i].labels);
    size_t from = AROUND * NODE_WORK + q->work_from, zero = 0, junk = 0;
    for (size_t i = 0; i < sizeof m->work; i++) {
        bool inside = i >= from && i < from + q->work_bytes;
        zero += inside && m->work[i] == 0;
        junk += !inside && m->work[i] == JUNK;
    }
    printf(" of %zu bytes of work %zu zero, of %zu round them %zu untouched\n", q->work_bytes, zero, sizeof m->work - q->work_bytes, junk);
}

static void print_query(const struct query *q)
{
    printf("%" PRIu32 " nodes, start %" PRIu32 ", goal %" PRIu32 ", k %" PRIu32 ", threshold %" PRIu32 "/%" PRIu32
           ", %zu table bytes, %zu bytes of the second, %zu closure bytes, %zu words, %zu summaries, %zu bytes of work\n",
           q->nodes, q->start, q->goal, q->k, q->a, q->b, q->table_bytes, q->second_bytes, q->closed_bytes, q->area_words, q->summary_count, q->work_bytes);
    for (size_t i = 0; i < ARCS + 2; i++) {
        const uint8_t *record = q->table + i * OJEONBUT_RECORD, *other = q->second + i * OJEONBUT_RECORD;
        if (i * OJEONBUT_RECORD < q->table_bytes || i * OJEONBUT_RECORD < q->second_bytes)
            printf("  arc %zu: %" PRIu32 " %" PRIu32 " %" PRIu32 " %" PRIu32 ", closure %u; of the second: %" PRIu32 " %" PRIu32 " %" PRIu32 " %" PRIu32 "\n", i,
                   word(record), word(record + 4), word(record + 8), word(record + 12), q->closed[i], word(other), word(other + 4), word(other + 8), word(other + 12));
    }
}

/* Whether the query does what is due. */
static bool query_as_due(const struct query *q, ojeonbut_reply *got)
{
    static struct lent due, found;
    struct query asked = *q; /* what is lent for reading has to stay */
    memset(&due, JUNK, sizeof due);
    memset(&found, JUNK, sizeof found);
    ojeonbut_reply r = refusal(q);
    if (!r.outcome)
        r.outcome = due_routes(q, &due);
    *got = ojeonbut_query_via(asked.table, q->table_bytes, asked.second, q->second_bytes, q->nodes, q->start, q->goal, q->k, q->a, q->b, asked.closed, q->closed_bytes,
                              found.area + AROUND, q->area_words, found.summaries + AROUND, q->summary_count, found.work + AROUND * NODE_WORK + q->work_from, q->work_bytes);
    if (got->outcome == r.outcome && got->number == r.number && memcmp(&due, &found, sizeof due) == 0 &&
        memcmp(asked.table, q->table, sizeof q->table) == 0 && memcmp(asked.second, q->second, sizeof q->second) == 0 && memcmp(asked.closed, q->closed, sizeof q->closed) == 0)
        return true;
    printf("the first difference, of ojeonbut_query_via: ");
    print_query(q);
    print_lent("due", q, r, &due);
    print_lent("got", q, *got, &found);
    return false;
}

/* Each node's run in each direction: the records with this node in their first or second word stand together, after all with a lower one. */
static bool runs_as_due(const struct query *q)
{
    static const uint32_t directions[] = {0, 1, 2, 0xffffffff}, others[] = {OJEONBUT_NODES, 0xffffffff};
    bool fault = tables_fault(q).outcome;
    for (uint32_t i = 0; i < NODES + 4; i++) {
        uint32_t node = i < NODES + 2 ? i : others[i - NODES - 2];
        for (size_t d = 0; d < sizeof directions / sizeof *directions; d++) {
            const uint8_t *records = d == 0 ? q->table : q->second;
            ojeonbut_part part = ojeonbut_run(q->table, q->table_bytes, q->second, q->second_bytes, q->nodes, directions[d], node);
            size_t below = 0, here = 0;
            for (size_t at = 0; !fault && node < q->nodes && d < 2 && at < q->table_bytes; at += OJEONBUT_RECORD) {
                below += word(records + at + 4 * d) < node ? OJEONBUT_RECORD : 0;
                here += word(records + at + 4 * d) == node ? OJEONBUT_RECORD : 0;
            }
            if (part.place == below && part.bytes == here)
                continue;
            printf("the first difference, of ojeonbut_run in direction %" PRIu32 " at node %" PRIu32 ": due %zu %zu, got %zu %zu: ", directions[d], node, below, here, part.place,
                   part.bytes);
            print_query(q);
            return false;
        }
    }
    return true;
}

/* The longest route there is: the most nodes in a line, with two arcs of the greatest length from each to the next, of which the lower is driven. And one record more
 * than may be lent. */
static bool limits_as_due(void)
{
    enum { STEPS = OJEONBUT_NODES - 1 };
    static uint8_t table[(OJEONBUT_ARCS + 1) * OJEONBUT_RECORD], closed[OJEONBUT_ARCS + 1], work[OJEONBUT_NODES * NODE_WORK];
    static uint32_t area[2 * STEPS];
    ojeonbut_summary s[2];
    for (uint32_t i = 0; i < 2 * STEPS; i++) {
        put(table + i * OJEONBUT_RECORD, i / 2);
        put(table + i * OJEONBUT_RECORD + 4, i / 2 + 1);
        put(table + i * OJEONBUT_RECORD + 8, OJEONBUT_LENGTH);
    }
    const size_t bytes = 2 * STEPS * OJEONBUT_RECORD; /* in order of end node too */
    ojeonbut_reply r = ojeonbut_query_via(table, bytes, table, bytes, OJEONBUT_NODES, 0, STEPS, 2, 999, 1000, closed, 2 * STEPS, area, 2 * STEPS, s, 2, work, sizeof work);
    bool right = r.outcome == OJEONBUT_FEWER && r.number == 0 && s[0].length == (uint64_t)STEPS * OJEONBUT_LENGTH && s[0].arcs == STEPS && s[0].labels == 0 && s[1].length == 0;
    for (uint32_t i = 0; i < STEPS; i++)
        right = right && area[i] == 2 * i && area[STEPS + i] == OJEONBUT_NONE;
    for (uint32_t direction = 0; direction < 2; direction++) {
        ojeonbut_part part = ojeonbut_run(table, bytes, table, bytes, OJEONBUT_NODES, direction, STEPS - 1);
        right = right && part.place == bytes - (2 + 2 * direction) * OJEONBUT_RECORD && part.bytes == 2 * OJEONBUT_RECORD;
    }
    for (uint32_t i = 0; i <= OJEONBUT_ARCS; i++) {
        put(table + i * OJEONBUT_RECORD, 0);
        put(table + i * OJEONBUT_RECORD + 4, 1);
    }
    for (uint32_t i = 2 * STEPS; i <= OJEONBUT_ARCS; i++)
        put(table + i * OJEONBUT_RECORD + 8, 1);
    const size_t most = OJEONBUT_ARCS * OJEONBUT_RECORD, over = sizeof table;
    r = ojeonbut_query_via(table, most, table, most, 2, 0, 1, 1, 0, 1, closed, OJEONBUT_ARCS, area, 1, s, 1, work, 2 * NODE_WORK);
    right = right && r.outcome == OJEONBUT_FOUND && area[0] == 2 * STEPS && s[0].length == 1 && s[0].arcs == 1;
    r = ojeonbut_query_via(table, over, table, over, 2, 0, 1, 1, 0, 1, closed, OJEONBUT_ARCS + 1, area, 1, s, 1, work, 2 * NODE_WORK);
    right = right && r.outcome == OJEONBUT_SIZE && r.number == 0;
    ojeonbut_part whole = ojeonbut_run(table, most, table, most, 2, 1, 1), none = ojeonbut_run(table, over, table, over, 2, 1, 1);
    return right && whole.place == 0 && whole.bytes == most && none.place == 0 && none.bytes == 0;
}

/* As many routes as may be wanted: by each of as many nodes, all of one length, in order of their numbers. Where the last two are of one road the last is beyond the threshold. */
static bool most_routes_as_due(void)
{
    enum { MIDDLES = OJEONBUT_ROUTES, WIDTH = MIDDLES + 1 };
    uint8_t table[2 * MIDDLES * OJEONBUT_RECORD] = {0}, closed[2 * MIDDLES] = {0}, work[(MIDDLES + 2) * NODE_WORK];
    uint32_t area[OJEONBUT_ROUTES * WIDTH];
    ojeonbut_summary s[OJEONBUT_ROUTES];
    bool right = true;
    for (uint32_t i = 0; i < MIDDLES; i++) {
        uint8_t *to = table + i * OJEONBUT_RECORD, *from = to + MIDDLES * OJEONBUT_RECORD;
        put(to + 4, 1 + i);
        put(to + 8, 2);
        put(from, 1 + i);
        put(from + 4, MIDDLES + 1);
        put(from + 8, 3);
    }
    for (uint32_t routes = MIDDLES; routes >= MIDDLES - 1; routes--) {
        ojeonbut_reply r = ojeonbut_query_via(table, sizeof table, table, sizeof table, MIDDLES + 2, 0, MIDDLES + 1, OJEONBUT_ROUTES, 1, 3, closed, sizeof closed, area,
                                              OJEONBUT_ROUTES * WIDTH, s, OJEONBUT_ROUTES, work, sizeof work);
        right = right && r.outcome == (routes < MIDDLES ? OJEONBUT_FEWER : OJEONBUT_FOUND) && r.number == 0;
        for (uint32_t i = 0; i < OJEONBUT_ROUTES; i++) {
            bool there = i < routes;
            right = right && s[i].length == (there ? 5 : 0) && s[i].arcs == (there ? 2 : 0) && s[i].labels == 0;
            for (uint32_t j = 0; j < WIDTH; j++)
                right = right && area[i * WIDTH + j] == (there && j < 2 ? i + j * MIDDLES : OJEONBUT_NONE);
        }
        for (uint32_t i = MIDDLES - 2; i < MIDDLES; i++)
            put(table + i * OJEONBUT_RECORD + 12, 5);
    }
    return right;
}

int main(void)
{
    uint32_t outcomes[SECOND + 1] = {0};
    for (uint32_t i = 0; i < CASES; i++) {
        struct query q = draw_query();
        spoil(&q);
        if (draw(4) == 0) /* two faults, of which the first in the order of refusals decides */
            spoil(&q);
        ojeonbut_reply r;
        if (!query_as_due(&q, &r) || !runs_as_due(&q))
            return 1;
        outcomes[r.outcome]++;
    }
    bool limits = limits_as_due() && most_routes_as_due();
    printf("via routes: drawn cases %d, all as due, with %d lookups each; the limits %s\noutcomes:", CASES, 4 * (NODES + 4), limits ? "as due" : "NOT as due");
    for (int i = 0; i <= SECOND; i++)
        if (outcomes[i] > 0)
            printf(" %d in %" PRIu32 ",", i, outcomes[i]);
    printf(" no other\nqueries not refused with a candidate that crosses itself: %" PRIu32 "; with repeated ones: %" PRIu32 "; with two of one length: %" PRIu32
           "; with one beyond the threshold: %" PRIu32 "\nroutes:",
           crossing, repeated, tied, sifted);
    for (int i = 0; i <= OJEONBUT_ROUTES; i++)
        printf(" %d in %" PRIu32 "%s", i, routes_of[i], i < OJEONBUT_ROUTES ? "," : "\n");
    return limits ? 0 : 1;
}
