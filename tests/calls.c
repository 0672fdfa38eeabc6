/* The archive's version, and its other calls on drawn small tables, road numbers, queries and closures, right and spoilt, in buffers that lie in junk. Each outcome, and every
 * byte that is to be zero, filled or untouched, is held against the baseline's answer and against the refusals written out here. Prints how many calls there were, how often
 * each outcome occurred, and how often road numbers make a difference; exits 1 where one differs, and prints the first that does. */
#include "baseline.h"

#include <stdbool.h>
#include <stdio.h>
#include <string.h>

enum { CASES = 20000, NODES = 8, ARCS = 16, ROOM = 40, AROUND = 3, JUNK = 0xa5 };

struct query {
    uint8_t table[(ARCS + 1) * OJEONBUT_RECORD];
    uint8_t closed[ARCS + 2];
    size_t table_bytes, closed_bytes, label_bytes, area_words, summary_count, ratio_count;
    uint32_t nodes, start, goal, k, a, b;
};

struct lent {
    _Alignas(16) uint8_t labels[(AROUND + ROOM + 1 + AROUND) * OJEONBUT_LABEL];
    uint32_t area[AROUND + OJEONBUT_ROUTES * NODES + AROUND];
    ojeonbut_summary summaries[AROUND + OJEONBUT_ROUTES + 2 + AROUND];
    ojeonbut_ratios ratios[AROUND + OJEONBUT_ROUTES + 2 + AROUND];
};

/* The three queries. */
enum manner { PLAIN, CLOSING, RATED, MANNERS };

static uint64_t state = 1;

/* A number below n. */
static uint32_t draw(uint32_t n)
{
    state = state * 6364136223846793005u + 1442695040888963407u;
    return (uint32_t)((state >> 33) % n);
}

static uint32_t word(const uint8_t *p) { return p[0] | (uint32_t)p[1] << 8 | (uint32_t)p[2] << 16 | (uint32_t)p[3] << 24; }

static void put(uint8_t *p, uint32_t v)
{
    for (int i = 0; i < 4; i++)
        p[i] = (uint8_t)(v >> 8 * i);
}

/* The road number of the arc at `record`, one of so many; in five manners of twelve 0. */
static uint32_t draw_road(uint32_t manner, const uint8_t *record, uint32_t arcs)
{
    uint32_t from = word(record), to = word(record + 4);
    switch (manner) {
    case 0: return from < to ? from * NODES + to : to * NODES + from; /* both sides of a street */
    case 1: return 7 * (draw(arcs) < 2);                              /* about two arcs of one road */
    case 2: return draw(3);                                           /* few roads */
    case 3: return 5;                                                 /* one road */
    case 4: return 0u - draw(3);                                      /* the greatest numbers */
    case 5: return 1u << 8 * draw(4);                                 /* told apart by one byte */
    case 6: return draw(arcs);                                        /* the numbers of arcs */
    default: return 0;
    }
}

/* A query that no refusal is due to, of few nodes and mostly short lengths, so that ties and parallel arcs are common. */
static struct query draw_query(void)
{
    struct query q = {.nodes = 2 + draw(NODES - 1), .k = 1 + draw(OJEONBUT_ROUTES)};
    uint32_t arcs = draw(ARCS + 1), from = 0, long_ones = draw(4) == 0;
    q.b = 1 + draw(draw(2) ? 5 : 1000);
    q.a = draw(3) ? draw(q.b) : q.b - 1;
    q.start = draw(q.nodes);
    q.goal = (q.start + 1 + draw(q.nodes - 1)) % q.nodes;
    for (uint32_t i = 0; i < arcs; i++) {
        uint8_t *record = q.table + i * OJEONBUT_RECORD;
        if (draw(2) && from + 1 < q.nodes)
            from++;
        put(record, from);
        put(record + 4, (from + 1 + draw(q.nodes - 1)) % q.nodes);
        put(record + 8, long_ones ? OJEONBUT_LENGTH - draw(1000) : 1 + draw(4));
    }
    uint32_t roads = draw(12);
    for (uint32_t i = 0; i < arcs; i++)
        put(q.table + i * OJEONBUT_RECORD + 12, draw_road(roads, q.table + i * OJEONBUT_RECORD, arcs));
    q.table_bytes = arcs * OJEONBUT_RECORD;
    q.closed_bytes = arcs;
    uint32_t manner = draw(8), node = draw(q.nodes); /* of closing: none, all arcs of one node, or one in so many */
    for (uint32_t i = 0; manner && i < arcs; i++)
        q.closed[i] = manner == 1 ? word(q.table + i * OJEONBUT_RECORD) == node : draw(manner) == 0;
    q.label_bytes = draw(ROOM + 1) * OJEONBUT_LABEL + draw(OJEONBUT_LABEL);
    q.area_words = q.k * (q.nodes - 1) + draw(4);
    q.summary_count = q.k + draw(3);
    q.ratio_count = q.k + draw(3);
    return q;
}

/* One thing made wrong, or nothing. */
static void spoil(struct query *q)
{
    uint8_t *record = q->table + draw(ARCS) * OJEONBUT_RECORD;
    switch (draw(21)) {
    case 0: put(record + 4 * draw(2), draw(2) ? q->nodes : 0xffffffff); break;
    case 1: put(record + 4, word(record)); break;
    case 2: put(record + 8, draw(2) ? 0 : OJEONBUT_LENGTH + 1); break;
    case 3: put(record, 0); break;
    case 4: q->start = draw(2) ? q->goal : q->nodes; break;
    case 5: q->goal = draw(2) ? q->nodes : 0xffffffff; break;
    case 6: q->k = draw(2) ? 0 : OJEONBUT_ROUTES + 1; break;
    case 7: q->a = q->b; break;
    case 8: q->b = draw(2) ? 0 : 1001; break;
    case 9: q->area_words = q->k * (q->nodes - 1) - 1; break;
    case 10: q->summary_count = q->k - 1; break;
    case 11: q->nodes = draw(2) ? 0 : OJEONBUT_NODES + 1; break;
    case 12: q->table_bytes += 1 + draw(15); break;
    case 13: q->closed_bytes = draw(2) ? q->closed_bytes + 1 : q->closed_bytes ? draw((uint32_t)q->closed_bytes) : 1; break;
    case 14: q->closed[draw(ARCS)] = (uint8_t)(2 + draw(254)); break;
    case 15: q->ratio_count = q->k - 1; break;
    default: break;
    }
}

/* 13, or the lowest of 2 to 6 in the lowest faulty record. */
static ojeonbut_reply table_fault(const struct query *q)
{
    if (q->nodes < 1 || q->nodes > OJEONBUT_NODES || q->table_bytes % OJEONBUT_RECORD)
        return (ojeonbut_reply){OJEONBUT_SIZE, 0};
    for (uint32_t i = 0, before = 0; i < q->table_bytes / OJEONBUT_RECORD; i++) {
        const uint8_t *record = q->table + i * OJEONBUT_RECORD;
        uint32_t from = word(record), to = word(record + 4), length = word(record + 8);
        uint32_t fault = from >= q->nodes || to >= q->nodes                ? OJEONBUT_NODE
                         : from == to                                      ? OJEONBUT_LOOP
                         : length < 1 || length > OJEONBUT_LENGTH          ? OJEONBUT_BAD_LENGTH
                         : from < before                                   ? OJEONBUT_ORDER
                                                                           : 0;
        if (fault)
            return (ojeonbut_reply){fault, i};
        before = from;
    }
    return (ojeonbut_reply){OJEONBUT_FOUND, 0};
}

/* Another number of closure bytes than of arcs, or another value than 0 and 1. */
static bool wrong_closures(const struct query *q)
{
    for (size_t i = 0; i < q->closed_bytes; i++)
        if (q->closed[i] > 1)
            return true;
    return q->closed_bytes != q->table_bytes / OJEONBUT_RECORD;
}

/* The refusal due to a query, or outcome 0. */
static ojeonbut_reply refusal(const struct query *q, enum manner manner)
{
    ojeonbut_reply r = table_fault(q);
    if (r.outcome)
        return r;
    if (manner != PLAIN && wrong_closures(q))
        return (ojeonbut_reply){OJEONBUT_CLOSURES, 0};
    if (q->start >= q->nodes || q->goal >= q->nodes || q->start == q->goal)
        r.outcome = OJEONBUT_ENDS;
    else if (q->k < 1 || q->k > OJEONBUT_ROUTES)
        r.outcome = OJEONBUT_WANTED;
    else if (q->b < 1 || q->b > 1000 || q->a >= q->b)
        r.outcome = OJEONBUT_THRESHOLD;
    else if (q->area_words < q->k * (q->nodes - 1) || q->summary_count < q->k || (manner == RATED && q->ratio_count < q->k) || q->label_bytes / OJEONBUT_LABEL > OJEONBUT_LABELS)
        r.outcome = OJEONBUT_BUFFERS;
    return r;
}

typedef ojeonbut_reply query_call(const uint8_t *, size_t, uint32_t, uint32_t, uint32_t, uint32_t, uint32_t, uint32_t, uint8_t *, size_t, uint32_t *, size_t,
                                  ojeonbut_summary *, size_t);
typedef ojeonbut_reply closed_call(const uint8_t *, size_t, uint32_t, uint32_t, uint32_t, uint32_t, uint32_t, uint32_t, const uint8_t *, size_t, uint8_t *, size_t,
                                   uint32_t *, size_t, ojeonbut_summary *, size_t);

static ojeonbut_reply ask(query_call *call, const struct query *q, struct lent *m)
{
    return call(q->table, q->table_bytes, q->nodes, q->start, q->goal, q->k, q->a, q->b, m->labels + AROUND * OJEONBUT_LABEL, q->label_bytes, m->area + AROUND,
                q->area_words, m->summaries + AROUND, q->summary_count);
}

static ojeonbut_reply ask_closed(closed_call *call, const struct query *q, struct lent *m)
{
    return call(q->table, q->table_bytes, q->nodes, q->start, q->goal, q->k, q->a, q->b, q->closed, q->closed_bytes, m->labels + AROUND * OJEONBUT_LABEL, q->label_bytes,
                m->area + AROUND, q->area_words, m->summaries + AROUND, q->summary_count);
}

static ojeonbut_reply ask_ratios(const struct query *q, struct lent *m)
{
    return ojeonbut_query_ratios(q->table, q->table_bytes, q->nodes, q->start, q->goal, q->k, q->a, q->b, q->closed, q->closed_bytes, m->labels + AROUND * OJEONBUT_LABEL,
                                 q->label_bytes, m->area + AROUND, q->area_words, m->summaries + AROUND, q->summary_count, m->ratios + AROUND, q->ratio_count);
}

static bool one_road(const struct query *q, uint32_t arc, uint32_t other)
{
    uint32_t road = word(q->table + arc * OJEONBUT_RECORD + 12);
    return arc == other || (road && road == word(q->table + other * OJEONBUT_RECORD + 12));
}

/* The length of the slot's arcs whose road the earlier slot drives. */
static uint64_t overlap(const struct query *q, const uint32_t *slot, const uint32_t *earlier)
{
    uint64_t sum = 0;
    for (uint32_t i = 0; i + 1 < q->nodes && slot[i] != OJEONBUT_NONE; i++) {
        bool driven = false;
        for (uint32_t j = 0; j + 1 < q->nodes && earlier[j] != OJEONBUT_NONE; j++)
            driven = driven || one_road(q, slot[i], earlier[j]);
        if (driven)
            sum += word(q->table + slot[i] * OJEONBUT_RECORD + 8);
    }
    return sum;
}

/* The ratios of routes and summaries that are known: the same divisions, in C. */
static void due_ratios(const struct query *q, struct lent *m)
{
    for (uint32_t i = 0; i < q->k; i++) {
        const ojeonbut_summary *of = m->summaries + AROUND;
        const uint32_t *slots = m->area + AROUND;
        uint64_t over = 0, under = 1;
        for (uint32_t j = 0; j < i && of[i].arcs; j++) {
            uint64_t sum = overlap(q, slots + i * (q->nodes - 1), slots + j * (q->nodes - 1));
            if ((unsigned __int128)sum * under > (unsigned __int128)over * of[j].length) {
                over = sum;
                under = of[j].length;
            }
        }
        m->ratios[AROUND + i] = of[i].arcs ? (ojeonbut_ratios){(double)over / (double)under, (double)of[i].length / (double)of[0].length} : (ojeonbut_ratios){0, 0};
    }
}

/* One of the three queries. */
static bool query_as_due(const struct query *q, enum manner manner, ojeonbut_reply *got)
{
    static struct lent due, found;
    memset(&due, JUNK, sizeof due);
    memset(&found, JUNK, sizeof found);
    ojeonbut_reply r = refusal(q, manner);
    if (!r.outcome) {
        r = manner == PLAIN ? ask(baseline_query, q, &due) : ask_closed(baseline_query_closed, q, &due);
        memset(due.labels, JUNK, sizeof due.labels);
        memset(due.labels + AROUND * OJEONBUT_LABEL, 0, q->label_bytes);
        if (manner == RATED)
            due_ratios(q, &due);
    }
    *got = manner == PLAIN ? ask(ojeonbut_query, q, &found) : manner == CLOSING ? ask_closed(ojeonbut_query_closed, q, &found) : ask_ratios(q, &found);
    return got->outcome == r.outcome && got->number == r.number && memcmp(&due, &found, sizeof due) == 0;
}

/* Whether a query without refusal has road numbers, and whether these make a difference: 0 for none, 1 for numbers that make none, else 2. */
static int roads_matter(const struct query *q)
{
    static struct lent due, zeros;
    struct query plain = *q;
    for (size_t i = 0; i < q->table_bytes / OJEONBUT_RECORD; i++)
        put(plain.table + i * OJEONBUT_RECORD + 12, 0);
    if (refusal(q, PLAIN).outcome || memcmp(plain.table, q->table, q->table_bytes) == 0)
        return 0;
    memset(&due, JUNK, sizeof due);
    memset(&zeros, JUNK, sizeof zeros);
    ojeonbut_reply r = ask(baseline_query, q, &due), z = ask(baseline_query, &plain, &zeros);
    bool same = r.outcome == z.outcome && r.number == z.number && memcmp(due.area, zeros.area, sizeof due.area) == 0 && memcmp(due.summaries, zeros.summaries, sizeof due.summaries) == 0;
    return same ? 1 : 2;
}

/* From every place to every end, past the bytes too: the first that is open, or the end. */
static bool steps_as_due(const struct query *q)
{
    for (size_t end = 0; end < ARCS + 4; end++)
        for (size_t place = 0; place < ARCS + 4; place++) {
            size_t due = place < end ? place : end;
            while (due < end && due < q->closed_bytes && q->closed[due])
                due++;
            if (ojeonbut_next_arc(q->closed, q->closed_bytes, place, end) != due)
                return false;
        }
    return true;
}

/* The fault of the table, and the part of each node: exactly the records that start there. */
static bool table_as_due(const struct query *q)
{
    ojeonbut_reply due = table_fault(q), got = ojeonbut_check(q->table, q->table_bytes, q->nodes);
    if (got.outcome != due.outcome || got.number != due.number)
        return false;
    for (uint32_t v = 0; v < NODES + 2; v++) {
        ojeonbut_part part = ojeonbut_arcs_from(q->table, q->table_bytes, q->nodes, v);
        size_t first = 0, end = 0;
        if (!due.outcome && v < q->nodes) {
            while (first < q->table_bytes && word(q->table + first) < v)
                first += OJEONBUT_RECORD;
            for (end = first; end < q->table_bytes && word(q->table + end) == v;)
                end += OJEONBUT_RECORD;
        }
        if (part.place != first || part.bytes != end - first)
            return false;
    }
    return true;
}

static void print_query(const struct query *q, ojeonbut_reply r)
{
    printf("the first difference, of one of the queries or of another call: %u nodes, start %u, goal %u, k %u, threshold %u/%u, %zu label bytes, %zu words, %zu summaries, %zu table bytes, %zu closure bytes; got %u %u\n", q->nodes,
           q->start, q->goal, q->k, q->a, q->b, q->label_bytes, q->area_words, q->summary_count, q->table_bytes, q->closed_bytes, r.outcome, r.number);
    for (size_t i = 0; i < q->table_bytes / OJEONBUT_RECORD; i++)
        printf("  arc %zu: %u %u %u %u, closure %u\n", i, word(q->table + i * OJEONBUT_RECORD), word(q->table + i * OJEONBUT_RECORD + 4), word(q->table + i * OJEONBUT_RECORD + 8),
               word(q->table + i * OJEONBUT_RECORD + 12), q->closed[i]);
}

/* One label more than may be lent is 10, and as many are not. */
static bool limit_as_due(void)
{
    static uint8_t labels[(OJEONBUT_LABELS + 1) * (size_t)OJEONBUT_LABEL];
    static const uint8_t table[OJEONBUT_RECORD] = {0, 0, 0, 0, 1, 0, 0, 0, 7};
    uint32_t area[1];
    ojeonbut_summary s[1];
    ojeonbut_reply over = ojeonbut_query(table, sizeof table, 2, 0, 1, 1, 0, 1, labels, sizeof labels, area, 1, s, 1);
    ojeonbut_reply most = ojeonbut_query(table, sizeof table, 2, 0, 1, 1, 0, 1, labels, sizeof labels - 1, area, 1, s, 1);
    return over.outcome == OJEONBUT_BUFFERS && most.outcome == OJEONBUT_FOUND && area[0] == 0 && s[0].length == 7 && s[0].arcs == 1 && s[0].labels == 2;
}

static uint8_t large_table[(OJEONBUT_ARCS + 1) * (size_t)OJEONBUT_RECORD], large_labels[OJEONBUT_LABELS * (size_t)OJEONBUT_LABEL];
static uint32_t large_area[OJEONBUT_ROUTES * (size_t)(OJEONBUT_NODES - 1)];

static void large_arc(uint32_t i, uint32_t from, uint32_t to, uint32_t length)
{
    uint8_t *record = large_table + (size_t)i * OJEONBUT_RECORD;
    put(record, from);
    put(record + 4, to);
    put(record + 8, length);
    put(record + 12, 0);
}

static bool replies(ojeonbut_reply r, uint32_t outcome, uint32_t number) { return r.outcome == outcome && r.number == number; }

static ojeonbut_reply ask_large(uint32_t arcs, uint32_t nodes, uint32_t goal, uint32_t k, ojeonbut_summary *s)
{
    return ojeonbut_query(large_table, (size_t)arcs * OJEONBUT_RECORD, nodes, 0, goal, k, 0, 1, large_labels, sizeof large_labels, large_area, (size_t)k * (nodes - 1), s, k);
}

/* The greatest table: four arcs of the greatest length from each node to the next, and from the last to the first; a node more, and an arc more. The route to the last node
 * but one has as many labels as may be lent, that to the last one more. */
static bool greatest_as_due(void)
{
    ojeonbut_summary s[1];
    for (uint32_t i = 0; i <= OJEONBUT_ARCS; i++)
        large_arc(i, i < OJEONBUT_ARCS ? i / 4 : OJEONBUT_NODES - 1, (i / 4 + 1) % OJEONBUT_NODES, OJEONBUT_LENGTH);
    const size_t bytes = (size_t)OJEONBUT_ARCS * OJEONBUT_RECORD;
    bool right = replies(ojeonbut_check(large_table, bytes, OJEONBUT_NODES), OJEONBUT_FOUND, 0) &&
                 replies(ojeonbut_check(large_table, bytes, OJEONBUT_NODES + 1), OJEONBUT_SIZE, 0) &&
                 replies(ojeonbut_check(large_table, bytes + OJEONBUT_RECORD, OJEONBUT_NODES), OJEONBUT_SIZE, 0);
    right = right && replies(ask_large(OJEONBUT_ARCS, OJEONBUT_NODES, OJEONBUT_NODES - 2, 1, s), OJEONBUT_FOUND, 0) && s[0].arcs == OJEONBUT_NODES - 2 &&
            s[0].length == (OJEONBUT_NODES - 2) * (uint64_t)OJEONBUT_LENGTH && s[0].labels == OJEONBUT_LABELS;
    for (uint32_t i = 0; i < OJEONBUT_NODES - 2; i++)
        right = right && large_area[i] == 4 * i;
    right = right && large_area[OJEONBUT_NODES - 2] == OJEONBUT_NONE;
    return right && replies(ask_large(OJEONBUT_ARCS, OJEONBUT_NODES, OJEONBUT_NODES - 1, 1, s), OJEONBUT_ROOM, 1) && s[0].arcs == 0 && s[0].labels == OJEONBUT_LABELS;
}

/* As many routes as may be wanted, of one arc each, and one more. */
static bool most_routes_as_due(void)
{
    ojeonbut_summary s[OJEONBUT_ROUTES + 1];
    for (uint32_t i = 0; i < OJEONBUT_ROUTES; i++)
        large_arc(i, 0, 1, 1 + i);
    bool right = replies(ask_large(OJEONBUT_ROUTES, 2, 1, OJEONBUT_ROUTES + 1, s), OJEONBUT_WANTED, 0) &&
                 replies(ask_large(OJEONBUT_ROUTES, 2, 1, OJEONBUT_ROUTES, s), OJEONBUT_FOUND, 0);
    for (uint32_t i = 0; i < OJEONBUT_ROUTES; i++)
        right = right && large_area[i] == i && s[i].length == 1 + i && s[i].arcs == 1 && s[i].labels == 2;
    return right;
}

/* Four corridors of CHAIN arcs: two from node 0 to node M, of lengths LONG[0] and LONG[1], and two from there to the last. The routes are 0 and 2, 0 and 3, 1 and 2, 1 and 3. The last
 * shares corridor 3 with the second and corridor 1 with the third: the share with the third is the greater by one in ten million, and the products that tell it lie on either side
 * of 2^64. */
enum { CHAIN = 3038, M = 2 * CHAIN - 1, WIDE_NODES = 4 * CHAIN - 1, WIDE_ROUTES = 4 };

static const uint64_t LONG[4] = {CHAIN * 1000000ull - 999693, CHAIN * 1000000ull - 998833, CHAIN * 1000000ull - 1000332, CHAIN * 1000000ull - 999947};

/* The i-th node of a corridor: its ends, and those between, which are its own. */
static uint32_t node_of(uint32_t corridor, uint32_t i)
{
    uint32_t first = corridor < 2 ? 0 : M, last = corridor < 2 ? M : WIDE_NODES - 1;
    return i == 0 ? first : i == CHAIN ? last : first + 1 + corridor % 2 * (CHAIN - 1) + i - 1;
}

static uint32_t length_of(uint32_t corridor, uint32_t i) { return (uint32_t)(LONG[corridor] / CHAIN + (i < LONG[corridor] % CHAIN)); }

/* In order of start node: of each two corridors the first arcs of both, and then their own nodes'. */
static void make_corridors(void)
{
    uint32_t n = 0;
    for (uint32_t half = 0; half < 4; half += 2) {
        for (uint32_t c = half; c < half + 2; c++)
            large_arc(n++, node_of(c, 0), node_of(c, 1), length_of(c, 0));
        for (uint32_t c = half; c < half + 2; c++)
            for (uint32_t i = 1; i < CHAIN; i++)
                large_arc(n++, node_of(c, i), node_of(c, i + 1), length_of(c, i));
    }
}

static bool wide_products_as_due(void)
{
    static uint8_t closed[4 * CHAIN];
    ojeonbut_summary s[WIDE_ROUTES];
    ojeonbut_ratios shown[WIDE_ROUTES];
    static const uint32_t of[WIDE_ROUTES][2] = {{0, 2}, {0, 3}, {1, 2}, {1, 3}};
    make_corridors();
    ojeonbut_reply r = ojeonbut_query_ratios(large_table, sizeof closed * OJEONBUT_RECORD, WIDE_NODES, 0, WIDE_NODES - 1, WIDE_ROUTES, 3, 5, closed, sizeof closed, large_labels,
                                             sizeof large_labels, large_area, WIDE_ROUTES * (WIDE_NODES - 1), s, WIDE_ROUTES, shown, WIDE_ROUTES);
    bool right = replies(r, OJEONBUT_FOUND, 0);
    for (uint32_t i = 0; i < WIDE_ROUTES; i++)
        right = right && s[i].length == LONG[of[i][0]] + LONG[of[i][1]] && s[i].arcs == 2 * CHAIN && shown[i].detour == (double)s[i].length / (double)s[0].length;
    return right && shown[0].overlap == 0 && shown[1].overlap == (double)LONG[0] / (double)s[0].length && shown[2].overlap == (double)LONG[2] / (double)s[0].length &&
           shown[3].overlap == (double)LONG[1] / (double)s[2].length && shown[3].overlap > (double)LONG[3] / (double)s[1].length;
}

int main(void)
{
    uint32_t as_due = 0, outcomes[OJEONBUT_CLOSURES + 1] = {0}, roads[3] = {0};
    for (uint32_t i = 0; i < CASES; i++) {
        struct query q = draw_query();
        spoil(&q);
        roads[roads_matter(&q)]++;
        bool right = table_as_due(&q) && steps_as_due(&q);
        ojeonbut_reply wrong = {0, 0};
        for (enum manner manner = PLAIN; manner < MANNERS; manner++) {
            ojeonbut_reply r;
            if (!query_as_due(&q, manner, &r)) {
                right = false;
                wrong = r;
            }
            outcomes[r.outcome <= OJEONBUT_CLOSURES ? r.outcome : 12]++;
        }
        if (right)
            as_due++;
        else if (as_due == i)
            print_query(&q, wrong);
    }
    bool labels = limit_as_due(), greatest = greatest_as_due(), routes = most_routes_as_due(), wide = wide_products_as_due(), version = ojeonbut_version() == OJEONBUT_VERSION;
    bool limits = labels && greatest && routes && wide;
    printf("version %s; drawn cases %d, as due %u; the limits of labels %s, of tables %s, of routes %s; shares told apart by products over 64 bits %s\noutcomes:",
           version ? "as due" : "NOT as due", CASES, as_due, labels ? "as due" : "NOT as due", greatest ? "as due" : "NOT as due", routes ? "as due" : "NOT as due",
           wide ? "as due" : "NOT as due");
    for (int i = 0; i <= OJEONBUT_CLOSURES; i++)
        printf(" %d in %u%s", i, outcomes[i], i < OJEONBUT_CLOSURES ? "," : "\n");
    printf("rounds reached with road numbers in %u cases, in %u of them another answer or label count than with zeros\n", roads[1] + roads[2], roads[2]);
    return version && as_due == CASES && limits ? 0 : 1;
}
