/* The library against two baselines in C, the plain one and the best one: times by size, k and threshold; with road numbers beside zeros; growth of time with labels;
 * large queries; via routes, pairs and the most different of the near-shortest against a plain C of theirs; times of a road file and of files of accepted plans; the stack that each call needs.
 *
 *     bench [--quick | --large]     --quick: only drawn tables and the rows of the smallest network, with three legs; --large: the large queries to the library too
 *
 * Each query is put to all three, one for via routes, a pair or variety to the library and their plain C, and all results are compared, of pairs the totals. Exits 1 if any differ, or if the library leaves a byte it should not. */
#define _POSIX_C_SOURCE 200809L

#include "baseline.h"
#include "best.h"
#include "near.h"
#include "network.h"
#include "suurballe.h"
#include "svp.h"

#include <inttypes.h>
#include <math.h>
#include <stdbool.h>
#include <stdio.h>
#include <stdlib.h>
#include <string.h>
#include <time.h>
#include <ucontext.h>

#define SEED 1         /* of every network; a network's legs are drawn from its number of nodes */
#define LONGEST 1000   /* the greatest length of an arc */
#define BLOCKS 4       /* from start to goal in the first table, each way */
#define LEGS 10        /* of each row there */
#define QUICK_LEGS 3
#define ROOM 2048      /* labels lent in the first table, and for the stack */
#define MOST_ROOM 4096 /* labels lent with and without road numbers */
#define SHORT 0.02     /* seconds: a shorter call is repeated for as long */
#define LONG 10        /* seconds: the library is left out of a row of the growth that would take longer */
#define FITTED 256     /* nodes: a power of the growth is fitted to the networks from here on, beside that of all */
#define TURNS 3        /* of each leg with and without road numbers */
#define TRIALS 2000    /* drawn tables */
#define QUICK_TRIALS 400

#define JUNK 0xa5
#define MARGIN 4 /* labels, words, summaries and nodes' working rooms of junk on either side of what is lent */
#define NODE_WORK 64 /* bytes of working room for each node */

struct lent {
    _Alignas(16) uint8_t labels[(MARGIN + OJEONBUT_LABELS + MARGIN) * OJEONBUT_LABEL];
    uint32_t area[MARGIN + OJEONBUT_ROUTES * (OJEONBUT_NODES - 1) + MARGIN];
    ojeonbut_summary summaries[MARGIN + OJEONBUT_ROUTES + MARGIN];
    uint8_t work[(MARGIN + OJEONBUT_NODES + MARGIN) * NODE_WORK]; /* of via routes and pairs */
};

struct query {
    const struct network *net;
    struct leg leg;
    uint32_t k, a, b;
    size_t room;
    const uint8_t *closed; /* a byte for each arc, or NULL for the call without closures */
    const uint8_t *second; /* for via routes, which take closures; or NULL */
    bool pair;             /* for two routes with nothing in common, which take closures; k is 2 */
};

/* What the queries of a row add up to. */
struct row {
    uint32_t queries;
    double library, baseline, best;           /* seconds */
    double left_out;                          /* 0, or where the library was not asked the seconds that it would take, INFINITY where nobody knows */
    uint64_t labels, rounds[OJEONBUT_ROUTES]; /* labels of all rounds, and of each */
    uint32_t ended[OJEONBUT_SIZE + 1];        /* how many queries had each outcome */
};

struct size {
    uint32_t width, height, legs;
};

/* The calls of a search, the two with labels, the one for via routes or the one for a pair, or all. */
struct search {
    ojeonbut_reply (*query)(const uint8_t *, size_t, uint32_t, uint32_t, uint32_t, uint32_t, uint32_t, uint32_t, uint8_t *, size_t, uint32_t *, size_t, ojeonbut_summary *,
                            size_t);
    ojeonbut_reply (*query_closed)(const uint8_t *, size_t, uint32_t, uint32_t, uint32_t, uint32_t, uint32_t, uint32_t, const uint8_t *, size_t, uint8_t *, size_t,
                                   uint32_t *, size_t, ojeonbut_summary *, size_t);
    ojeonbut_reply (*query_via)(const uint8_t *, size_t, const uint8_t *, size_t, uint32_t, uint32_t, uint32_t, uint32_t, uint32_t, uint32_t, const uint8_t *, size_t,
                                uint32_t *, size_t, ojeonbut_summary *, size_t, uint8_t *, size_t);
    ojeonbut_reply (*pair)(const uint8_t *, size_t, uint32_t, uint32_t, uint32_t, const uint8_t *, size_t, uint32_t *, size_t, ojeonbut_summary *, size_t, uint8_t *, size_t);
};

static const struct search library_search = {ojeonbut_query, ojeonbut_query_closed, ojeonbut_query_via, ojeonbut_pair};
static const struct search baseline_search = {.query = baseline_query, .query_closed = baseline_query_closed};
static const struct search best_search = {.query = best_query, .query_closed = best_query_closed};
static const struct search svp_search = {.query_via = svp_query_via};
static const struct search suurballe_search = {.pair = suurballe_pair};

static struct network net, numbered;
static struct lent of_library, of_baseline, of_best;
static uint32_t queries, agreed;

static double seconds(void)
{
    struct timespec t;
    clock_gettime(CLOCK_MONOTONIC, &t);
    return (double)t.tv_sec + (double)t.tv_nsec / 1e9;
}

/* Ends the program where the library refuses the network. */
static void check(const struct network *n)
{
    ojeonbut_reply reply = ojeonbut_check(n->table, n->bytes, n->nodes);
    if (reply.outcome != OJEONBUT_FOUND) {
        printf("the network of %" PRIu32 " nodes is refused: outcome %" PRIu32 ", record %" PRIu32 "\n", n->nodes, reply.outcome, reply.number);
        exit(1);
    }
}

static void make(struct network *n, uint32_t width, uint32_t height, uint32_t longest)
{
    network_make(n, width, height, longest, SEED);
    check(n);
}

/* Apart, so that its many arguments take no stack of the other queries'. */
static __attribute__((noinline)) ojeonbut_reply ask_via(const struct search *search, const struct query *q, struct lent *m)
{
    const struct network *n = q->net;
    return search->query_via(n->table, n->bytes, q->second, n->bytes, n->nodes, q->leg.start, q->leg.goal, q->k, q->a, q->b, q->closed, n->bytes / OJEONBUT_RECORD,
                             m->area + MARGIN, q->k * (n->nodes - 1), m->summaries + MARGIN, q->k, m->work + MARGIN * NODE_WORK, n->nodes * NODE_WORK);
}

/* Apart for the same reason. */
static __attribute__((noinline)) ojeonbut_reply ask_pair(const struct search *search, const struct query *q, struct lent *m)
{
    const struct network *n = q->net;
    return search->pair(n->table, n->bytes, n->nodes, q->leg.start, q->leg.goal, q->closed, n->bytes / OJEONBUT_RECORD, m->area + MARGIN, 2 * (n->nodes - 1),
                        m->summaries + MARGIN, 2, m->work + MARGIN * NODE_WORK, n->nodes * NODE_WORK);
}

/* Exactly what the answer needs is lent, out of the middle of m. */
static ojeonbut_reply ask(const struct search *search, const struct query *q, struct lent *m)
{
    const struct network *n = q->net;
    uint8_t *labels = m->labels + MARGIN * OJEONBUT_LABEL;
    size_t label_bytes = q->room * OJEONBUT_LABEL, words = q->k * (n->nodes - 1);
    if (q->second)
        return ask_via(search, q, m);
    if (q->pair)
        return ask_pair(search, q, m);
    if (!q->closed)
        return search->query(n->table, n->bytes, n->nodes, q->leg.start, q->leg.goal, q->k, q->a, q->b, labels, label_bytes, m->area + MARGIN, words, m->summaries + MARGIN,
                             q->k);
    return search->query_closed(n->table, n->bytes, n->nodes, q->leg.start, q->leg.goal, q->k, q->a, q->b, q->closed, n->bytes / OJEONBUT_RECORD, labels, label_bytes,
                                m->area + MARGIN, words, m->summaries + MARGIN, q->k);
}

/* Whether the query is lent a working room. */
static bool works(const struct query *q) { return q->second || q->pair; }

/* The bytes of m that the query is lent as labels, with those on either side. */
static size_t bytes_of_labels(const struct query *q) { return (MARGIN + q->room + MARGIN) * OJEONBUT_LABEL; }

static double timed(const struct search *search, const struct query *q, struct lent *m, ojeonbut_reply *reply)
{
    memset(m->labels, JUNK, bytes_of_labels(q));
    memset(m->area, JUNK, sizeof m->area);
    memset(m->summaries, JUNK, sizeof m->summaries);
    if (works(q))
        memset(m->work, JUNK, sizeof m->work);
    double begin = seconds();
    *reply = ask(search, q, m);
    return seconds() - begin;
}

/* The seconds of a call: those of the first, or the mean of repeats where it was short. */
static double settled(const struct search *search, const struct query *q, struct lent *m, double first)
{
    if (first >= SHORT)
        return first;
    uint32_t turns = 0;
    double begin = seconds(), passed;
    do {
        ask(search, q, m);
        turns++;
        passed = seconds() - begin;
    } while (passed < SHORT);
    return passed / turns;
}

/* Whether the bytes from p up to e are all v. */
static bool only(const void *p, const void *e, uint8_t v)
{
    size_t n = (const uint8_t *)e - (const uint8_t *)p;
    return n == 0 || (*(const uint8_t *)p == v && memcmp(p, (const uint8_t *)p + 1, n - 1) == 0);
}

/* What differs between the results in m and the plain baseline's, or NULL. */
static const char *other_result(const struct query *q, ojeonbut_reply reply, const struct lent *m, ojeonbut_reply baseline)
{
    if (reply.outcome != baseline.outcome || reply.number != baseline.number)
        return "outcome or number";
    if (memcmp(m->area + MARGIN, of_baseline.area + MARGIN, q->k * (q->net->nodes - 1) * sizeof *m->area) != 0)
        return "words of the slots";
    if (memcmp(m->summaries + MARGIN, of_baseline.summaries + MARGIN, q->k * sizeof *m->summaries) != 0)
        return "summaries";
    return NULL;
}

/* What the library leaves as it should not, beside its results, or NULL. */
static const char *left_behind(const struct query *q)
{
    const struct lent *m = &of_library;
    size_t words = q->k * (q->net->nodes - 1);
    const uint8_t *labels = m->labels + MARGIN * OJEONBUT_LABEL, *labels_end = labels + q->room * OJEONBUT_LABEL;
    if (!only(labels, labels_end, 0))
        return "labels not all zero afterwards";
    if (!only(m->labels, labels, JUNK) || !only(labels_end, m->labels + bytes_of_labels(q), JUNK))
        return "bytes before or after the labels";
    if (!only(m->area, m->area + MARGIN, JUNK) || !only(m->area + MARGIN + words, (const uint8_t *)m->area + sizeof m->area, JUNK))
        return "words before or after the slots";
    if (!only(m->summaries, m->summaries + MARGIN, JUNK) ||
        !only(m->summaries + MARGIN + q->k, (const uint8_t *)m->summaries + sizeof m->summaries, JUNK))
        return "summaries before or after those lent";
    const uint8_t *work = m->work + MARGIN * NODE_WORK, *work_end = work + q->net->nodes * NODE_WORK;
    if (works(q) && !only(work, work_end, 0))
        return "working room not all zero afterwards";
    if (works(q) && (!only(m->work, work, JUNK) || !only(work_end, m->work + sizeof m->work, JUNK)))
        return "bytes before or after the working room";
    return NULL;
}

/* What is wrong with the library's results, or NULL. */
static const char *difference(const struct query *q, ojeonbut_reply library, ojeonbut_reply baseline)
{
    const char *other = other_result(q, library, &of_library, baseline);
    return other ? other : left_behind(q);
}

static void print_results(const char *name, const struct query *q, ojeonbut_reply reply, const struct lent *m)
{
    size_t width = q->net->nodes - 1;
    printf("  %s: outcome %" PRIu32 ", number %" PRIu32 "\n", name, reply.outcome, reply.number);
    for (uint32_t r = 0; r < q->k; r++) {
        const ojeonbut_summary *s = &m->summaries[MARGIN + r];
        const uint32_t *slot = m->area + MARGIN + r * width;
        size_t last = width;
        while (last > 0 && slot[last - 1] == OJEONBUT_NONE)
            last--;
        printf("    round %" PRIu32 ": length %" PRIu64 ", arcs %" PRIu64 ", labels %" PRIu64 "; slot:", r + 1, s->length, s->arcs, s->labels);
        for (size_t i = 0; i < last; i++)
            printf(" %" PRIu32, slot[i]);
        printf(" and %zu words without an arc\n", width - last);
    }
}

/* Counts the query, and prints the first that differs. `library` is NULL where it was not asked. */
static void compare(const struct query *q, const ojeonbut_reply *library, ojeonbut_reply baseline, ojeonbut_reply best)
{
    const char *what = library ? difference(q, *library, baseline) : NULL, *of_c = other_result(q, best, &of_best, baseline);
    bool first = queries == agreed;
    queries++;
    agreed += !what && !of_c;
    if ((!what && !of_c) || !first)
        return;
    printf("the first difference: %s: %s\n", what ? "library and plain C" : "best C and plain C", what ? what : of_c);
    printf("  network %" PRIu32 " x %" PRIu32 ", start %" PRIu32 ", goal %" PRIu32 ", k %" PRIu32 ", threshold %" PRIu32 "/%" PRIu32 ", room %zu\n", q->net->width,
           q->net->height, q->leg.start, q->leg.goal, q->k, q->a, q->b, q->room);
    if (library)
        print_results("library", q, *library, &of_library);
    print_results("plain C", q, baseline, &of_baseline);
    print_results("best C", q, best, &of_best);
}

/* Puts the query to all three, or to the baselines only, and adds it to the row. */
static void measure_with(const struct query *q, struct row *row, bool with_library)
{
    ojeonbut_reply library, baseline, best;
    double library_first = with_library ? timed(&library_search, q, &of_library, &library) : 0;
    double baseline_first = timed(&baseline_search, q, &of_baseline, &baseline);
    double best_first = timed(&best_search, q, &of_best, &best);
    compare(q, with_library ? &library : NULL, baseline, best);
    row->queries++;
    row->ended[baseline.outcome]++;
    for (uint32_t r = 0; r < q->k; r++) {
        row->rounds[r] += of_baseline.summaries[MARGIN + r].labels;
        row->labels += of_baseline.summaries[MARGIN + r].labels;
    }
    if (with_library)
        row->library += settled(&library_search, q, &of_library, library_first);
    row->baseline += settled(&baseline_search, q, &of_baseline, baseline_first);
    row->best += settled(&best_search, q, &of_best, best_first);
}

static void measure(const struct query *q, struct row *row) { measure_with(q, row, true); }

/* The time of a baseline, and how many times as long the library takes. */
static void print_baseline(const struct row *row, double of_baseline)
{
    printf(" %12.3f %9.3f", of_baseline / row->queries * 1e3, of_baseline / (double)row->labels * 1e6);
    if (row->left_out > 0)
        printf(" %8s", "-");
    else
        printf(" %8.2f", row->library / of_baseline);
}

static void print_times(const struct row *row)
{
    if (row->left_out > 0)
        printf(" %12s %9s", "-", "-");
    else
        printf(" %12.3f %9.3f", row->library / row->queries * 1e3, row->library / (double)row->labels * 1e6);
    print_baseline(row, row->baseline);
    print_baseline(row, row->best);
    printf("\n");
    if (row->ended[OJEONBUT_FOUND] < row->queries)
        printf("       outcomes of the row above: 0 in %" PRIu32 ", 1 in %" PRIu32 ", 11 in %" PRIu32 "\n", row->ended[OJEONBUT_FOUND], row->ended[OJEONBUT_FEWER],
               row->ended[OJEONBUT_ROOM]);
    fflush(stdout);
}

#define TIMES "   library ms  us/label     plain ms  us/label    ratio      best ms  us/label    ratio\n"

static void rows_of(uint32_t width, uint32_t height, uint32_t legs)
{
    static const uint32_t thresholds[][2] = {{3, 10}, {1, 2}, {4, 5}};
    make(&net, width, height, LONGEST);
    for (uint32_t k = 2; k <= 4; k++) {
        for (size_t t = 0; t < sizeof thresholds / sizeof *thresholds; t++) {
            struct query q = {.net = &net, .k = k, .a = thresholds[t][0], .b = thresholds[t][1], .room = ROOM};
            struct row row = {0};
            uint64_t seed = net.nodes;
            for (uint32_t i = 0; i < legs; i++) {
                q.leg = network_leg(&net, BLOCKS, BLOCKS, &seed);
                measure(&q, &row);
            }
            printf("%6" PRIu32 " %2" PRIu32 " %3" PRIu32 "/%-2" PRIu32, net.nodes, k, q.a, q.b);
            for (uint32_t r = 0; r < 4; r++) {
                if (r < k)
                    printf(" %7.1f", (double)row.rounds[r] / row.queries);
                else
                    printf(" %7s", "-");
            }
            print_times(&row);
        }
    }
}

static void table_of_rows(bool quick)
{
    uint32_t legs = quick ? QUICK_LEGS : LEGS;
    printf("\nTimes. Legs of %d + %d blocks in every network, %" PRIu32 " to a row; room for %d labels. Labels: the mean of each round over the legs, a round not\n"
           "begun as 0. ms: milliseconds of a query; us/label: microseconds for each label of all its rounds; ratio: the library's time over that of the plain, or the best, C.\n"
           " nodes  k  a/b   round 1 round 2 round 3 round 4" TIMES,
           BLOCKS, BLOCKS, legs, ROOM);
    rows_of(16, 16, legs);
    if (quick)
        return;
    rows_of(32, 32, legs);
    rows_of(64, 64, legs);
}

/* Whether the answers that stand in m are those of the query put before. */
static bool same_answers(const struct query *q, const struct lent *m)
{
    static uint32_t area[OJEONBUT_ROUTES * (OJEONBUT_NODES - 1)];
    static ojeonbut_summary summaries[OJEONBUT_ROUTES];
    size_t words = q->k * (q->net->nodes - 1) * sizeof *area, sums = q->k * sizeof *summaries;
    bool same = memcmp(area, m->area + MARGIN, words) == 0 && memcmp(summaries, m->summaries + MARGIN, sums) == 0;
    memcpy(area, m->area + MARGIN, words);
    memcpy(summaries, m->summaries + MARGIN, sums);
    return same;
}

/* The same legs, `across` and `down` blocks long, with zeros and with road numbers; the least times of some turns, one network after the other. */
static void row_of_numbers(uint32_t legs, uint32_t across, uint32_t down, uint32_t k)
{
    struct query q[2] = {{.net = &net, .k = k, .a = 1, .b = 2, .room = MOST_ROOM}, {.net = &numbered, .k = k, .a = 1, .b = 2, .room = MOST_ROOM}};
    double library[2] = {0}, baseline[2] = {0}, best[2] = {0}, labels[2] = {0};
    uint64_t seed = net.nodes;
    uint32_t other = 0;
    for (uint32_t i = 0; i < legs; i++) {
        struct row least[2] = {{.library = INFINITY, .baseline = INFINITY, .best = INFINITY}, {.library = INFINITY, .baseline = INFINITY, .best = INFINITY}};
        bool same = true;
        q[0].leg = q[1].leg = network_leg(&net, across, down, &seed);
        for (int turn = 0; turn < 2 * TURNS; turn++) {
            struct row row = {0}, *of = &least[turn % 2];
            measure(&q[turn % 2], &row);
            same = same_answers(&q[turn % 2], &of_library);
            of->library = fmin(of->library, row.library);
            of->baseline = fmin(of->baseline, row.baseline);
            of->best = fmin(of->best, row.best);
            of->labels = row.labels;
        }
        other += !same;
        for (int n = 0; n < 2; n++) {
            library[n] += least[n].library / legs * 1e3;
            baseline[n] += least[n].baseline / legs * 1e3;
            best[n] += least[n].best / legs * 1e3;
            labels[n] += (double)least[n].labels / legs;
        }
    }
    printf("%6" PRIu32 " %2" PRIu32 " %3" PRIu32 " + %-3" PRIu32 " %4" PRIu32 " %6" PRIu32 " %8.1f %8.1f %11.3f %11.3f %6.2f %11.3f %11.3f %6.2f %11.3f %11.3f %6.2f\n", net.nodes, k, across, down, legs, other,
           labels[0], labels[1], library[0], library[1], library[1] / library[0], baseline[0], baseline[1], baseline[1] / baseline[0], best[0],
           best[1], best[1] / best[0]);
    fflush(stdout);
}

static void make_both(uint32_t width, uint32_t height)
{
    make(&net, width, height, LONGEST);
    make(&numbered, width, height, LONGEST);
    network_number_streets(&numbered);
}

static void table_of_numbers(bool quick)
{
    printf("\nRoad numbers. The same legs over a network of zeros and over the same one with a road number for each street, one for both directions; 1/2, room for %d labels.\n"
           "Other: in how many legs an answer or a label count is another. Labels: the mean of a query, all rounds. Ratio: with road numbers over with zeros.\n"
           "%48s %30s %30s %30s\n"
           " nodes  k    blocks legs  other    zeros  numbers       zeros     numbers  ratio       zeros     numbers  ratio       zeros     numbers  ratio\n",
           MOST_ROOM, "labels", "library ms", "plain ms", "best ms");
    for (uint32_t side = 16; side <= (quick ? 16 : 64); side *= 2) {
        make_both(side, side);
        for (uint32_t k = 2; k <= 4; k += 2)
            row_of_numbers(quick ? QUICK_LEGS : LEGS, BLOCKS, BLOCKS, k);
    }
    for (uint32_t height = 8; height <= 16 && !quick; height *= 2) {
        make_both(16, height);
        row_of_numbers(QUICK_LEGS, net.width - 1, net.height - 1, 2);
    }
}

/* The slope of the least-squares line through the n points. */
static double slope(const double *x, const double *y, size_t n)
{
    double sx = 0, sy = 0, sxx = 0, sxy = 0;
    for (size_t i = 0; i < n; i++) {
        sx += x[i];
        sy += y[i];
        sxx += x[i] * x[i];
        sxy += x[i] * y[i];
    }
    return ((double)n * sxy - sx * sy) / ((double)n * sxx - sx * sx);
}

/* The points of one search that a power is fitted to: logarithms of labels and of seconds. */
struct points {
    double labels[16], time[16];
    size_t n;
};

/* Those of the three. */
struct fit {
    struct points library, baseline, best;
};

static void add_point(struct points *p, const struct row *row, double time)
{
    p->labels[p->n] = log((double)row->labels / row->queries);
    p->time[p->n++] = log(time / row->queries);
}

static void add_row(struct fit *fit, const struct row *row)
{
    if (row->left_out == 0)
        add_point(&fit->library, row, row->library);
    add_point(&fit->baseline, row, row->baseline);
    add_point(&fit->best, row, row->best);
}

static void print_power(const char *name, const struct points *p)
{
    if (p->n < 2)
        printf("%s -", name);
    else
        printf("%s %.2f", name, slope(p->labels, p->time, p->n));
    printf(" (%zu row%s)", p->n, p->n == 1 ? "" : "s");
}

static void print_powers(const char *rows, const struct fit *fit)
{
    printf("    %s: ", rows);
    print_power("library", &fit->library);
    print_power(", plain", &fit->baseline);
    print_power(", best", &fit->best);
    printf("\n");
}

/* The labels of a query, all rounds, by the best C. */
static double labels_of(const struct query *q)
{
    double labels = 0;
    ask(&best_search, q, &of_best);
    for (uint32_t r = 0; r < q->k; r++)
        labels += (double)of_best.summaries[MARGIN + r].labels;
    return labels;
}

/* The row of one size: legs from a corner to the opposite one. `before` is the last row that the library was asked for, or has no queries. */
static struct row row_of_growth(const struct size *size, struct query *q, const struct row *before)
{
    struct row row = {0};
    struct leg legs[8];
    double labels = 0;
    uint64_t seed = net.nodes;
    for (uint32_t i = 0; i < size->legs; i++) {
        q->leg = legs[i] = network_leg(&net, net.width - 1, net.height - 1, &seed);
        labels += labels_of(q);
    }
    if (before->queries > 0) {
        double expected = before->library / before->queries * size->legs * pow(labels / size->legs / ((double)before->labels / before->queries), 2.5);
        row.left_out = expected > LONG ? expected : 0;
    }
    for (uint32_t i = 0; i < size->legs; i++) {
        q->leg = legs[i];
        measure_with(q, &row, row.left_out == 0);
    }
    return row;
}

/* The rows of the sizes, and the powers fitted to them. */
static void growth(const struct size *sizes, size_t n, uint32_t k, uint32_t a, uint32_t b)
{
    struct fit all = {0}, large = {0};
    struct row before = {0};
    for (size_t i = 0; i < n; i++) {
        make(&net, sizes[i].width, sizes[i].height, LONGEST);
        struct query q = {.net = &net, .k = k, .a = a, .b = b, .room = OJEONBUT_LABELS};
        struct row row = row_of_growth(&sizes[i], &q, &before);
        printf("%6" PRIu32 " %6zu %2" PRIu32 " %3" PRIu32 "/%-2" PRIu32 " %5" PRIu32 " %8.1f", net.nodes, net.bytes / OJEONBUT_RECORD, k, a, b, row.queries,
               (double)row.labels / row.queries);
        print_times(&row);
        if (row.left_out > 0)
            printf("       the library is left out of the row above: it would take about %.0f s, by labels to the power 2.5 from the last row that it has\n", row.left_out);
        else
            before = row;
        add_row(&all, &row);
        if (net.nodes >= FITTED)
            add_row(&large, &row);
    }
    printf("  k = %" PRIu32 ": the time grows as labels to the power\n", k);
    print_powers("all rows", &all);
    print_powers("from 256 nodes on", &large);
    fflush(stdout);
}

/* The milliseconds that it takes to clear the greatest label buffer, as the library does and the baselines do not. */
static double clearing_ms(void)
{
    double begin = seconds();
    for (int i = 0; i < 16; i++) {
        memset(of_library.labels, 0, sizeof of_library.labels);
        __asm__ volatile("" : : "r"(of_library.labels) : "memory");
    }
    return (seconds() - begin) / 16 * 1e3;
}

static void table_of_growth(void)
{
    static const struct size sizes[] = {{8, 8, 3}, {16, 8, 3}, {16, 16, 3}, {32, 16, 3}, {32, 32, 3}, {64, 32, 2}, {64, 64, 1}, {128, 64, 1}, {128, 128, 1}, {256, 128, 1}, {256, 256, 1}};
    printf("\nGrowth. Legs across the network, from a corner to the opposite one; room for %d labels. Labels: the mean of a query, all rounds. The power is the\n"
           "slope of the least-squares line through the logarithms of the rows' labels and times. The library's time holds the clearing of all labels lent, which memset\n"
           "does in %.3f ms; the baselines leave them as they are. Of a row that would take over %d seconds the library is left out.\n"
           " nodes   arcs  k  a/b   legs   labels" TIMES,
           OJEONBUT_LABELS, clearing_ms(), LONG);
    growth(sizes, sizeof sizes / sizeof *sizes, 1, 1, 2);
    growth(sizes, sizeof sizes / sizeof *sizes, 2, 1, 2);
}

static void make_region(void)
{
    network_region(&net, LONGEST, SEED);
    check(&net);
}

/* The greatest table there may be, with as many labels as there may be. */
static void table_of_region(void)
{
    static const uint32_t blocks[] = {4, 16, 64, 255};
    make_region();
    printf("\nThe greatest table: %" PRIu32 " nodes and %zu arcs. Legs of so many blocks each way, 1/2, room for %d labels; labels: the mean of a query, all rounds.\n"
           " nodes   arcs  k  blocks legs   labels" TIMES,
           net.nodes, net.bytes / OJEONBUT_RECORD, OJEONBUT_LABELS);
    for (size_t i = 0; i < sizeof blocks / sizeof *blocks; i++)
        for (uint32_t k = 2; k <= 4; k++) {
            struct query q = {.net = &net, .k = k, .a = 1, .b = 2, .room = OJEONBUT_LABELS};
            struct row row = {0};
            uint64_t seed = net.nodes;
            for (uint32_t leg = 0; leg < QUICK_LEGS; leg++) {
                q.leg = network_leg(&net, blocks[i], blocks[i], &seed);
                measure(&q, &row);
            }
            printf("%6" PRIu32 " %6zu %2" PRIu32 "  %6" PRIu32 " %4" PRIu32 " %8.1f", net.nodes, net.bytes / OJEONBUT_RECORD, k, blocks[i], row.queries, (double)row.labels / row.queries);
            print_times(&row);
        }
}

static void row_of_large(const char *name, const struct query *q, bool with_library)
{
    struct row row = {.left_out = with_library ? 0 : INFINITY};
    measure_with(q, &row, with_library);
    printf("%-52s %6" PRIu32 " %6zu %2" PRIu32 " %8" PRIu64, name, net.nodes, net.bytes / OJEONBUT_RECORD, q->k, row.labels);
    print_times(&row);
}

/* A fan with a goal that no arc leads to, so that every arc is looked at. */
static void row_of_fan(const char *name, uint32_t arcs, uint32_t ends, uint32_t longest, bool with_library)
{
    network_fan(&net, arcs, ends, longest, SEED);
    check(&net);
    struct query q = {.net = &net, .leg = {0, net.nodes - 1}, .k = 1, .a = 1, .b = 2, .room = OJEONBUT_LABELS};
    row_of_large(name, &q, with_library);
}

static void table_of_large(bool with_library)
{
    printf("\nLarge queries, 1/2, room for %d labels. %s\n"
           "%-52s  nodes   arcs  k   labels" TIMES,
           OJEONBUT_LABELS, with_library ? "Once each, however long." : "The library is left out, since it may take minutes: --large asks it too.", "");
    make(&net, 64, 64, LONGEST);
    uint64_t seed = net.nodes;
    struct query q = {.net = &net, .leg = network_leg(&net, net.width - 1, net.height - 1, &seed), .k = 2, .a = 1, .b = 2, .room = OJEONBUT_LABELS};
    row_of_large("64 x 64, from a corner to the opposite one", &q, with_library);
    for (uint32_t arcs = OJEONBUT_ARCS / 16; arcs <= OJEONBUT_ARCS; arcs *= 16) {
        row_of_fan("a node's arcs, all to one, of equal length", arcs, 1, 1, with_library);
        row_of_fan("a node's arcs, all to one, lengths drawn", arcs, 1, LONGEST, with_library);
        row_of_fan("a node's arcs, to a fourth as many, of equal length", arcs, arcs / 4 - 2, 1, with_library);
        row_of_fan("a node's arcs, to a fourth as many, lengths drawn", arcs, arcs / 4 - 2, LONGEST, with_library);
    }
}

static uint8_t second[OJEONBUT_ARCS * OJEONBUT_RECORD];
static const uint8_t none_closed[OJEONBUT_ARCS];

/* What the via queries of a row add up to. */
struct via_row {
    uint32_t queries, agreed;
    double library, svp;  /* seconds */
    uint32_t found, full; /* how many queries have all k routes; of how many the exact search ends in 11 */
    uint32_t both;        /* how many have a second route by either */
    double longer;        /* by how much of the exact second route's length the other is longer, of all these */
};

/* Whether the exact call's second route is there where it has to be, and no longer. `exact` stands in of_best, the via routes in of_library. */
static bool second_as_due(ojeonbut_reply exact, struct via_row *row)
{
    const ojeonbut_summary *via = &of_library.summaries[MARGIN + 1], *least = &of_best.summaries[MARGIN + 1];
    if (via->arcs == 0)
        return true;
    if (least->arcs == 0)
        return exact.outcome == OJEONBUT_ROOM;
    row->both++;
    row->longer += ((double)via->length - (double)least->length) / (double)least->length;
    return least->length <= via->length;
}

/* Puts the query to the library and the plain C, and the exact one, without via, to the best C: the library's answers to it, as the rows above show, are the same. */
static void measure_via(const struct query *q, struct via_row *row)
{
    ojeonbut_reply library, svp, exact;
    double library_first = timed(&library_search, q, &of_library, &library), svp_first = timed(&svp_search, q, &of_baseline, &svp);
    struct query without = *q;
    without.second = NULL;
    without.room = OJEONBUT_LABELS;
    timed(&best_search, &without, &of_best, &exact);
    const char *what = difference(q, library, svp);
    if (!what && !second_as_due(exact, row))
        what = "an exact second route is missing or longer";
    if (what && queries == agreed) {
        printf("the first difference: via routes, library and plain C: %s\n  network %" PRIu32 " x %" PRIu32 ", start %" PRIu32 ", goal %" PRIu32 ", k %" PRIu32
               ", threshold %" PRIu32 "/%" PRIu32 "\n",
               what, q->net->width, q->net->height, q->leg.start, q->leg.goal, q->k, q->a, q->b);
        print_results("library", q, library, &of_library);
        print_results("plain C", q, svp, &of_baseline);
        print_results("exact", q, exact, &of_best);
    }
    queries++;
    agreed += !what;
    row->queries++;
    row->agreed += !what;
    row->found += svp.outcome == OJEONBUT_FOUND;
    row->full += exact.outcome == OJEONBUT_ROOM;
    row->library += settled(&library_search, q, &of_library, library_first);
    row->svp += settled(&svp_search, q, &of_baseline, svp_first);
}

static void row_of_via(const char *name, const struct leg *legs, uint32_t count, uint32_t k)
{
    struct via_row row = {0};
    for (uint32_t i = 0; i < count; i++) {
        struct query q = {.net = &net, .leg = legs[i], .k = k, .a = 1, .b = 2, .closed = none_closed, .second = second};
        measure_via(&q, &row);
    }
    printf("%6" PRIu32 " %2" PRIu32 "  %-8s %4" PRIu32 " %7" PRIu32 " %12.3f %12.3f %8.2f %7" PRIu32 " %9" PRIu32 " %6" PRIu32, net.nodes, k, name, row.queries, row.agreed,
           row.library / row.queries * 1e3, row.svp / row.queries * 1e3, row.library / row.svp, row.found, row.full, row.both);
    if (row.both > 0)
        printf(" %9.2f\n", 100 * row.longer / row.both);
    else
        printf(" %9s\n", "-");
    fflush(stdout);
}

/* Corners opposite each other, and drawn legs. */
static void make_legs(uint32_t side, struct leg *corners, struct leg *drawn)
{
    uint32_t last = net.nodes - 1, below = net.nodes - side;
    const struct leg opposite[] = {{0, last}, {last, 0}, {side - 1, below}, {below, side - 1}};
    memcpy(corners, opposite, sizeof opposite);
    uint64_t seed = net.nodes;
    for (uint32_t i = 0; i < LEGS; i++) {
        drawn[i].start = network_draw(&seed, net.nodes);
        drawn[i].goal = (drawn[i].start + 1 + network_draw(&seed, last)) % net.nodes;
    }
}

/* The networks of the via routes and the pairs; the last is the greatest table. */
static const uint32_t sides[] = {32, 64, 256};
enum { SIDES = sizeof sides / sizeof *sides };

static void make_side(uint32_t side)
{
    if (side == sides[SIDES - 1])
        make_region();
    else
        make(&net, side, side, LONGEST);
}

static void table_of_via(bool quick)
{
    printf("\nVia routes, 1/2. Legs between opposite corners, and between drawn nodes. Ratio: the library's time over that of the plain C (bench/svp.c). Found: of how many legs there\n"
           "are k via routes. Exact 11: of how many the exact query has too few labels in room for %d, by the best C. Both: how many have a second route either way. Longer: by\n"
           "how many percent of the exact one the via one is longer, the mean.\n"
           " nodes  k  legs     legs  agreed   library ms     plain ms    ratio   found  exact 11   both  longer %%\n",
           OJEONBUT_LABELS);
    for (int n = 0; n < (quick ? 1 : SIDES); n++) {
        struct leg corners[4], drawn[LEGS];
        make_side(sides[n]);
        make_legs(sides[n], corners, drawn);
        svp_second(net.table, net.bytes, net.nodes, second);
        for (uint32_t k = 2; k <= (quick ? 2 : 4); k += 2) {
            row_of_via("corners", corners, quick ? 1 : 4, k);
            row_of_via("drawn", drawn, quick ? QUICK_LEGS : LEGS, k);
        }
    }
}

static uint32_t word(const uint8_t *p) { return p[0] | (uint32_t)p[1] << 8 | (uint32_t)p[2] << 16 | (uint32_t)p[3] << 24; }

/* What is wrong with the pair in m, which has to be two simple routes that share no arc, the one that precedes first; or NULL. */
static const char *wrong_pair(const struct query *q, const struct lent *m)
{
    static uint8_t driven[OJEONBUT_ARCS], visited[OJEONBUT_NODES];
    const struct network *n = q->net;
    const uint32_t *slot = m->area + MARGIN;
    const ojeonbut_summary *s = m->summaries + MARGIN;
    memset(driven, 0, sizeof driven);
    for (uint32_t r = 0; r < 2; r++, slot += n->nodes - 1) {
        uint32_t v = q->leg.start, count = 0;
        uint64_t length = 0;
        memset(visited, 0, sizeof visited);
        for (; count < n->nodes - 1 && slot[count] != OJEONBUT_NONE; count++) {
            const uint8_t *record = n->table + (size_t)slot[count] * OJEONBUT_RECORD;
            if (slot[count] >= n->bytes / OJEONBUT_RECORD || driven[slot[count]] || q->closed[slot[count]] || visited[v] || word(record) != v)
                return "an arc of the pair that is shared, closed, or out of place";
            driven[slot[count]] = visited[v] = 1;
            length += word(record + 8);
            v = word(record + 4);
        }
        if (v != q->leg.goal || visited[v] || !only(slot + count, slot + n->nodes - 1, 0xff) || s[r].length != length || s[r].arcs != count || s[r].labels != 0)
            return "a route of the pair that ends elsewhere, or its summary";
    }
    slot = m->area + MARGIN;
    return s[0].length < s[1].length || (s[0].length == s[1].length && slot[0] < slot[n->nodes - 1]) ? NULL : "the order of the pair";
}

/* What differs between the library's pair and the plain C's, or NULL: either may be any of the least total. */
static const char *other_pair(const struct query *q, ojeonbut_reply library, ojeonbut_reply plain)
{
    const ojeonbut_summary *s = of_library.summaries + MARGIN, *of_plain = of_baseline.summaries + MARGIN;
    if (plain.outcome == OJEONBUT_NO_PAIR || library.outcome == OJEONBUT_NO_PAIR)
        return difference(q, library, plain);
    if (library.outcome != plain.outcome || library.number != plain.number)
        return "outcome or number";
    if (s[0].length + s[1].length != of_plain[0].length + of_plain[1].length)
        return "total lengths";
    const char *wrong = wrong_pair(q, &of_library);
    if (!wrong)
        wrong = wrong_pair(q, &of_baseline);
    return wrong ? wrong : left_behind(q);
}

/* What the pairs of a row add up to. */
struct pair_row {
    uint32_t queries, agreed, found;
    double library, plain; /* seconds */
};

/* Counts the query, and prints the first that differs. */
static bool compare_pair(const struct query *q, ojeonbut_reply library, ojeonbut_reply plain)
{
    const char *what = other_pair(q, library, plain);
    if (what && queries == agreed) {
        printf("the first difference: pairs, library and plain C: %s\n  network %" PRIu32 " x %" PRIu32 ", start %" PRIu32 ", goal %" PRIu32 "\n", what, q->net->width,
               q->net->height, q->leg.start, q->leg.goal);
        print_results("library", q, library, &of_library);
        print_results("plain C", q, plain, &of_baseline);
    }
    queries++;
    agreed += !what;
    return !what;
}

static void row_of_pairs(const char *name, const struct leg *legs, uint32_t count)
{
    struct pair_row row = {.queries = count};
    for (uint32_t i = 0; i < count; i++) {
        struct query q = {.net = &net, .leg = legs[i], .k = 2, .a = 0, .b = 1, .closed = none_closed, .pair = true};
        ojeonbut_reply library, plain;
        double library_first = timed(&library_search, &q, &of_library, &library), plain_first = timed(&suurballe_search, &q, &of_baseline, &plain);
        row.agreed += compare_pair(&q, library, plain);
        row.found += plain.outcome == OJEONBUT_FOUND;
        row.library += settled(&library_search, &q, &of_library, library_first);
        row.plain += settled(&suurballe_search, &q, &of_baseline, plain_first);
    }
    printf("%6" PRIu32 "  %-8s %4" PRIu32 " %7" PRIu32 " %12.3f %12.3f %8.2f %7" PRIu32 "\n", net.nodes, name, row.queries, row.agreed, row.library / row.queries * 1e3,
           row.plain / row.queries * 1e3, row.library / row.plain, row.found);
    fflush(stdout);
}

static void table_of_pairs(bool quick)
{
    printf("\nPair. Two routes with nothing in common, the legs of the via routes. Ratio: the library's time over that of the plain C (bench/suurballe.c), whose second search ends at\n"
           "the goal. Agreed: by the total. Found: of how many legs there is a pair.\n"
           " nodes  legs     legs  agreed   library ms     plain ms    ratio   found\n");
    for (int n = 0; n < (quick ? 1 : SIDES); n++) {
        struct leg corners[4], drawn[LEGS];
        make_side(sides[n]);
        make_legs(sides[n], corners, drawn);
        row_of_pairs("corners", corners, quick ? 1 : 4);
        row_of_pairs("drawn", drawn, quick ? QUICK_LEGS : LEGS);
    }
}

#define LISTED 2048     /* slots of the list lent for the most different of the near-shortest */
#define QUICK_LISTED 200
#define EXHAUSTED 200   /* routes listed: the plain C looks at all sets of three, so that it is left out of a row with more */
#define LIST_NODES 1024 /* the most nodes of these networks */

typedef ojeonbut_reply (*variety_call)(const uint8_t *, size_t, uint32_t, uint32_t, uint32_t, uint32_t, uint32_t, uint32_t, const uint8_t *, size_t, uint32_t *, size_t, uint32_t *, size_t,
                                       uint8_t *, size_t);

struct variety_query {
    const struct network *net;
    struct leg leg;
    uint32_t k, c, d;
    size_t slots;
    const uint8_t *closed;
};

static uint32_t library_list[MARGIN + LISTED * (LIST_NODES - 1) + MARGIN], plain_list[MARGIN + LISTED * (LIST_NODES - 1) + MARGIN];

/* The words that are lent as a list: its slots, and two words that are none. */
static size_t list_words(const struct variety_query *q) { return q->slots * (q->net->nodes - 1) + (q->net->nodes > 3 ? 2 : 0); }

static ojeonbut_reply ask_variety(variety_call call, const struct variety_query *q, uint32_t *list, struct lent *m)
{
    const struct network *n = q->net;
    return call(n->table, n->bytes, n->nodes, q->leg.start, q->leg.goal, q->k, q->c, q->d, q->closed, n->bytes / OJEONBUT_RECORD, list + MARGIN, list_words(q), m->area + MARGIN,
                q->k * (n->nodes - 1), m->work + MARGIN * NODE_WORK, n->nodes * NODE_WORK);
}

static double timed_variety(variety_call call, const struct variety_query *q, uint32_t *list, struct lent *m, ojeonbut_reply *reply)
{
    memset(list, JUNK, (MARGIN + list_words(q) + MARGIN) * sizeof *list);
    memset(m->area, JUNK, (MARGIN + (q->k + 1) * (q->net->nodes - 1) + MARGIN) * sizeof *m->area);
    memset(m->work, JUNK, (MARGIN + q->net->nodes + MARGIN) * NODE_WORK);
    double begin = seconds();
    *reply = ask_variety(call, q, list, m);
    return seconds() - begin;
}

/* The seconds of a call: those of the first, or the mean of repeats where it was short. */
static double settled_variety(variety_call call, const struct variety_query *q, uint32_t *list, struct lent *m, double first)
{
    if (first >= SHORT)
        return first;
    uint32_t turns = 0;
    double begin = seconds(), passed;
    do {
        ask_variety(call, q, list, m);
        turns++;
        passed = seconds() - begin;
    } while (passed < SHORT);
    return passed / turns;
}

/* What the library leaves as it should not, beside its answer, or NULL. */
static const char *left_by_variety(const struct variety_query *q, ojeonbut_reply reply)
{
    const struct lent *m = &of_library;
    size_t width = q->net->nodes - 1, words = list_words(q), listed = reply.outcome == OJEONBUT_FOUND ? reply.number * width : words, slots = q->k * width;
    const uint32_t *list = library_list + MARGIN;
    const uint8_t *work = m->work + MARGIN * NODE_WORK, *work_end = work + q->net->nodes * NODE_WORK;
    if (!only(library_list, list, JUNK) || !only(list + listed, list + words + MARGIN, JUNK))
        return "words of the list that are not to be written";
    if (!only(m->area, m->area + MARGIN, JUNK) || !only(m->area + MARGIN + slots, m->area + MARGIN + slots + MARGIN, JUNK))
        return "words before or after the slots";
    if (!only(work, work_end, 0))
        return "working room not all zero afterwards";
    return only(m->work, work, JUNK) && only(work_end, work_end + MARGIN * NODE_WORK, JUNK) ? NULL : "bytes before or after the working room";
}

/* What differs between the library's answer and the plain C's, or NULL. */
static const char *other_variety(const struct variety_query *q, ojeonbut_reply library, ojeonbut_reply plain)
{
    if (library.outcome != plain.outcome || library.number != plain.number)
        return "outcome or number";
    if (memcmp(library_list + MARGIN, plain_list + MARGIN, list_words(q) * sizeof *plain_list) != 0)
        return "words of the list";
    if (memcmp(of_library.area + MARGIN, of_baseline.area + MARGIN, q->k * (q->net->nodes - 1) * sizeof *of_library.area) != 0)
        return "words of the slots";
    return left_by_variety(q, library);
}

/* Counts the query, and prints the first that differs. */
static void compare_variety(const struct variety_query *q, ojeonbut_reply library, ojeonbut_reply plain)
{
    const char *what = other_variety(q, library, plain);
    if (what && queries == agreed)
        printf("the first difference: variety, library and plain C: %s\n  %" PRIu32 " nodes, start %" PRIu32 ", goal %" PRIu32 ", k %" PRIu32 ", range %" PRIu32 "/%" PRIu32
               ", %zu slots; library %" PRIu32 " beside %" PRIu32 ", plain C %" PRIu32 " beside %" PRIu32 "\n",
               what, q->net->nodes, q->leg.start, q->leg.goal, q->k, q->c, q->d, q->slots, library.number, library.outcome, plain.number, plain.outcome);
    queries++;
    agreed += !what;
}

/* Drawn queries over drawn small tables, with ties and closures, and lists that may be too small. */
static void trials_of_variety(uint32_t n)
{
    static uint8_t closed[OJEONBUT_ARCS];
    uint64_t seed = SEED;
    uint32_t ended[OJEONBUT_TOO_FEW + 1] = {0};
    for (uint32_t i = 0; i < n; i++) {
        uint32_t nodes = 2 + network_draw(&seed, 7);
        network_scatter(&net, nodes, 4, 1 + network_draw(&seed, 4), 0, &seed);
        struct variety_query q = {.net = &net, .k = 1 + network_draw(&seed, 4), .d = 1 + network_draw(&seed, 10), .slots = network_draw(&seed, 40), .closed = closed};
        q.c = network_draw(&seed, q.d + 1);
        q.leg.start = network_draw(&seed, nodes);
        q.leg.goal = (q.leg.start + 1 + network_draw(&seed, nodes - 1)) % nodes;
        for (size_t a = 0; a < net.bytes / OJEONBUT_RECORD; a++)
            closed[a] = network_draw(&seed, 12) == 0;
        ojeonbut_reply library, plain;
        timed_variety(ojeonbut_variety, &q, library_list, &of_library, &library);
        timed_variety(near_variety, &q, plain_list, &of_baseline, &plain);
        compare_variety(&q, library, plain);
        ended[plain.outcome]++;
    }
    printf("%" PRIu32 " queries over drawn small tables: outcome 0 in %" PRIu32 ", 23 in %" PRIu32 ", 24 in %" PRIu32 "\n", n, ended[OJEONBUT_FOUND], ended[OJEONBUT_LIST_FULL],
           ended[OJEONBUT_TOO_FEW]);
}

/* The milliseconds of a call, and the microseconds for each route listed. */
static void print_variety(double s, uint32_t listed) { printf(" %12.3f %9.3f", s * 1e3, s * 1e6 / listed); }

/* A row: the library for one route, which lists only, and for three. Whether the list sufficed. */
static bool row_of_variety(struct leg leg, uint32_t c, uint32_t d, size_t slots)
{
    struct variety_query q = {.net = &net, .leg = leg, .k = 1, .c = c, .d = d, .slots = slots, .closed = none_closed};
    ojeonbut_reply one, three, plain;
    double first = timed_variety(ojeonbut_variety, &q, library_list, &of_library, &one);
    char range[24];
    snprintf(range, sizeof range, "%" PRIu32 "/%" PRIu32, c, d);
    printf("%6" PRIu32 "  %-6s", net.nodes, range);
    if (one.outcome != OJEONBUT_FOUND) {
        printf("  more than %zu, told in %.3f ms\n", slots, first * 1e3);
        return false;
    }
    first = settled_variety(ojeonbut_variety, &q, library_list, &of_library, first);
    q.k = 3;
    double whole = timed_variety(ojeonbut_variety, &q, library_list, &of_library, &three), exhaustive = 0;
    if (three.number <= EXHAUSTED) {
        exhaustive = timed_variety(near_variety, &q, plain_list, &of_baseline, &plain);
        compare_variety(&q, three, plain);
        exhaustive = settled_variety(near_variety, &q, plain_list, &of_baseline, exhaustive);
    }
    whole = settled_variety(ojeonbut_variety, &q, library_list, &of_library, whole);
    printf(" %7" PRIu32, one.number);
    print_variety(first, one.number);
    if (three.outcome == OJEONBUT_FOUND)
        print_variety(whole, three.number);
    else
        printf(" %12s %9s", "-", "-");
    if (three.number <= EXHAUSTED)
        printf(" %12.3f\n", exhaustive * 1e3);
    else
        printf(" %12s\n", "-");
    fflush(stdout);
    return true;
}

/* How the time goes with the number listed. */
static void table_of_variety(bool quick)
{
    static const uint32_t ranges[] = {0, 1, 2, 3, 4, 5, 6, 8, 10, 12, 14, 16, 18, 20}, widths[] = {8, 16, 32};
    printf("\nVariety. The most different of the near-shortest, a leg of 3 + 3 blocks, or 6 + 6 from 256 nodes on, with c/d growing. Listed: the routes in range, which the call for one route only\n"
           "lists; that for three chooses too. Plain C: bench/near.c, which looks at all sets of three, up to %d routes.\n",
           EXHAUSTED);
    trials_of_variety(quick ? QUICK_TRIALS : TRIALS);
    printf(" nodes  c/d     listed     k = 1 ms  us/route     k = 3 ms  us/route   plain C ms\n");
    for (size_t n = 0; n < (quick ? 1 : sizeof widths / sizeof *widths); n++) {
        uint64_t seed = widths[n];
        uint32_t blocks = widths[n] < 16 ? 3 : 6;
        bool sufficed = true;
        make(&net, widths[n], widths[n], LONGEST);
        struct leg leg = network_leg(&net, blocks, blocks, &seed);
        for (size_t i = 0; sufficed && i < sizeof ranges / sizeof *ranges; i++)
            sufficed = row_of_variety(leg, ranges[i], 20, quick ? QUICK_LISTED : LISTED);
    }
}

/* A drawn query over a drawn small table with many ties, roads of several arcs and closed arcs, in a room that may be too small. */
static void trial(uint64_t *seed, struct row *row)
{
    static uint8_t closed[OJEONBUT_ARCS];
    uint32_t nodes = 2 + network_draw(seed, 10), longest = 1 + network_draw(seed, 4), roads = network_draw(seed, 2) ? network_draw(seed, 20) : 0;
    network_scatter(&net, nodes, 6, longest, roads, seed);
    check(&net);
    struct query q = {.net = &net};
    q.k = 1 + network_draw(seed, OJEONBUT_ROUTES);
    q.b = 1 + network_draw(seed, 10);
    q.a = network_draw(seed, q.b);
    q.room = network_draw(seed, 3) ? 500 : network_draw(seed, 40);
    q.leg.start = network_draw(seed, nodes);
    q.leg.goal = (q.leg.start + 1 + network_draw(seed, nodes - 1)) % nodes;
    if (network_draw(seed, 2)) {
        for (size_t i = 0; i < net.bytes / OJEONBUT_RECORD; i++)
            closed[i] = network_draw(seed, 6) == 0;
        q.closed = closed;
    }
    ojeonbut_reply library, baseline, best;
    timed(&library_search, &q, &of_library, &library);
    timed(&baseline_search, &q, &of_baseline, &baseline);
    timed(&best_search, &q, &of_best, &best);
    compare(&q, &library, baseline, best);
    row->ended[baseline.outcome]++;
}

static void trials(uint32_t n)
{
    struct row row = {0};
    uint64_t seed = SEED;
    for (uint32_t i = 0; i < n; i++)
        trial(&seed, &row);
    printf("\n%" PRIu32 " queries over drawn small tables, with ties, road numbers and closures: outcome 0 in %" PRIu32 ", 1 in %" PRIu32 ", 11 in %" PRIu32 "\n", n,
           row.ended[OJEONBUT_FOUND], row.ended[OJEONBUT_FEWER], row.ended[OJEONBUT_ROOM]);
    fflush(stdout);
}

#define STACK 1048576 /* bytes of the painted stack */
#define APART 16384 /* bytes, more than the switch back uses */

static _Alignas(64) uint8_t stack[STACK];
static ucontext_t here, there;
static void (*work)(void);
static const struct query *asked;
static ojeonbut_reply answered;

static void work_nothing(void) {}
static void work_check(void) { answered = ojeonbut_check(net.table, net.bytes, net.nodes); }
static void work_arcs_from(void) { answered.number = ojeonbut_arcs_from(net.table, net.bytes, net.nodes, net.nodes / 2).bytes; }
static void work_query(void) { answered = ask(&library_search, asked, &of_library); }

/* The same query with ratios, no road closed. */
static void work_ratios(void)
{
    static ojeonbut_ratios ratios[OJEONBUT_ROUTES];
    const struct query *q = asked;
    answered = ojeonbut_query_ratios(q->net->table, q->net->bytes, q->net->nodes, q->leg.start, q->leg.goal, q->k, q->a, q->b, none_closed, q->net->bytes / OJEONBUT_RECORD,
                                     of_library.labels + MARGIN * OJEONBUT_LABEL, q->room * OJEONBUT_LABEL, of_library.area + MARGIN, q->k * (q->net->nodes - 1),
                                     of_library.summaries + MARGIN, q->k, ratios, q->k);
}

static void work_via(void) { answered = ask_via(&library_search, asked, &of_library); }
static void work_pair(void) { answered = ask_pair(&library_search, asked, &of_library); }
static void work_run(void) { answered.number = ojeonbut_run(net.table, net.bytes, second, net.bytes, net.nodes, 1, net.nodes / 2).bytes; }

static uint8_t text[24 * (OJEONBUT_ARCS + 1)], table_again[OJEONBUT_ARCS * OJEONBUT_RECORD];
static ojeonbut_made written, read_again;
static void work_write_roads(void) { written = ojeonbut_write_roads(net.table, net.bytes, net.nodes, text, sizeof text); }
static void work_read_roads(void) { read_again = ojeonbut_read_roads(text, written.bytes, table_again, sizeof table_again); }

/* Runs the work some way down the stack, out of reach of what the switch back uses. */
static void entry(void)
{
    volatile uint8_t apart[APART];
    apart[0] = 0;
    work();
    (void)apart[0];
}

/* How deep the work reaches into a stack painted with the pattern. */
static size_t reach(void (*w)(void), uint8_t pattern)
{
    memset(stack, pattern, sizeof stack);
    getcontext(&there);
    there.uc_stack.ss_sp = stack;
    there.uc_stack.ss_size = sizeof stack;
    there.uc_link = &here;
    makecontext(&there, entry, 0);
    work = w;
    swapcontext(&here, &there);
    size_t i = 0;
    while (i < sizeof stack && stack[i] == pattern)
        i++;
    return sizeof stack - i;
}

/* The bytes beyond those of an empty call; of two patterns, since a byte may be written as it was painted. Calls into the C library must have been made
 * before, or the search for them at their first use is measured too. */
static size_t stack_of(void (*w)(void))
{
    size_t most = 0;
    for (int i = 0; i < 2; i++) {
        uint8_t pattern = i ? 0x5a : 0xa5;
        size_t empty = reach(work_nothing, pattern), full = reach(w, pattern);
        most = full - empty > most ? full - empty : most;
    }
    return most;
}

static void stack_of_query(uint32_t longest)
{
    uint64_t seed = 2; /* of a leg with few labels: twelve rounds take long */
    make(&net, 256, 256, longest);
    struct query q = {.net = &net, .leg = network_leg(&net, 2, 2, &seed), .k = OJEONBUT_ROUTES, .a = 4, .b = 5, .room = ROOM};
    asked = &q;
    memset(&of_library, JUNK, sizeof of_library);
    memset(&of_baseline, JUNK, sizeof of_baseline);
    memset(&of_best, JUNK, sizeof of_best);
    size_t with_ratios = stack_of(work_ratios);
    memset(&of_library, JUNK, sizeof of_library);
    size_t bytes = stack_of(work_query);
    ojeonbut_reply baseline = ask(&baseline_search, &q, &of_baseline), best = ask(&best_search, &q, &of_best);
    compare(&q, &answered, baseline, best);
    uint64_t labels = 0;
    for (uint32_t r = 0; r < q.k; r++)
        labels += of_baseline.summaries[MARGIN + r].labels;
    printf("  ojeonbut_query      %7zu  k = %d, 4/5, 2 + 2 blocks, lengths from 1 to %" PRIu32 ", %" PRIu64 " labels in all; with ratios %zu\n", bytes, OJEONBUT_ROUTES, longest, labels,
           with_ratios);
    fflush(stdout);
}

/* Of via routes from a corner to the opposite one. */
static void stack_of_via(uint32_t longest)
{
    make(&net, 256, 256, longest);
    svp_second(net.table, net.bytes, net.nodes, second);
    struct query q = {.net = &net, .leg = {0, net.nodes - 1}, .k = OJEONBUT_ROUTES, .a = 4, .b = 5, .closed = none_closed, .second = second};
    asked = &q;
    memset(&of_library, JUNK, sizeof of_library);
    size_t bytes = stack_of(work_via);
    ojeonbut_reply svp = ask(&svp_search, &q, &of_baseline);
    queries++;
    agreed += !difference(&q, answered, svp);
    printf("  ojeonbut_query_via  %7zu  k = %d, 4/5, from corner to corner, lengths from 1 to %" PRIu32 "\n", bytes, OJEONBUT_ROUTES, longest);
    fflush(stdout);
}

/* Of a pair from a corner to the opposite one. */
static void stack_of_pair(uint32_t longest)
{
    make(&net, 64, 64, longest);
    struct query q = {.net = &net, .leg = {0, net.nodes - 1}, .k = 2, .a = 0, .b = 1, .closed = none_closed, .pair = true};
    asked = &q;
    memset(&of_library, JUNK, sizeof of_library);
    size_t bytes = stack_of(work_pair);
    compare_pair(&q, answered, ask(&suurballe_search, &q, &of_baseline));
    printf("  ojeonbut_pair       %7zu  from corner to corner, lengths from 1 to %" PRIu32 "\n", bytes, longest);
    fflush(stdout);
}

/* Of the most different of the near-shortest. On a line of `steps` arcs, the first of them doubled, there are two routes, each a level of the listing for every arc: the bytes of a level
 * are the difference of two lines over that of their arcs. With as many arcs beside each other as there are routes in the list, the levels of the choice are k. */
static struct variety_query asked_variety;
static void work_variety(void) { answered = ask_variety(ojeonbut_variety, &asked_variety, library_list, &of_library); }

/* A line from the last node down to node 0: an arc from each to the next, and from the last `beside` of them. */
static void make_line(uint32_t steps, uint32_t beside)
{
    net.nodes = steps + 1;
    net.bytes = (steps - 1 + beside) * (size_t)OJEONBUT_RECORD;
    for (uint32_t a = 0; a < steps - 1 + beside; a++) {
        uint32_t from = a < steps ? a + 1 : steps, part[] = {from, from - 1, 1000, 0};
        for (int i = 0; i < 16; i++)
            net.table[a * OJEONBUT_RECORD + i] = (uint8_t)(part[i / 4] >> 8 * (i % 4));
    }
    check(&net);
}

static size_t stack_of_line(uint32_t steps, uint32_t beside, uint32_t k)
{
    make_line(steps, beside);
    asked_variety = (struct variety_query){.net = &net, .leg = {steps, 0}, .k = k, .c = 0, .d = 1, .slots = beside, .closed = none_closed};
    size_t bytes = stack_of(work_variety);
    queries++;
    agreed += answered.outcome == OJEONBUT_FOUND && answered.number == beside;
    return bytes;
}

static void stack_of_variety(void)
{
    enum { FEW = 100, MANY = 1000 };
    size_t few = stack_of_line(FEW, 2, 1), many = stack_of_line(MANY, 2, 1);
    size_t one = stack_of_line(1, OJEONBUT_ROUTES, 1), twelve = stack_of_line(1, OJEONBUT_ROUTES, OJEONBUT_ROUTES);
    printf("  ojeonbut_variety    %7zu  k = %d, routes of one arc; of them %.1f for each level of the choice after the first\n", twelve, OJEONBUT_ROUTES,
           (double)(twelve - one) / (OJEONBUT_ROUTES - 1));
    printf("                      %7zu  k = 1, routes of %d arcs, and %zu of %d: %.1f for each level of the listing, one for each arc of the longest route in range\n", many, MANY, few, FEW,
           (double)(many - few) / (MANY - FEW));
    fflush(stdout);
}

/* The least time of several runs, in milliseconds. */
static double least_time(void (*w)(void))
{
    double least = INFINITY;
    for (int i = 0; i < 9; i++) {
        double begin = seconds();
        w();
        least = fmin(least, 1e3 * (seconds() - begin));
    }
    return least;
}

/* A record of more than 16 bytes is returned by each kind of machine in its own way, and the library's module is made for x86-64: elsewhere (--native) these calls are left out. */
#ifdef __x86_64__
#define ROADS 1
#else
#define ROADS 0
#endif

/* The largest network written as a road file and read again, which has to give it back. */
static void table_of_roads(void)
{
    if (!ROADS)
        return;
    make_region();
    double write_ms = least_time(work_write_roads), read_ms = least_time(work_read_roads);
    printf("\nA road file of %zu arcs, %zu bytes: written in %.3f ms, read in %.3f ms\n", net.bytes / OJEONBUT_RECORD, written.bytes, write_ms, read_ms);
    queries++;
    agreed += written.outcome == OJEONBUT_FOUND && read_again.outcome == OJEONBUT_FOUND && read_again.bytes == net.bytes && read_again.nodes == net.nodes &&
              memcmp(table_again, net.table, net.bytes) == 0;
}

#define PLAN_RECORDS 10000 /* of the larger file of accepted plans */
#define PIECE 1000         /* of the smaller */
#define PLAN_WIDTH 20      /* words of a slot */
#define PLAN_ROUTES 2      /* of a plan */

static uint8_t plan_file[PLAN_RECORDS * OJEONBUT_PLAN_RECORD], plan_copy[sizeof plan_file];
static uint32_t plan_slots[PLAN_ROUTES * PLAN_WIDTH], plan_again[PLAN_ROUTES * PLAN_WIDTH];
static size_t plan_bytes;
static uint32_t plan_number;
static bool plans_right;

/* The routes of the i-th plan when it is stored for the first or the second time: of 1 to 20 arcs. */
static void make_plan(uint32_t i, uint32_t time)
{
    for (uint32_t r = 0; r < PLAN_ROUTES; r++)
        for (uint32_t j = 0; j < PLAN_WIDTH; j++)
            plan_slots[r * PLAN_WIDTH + j] = j <= (7 * i + 5 * r + 3 * time) % PLAN_WIDTH ? (i + 10 * r + j) % OJEONBUT_ARCS : OJEONBUT_NONE;
}

static ojeonbut_reply store_plan(uint8_t *file, size_t bytes, uint32_t number)
{
    return ojeonbut_plan_store(file, bytes, number, plan_slots, PLAN_ROUTES * PLAN_WIDTH, PLAN_ROUTES, PLAN_WIDTH);
}

/* A full file, by stores with rising plan numbers. */
static void make_rising(size_t records)
{
    uint32_t i = 0;
    plan_bytes = records * OJEONBUT_PLAN_RECORD;
    memset(plan_file, 0, plan_bytes);
    do
        make_plan(i++, 0);
    while (store_plan(plan_file, plan_bytes, i).outcome == OJEONBUT_FOUND);
    plan_number = i / 2;
    make_plan(plan_number - 1, 0);
}

/* Pieces in which every other plan was withdrawn and stored again with other routes, so that their parts lie apart. The plans of piece p are those whose number is p + 1 and a
 * multiple of the pieces more. */
static void make_scattered(size_t records)
{
    uint32_t pieces = (uint32_t)(records / PIECE), count = 0;
    plan_bytes = records * OJEONBUT_PLAN_RECORD;
    memset(plan_file, 0, plan_bytes);
    for (uint32_t p = 0; p < pieces; p++) {
        uint8_t *piece = plan_file + p * PIECE * OJEONBUT_PLAN_RECORD;
        const size_t bytes = PIECE * OJEONBUT_PLAN_RECORD;
        for (count = 0;; count++) {
            make_plan(count, 0);
            if (store_plan(piece, bytes, p + 1 + count * pieces).outcome != OJEONBUT_FOUND)
                break;
        }
        for (uint32_t i = 0; i < count; i += 2)
            ojeonbut_plan_withdraw(piece, bytes, p + 1 + i * pieces);
        for (uint32_t i = count; i-- > 0;)
            if (i % 2 == 0) {
                make_plan(i, 1);
                store_plan(piece, bytes, p + 1 + i * pieces);
            }
    }
    uint32_t middle = count / 4 * 2;
    plan_number = 1 + middle * pieces;
    make_plan(middle, 1);
}

static void call_store(void) { answered = store_plan(plan_file, plan_bytes, plan_number); }
static void call_fetch(void) { answered = ojeonbut_plan_fetch(plan_file, plan_bytes, plan_number, plan_again, PLAN_ROUTES * PLAN_WIDTH, PLAN_WIDTH); }
static void call_withdraw(void) { answered = ojeonbut_plan_withdraw(plan_file, plan_bytes, plan_number); }
static void call_collect(void) { answered = ojeonbut_plan_collect(plan_file, plan_bytes); }

/* The milliseconds of a call that has to end in 0, where they are the least so far. */
static void time_call(void (*call)(void), double *least)
{
    double begin = seconds();
    call();
    *least = fmin(*least, 1e3 * (seconds() - begin));
    plans_right &= answered.outcome == OJEONBUT_FOUND;
}

/* A plan of the file's middle withdrawn, the records collected, the plan stored where it was and fetched. */
static void row_of_plans(const char *name)
{
    double store = INFINITY, fetch = INFINITY, withdraw = INFINITY, collect = INFINITY;
    plans_right = true;
    for (int i = 0; i < 9; i++) {
        time_call(call_withdraw, &withdraw);
        memcpy(plan_copy, plan_file, plan_bytes);
        time_call(call_collect, &collect);
        memcpy(plan_file, plan_copy, plan_bytes);
        time_call(call_store, &store);
        time_call(call_fetch, &fetch);
        plans_right &= answered.number == PLAN_ROUTES && memcmp(plan_slots, plan_again, sizeof plan_slots) == 0;
    }
    printf("%8zu  %-9s %9.3f %9.3f %9.3f %9.3f\n", plan_bytes / OJEONBUT_PLAN_RECORD, name, store, fetch, withdraw, collect);
    queries++;
    agreed += plans_right;
}

static void table_of_plans(void)
{
    printf("\nPlans. Milliseconds of each call on a full file of accepted plans, the least of nine. Rising: written by stores with rising plan numbers. Scattered: in each thousand\n"
           "records every other plan withdrawn and stored again with other routes.\n"
           " records  file          store     fetch  withdraw   collect\n");
    for (size_t records = PIECE; records <= PLAN_RECORDS; records *= PLAN_RECORDS / PIECE) {
        make_rising(records);
        row_of_plans("rising");
        make_scattered(records);
        row_of_plans("scattered");
    }
}

/* Each store has another number, and each withdrawal takes the last stored. */
static void work_plan_store(void)
{
    call_store();
    plan_number++;
    plans_right &= answered.outcome == OJEONBUT_FOUND;
}

static void work_plan_withdraw(void)
{
    plan_number--;
    call_withdraw();
    plans_right &= answered.outcome == OJEONBUT_FOUND;
}

static void stack_of_plans(void)
{
    make_scattered(PIECE);
    for (uint32_t i = 0; i < 40; i++) {
        plan_number = 1 + i;
        call_withdraw();
    }
    plan_number = UINT32_MAX - 9;
    plans_right = true;
    printf("  ojeonbut_plan_store %7zu  a scattered file of %d records\n", stack_of(work_plan_store), PIECE);
    printf("  ojeonbut_plan_withdraw %4zu\n", stack_of(work_plan_withdraw));
    work_plan_store();
    plan_number--;
    printf("  ojeonbut_plan_fetch %7zu\n", stack_of(call_fetch));
    plans_right &= answered.outcome == OJEONBUT_FOUND;
    printf("  ojeonbut_plan_collect %5zu\n", stack_of(call_collect));
    plans_right &= answered.outcome == OJEONBUT_FOUND;
    queries++;
    agreed += plans_right;
}

static void table_of_stack(void)
{
    make_region();
    svp_second(net.table, net.bytes, net.nodes, second);
    printf("\nStack: bytes that a call writes below those of an empty call, on a painted stack. The table has %" PRIu32 " nodes and %zu arcs.\n", net.nodes,
           net.bytes / OJEONBUT_RECORD);
    printf("  ojeonbut_check      %7zu\n", stack_of(work_check));
    printf("  ojeonbut_arcs_from  %7zu\n", stack_of(work_arcs_from));
    printf("  ojeonbut_run        %7zu\n", stack_of(work_run));
    if (ROADS) {
        printf("  ojeonbut_write_roads %6zu\n", stack_of(work_write_roads));
        printf("  ojeonbut_read_roads %7zu\n", stack_of(work_read_roads));
    }
    stack_of_plans();
    stack_of_query(LONGEST);
    stack_of_query(1);
    stack_of_via(LONGEST);
    stack_of_via(1);
    stack_of_pair(LONGEST);
    stack_of_pair(1);
    stack_of_variety();
    printf("Memory: %d bytes a label, lent by the caller: %d for room %d, %d for the greatest room. Of via routes, a pair and variety %d bytes a node: %d for the most nodes.\n", OJEONBUT_LABEL,
           ROOM * OJEONBUT_LABEL, ROOM, OJEONBUT_LABELS * OJEONBUT_LABEL, NODE_WORK, OJEONBUT_NODES * NODE_WORK);
}

int main(int argc, char **argv)
{
    bool quick = argc == 2 && strcmp(argv[1], "--quick") == 0, large = argc == 2 && strcmp(argv[1], "--large") == 0;
    if (argc > 1 && !quick && !large) {
        fprintf(stderr, "usage: bench [--quick | --large]\n");
        return 2;
    }
    const char *emulated = getenv("OJEONBUT_EMULATED");
    if (emulated && strcmp(emulated, "1") == 0)
        printf("Ran under an emulator: the times are the emulator's, and a ratio is only a hint.\n");
    else
        printf("Ran without an emulator, as far as told: OJEONBUT_EMULATED is not 1.\n");
    printf("Library, plain C and best C (bench/baseline.c, bench/best.c), the same queries. Networks: a city grid with about one street in ten missing, lengths from 1 to %d, drawn from seed %d.\n",
           LONGEST, SEED);
    trials(quick ? QUICK_TRIALS : TRIALS);
    table_of_rows(quick);
    table_of_numbers(quick);
    table_of_via(quick);
    table_of_pairs(quick);
    table_of_variety(quick);
    if (!quick) {
        table_of_growth();
        table_of_region();
        table_of_large(large);
        table_of_roads();
        table_of_plans();
        table_of_stack();
    }
    printf("\nqueries %" PRIu32 ", agreed %" PRIu32 "\n", queries, agreed);
    return queries == agreed ? 0 : 1;
}
