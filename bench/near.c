#include "near.h"

#include <stdbool.h>
#include <stdlib.h>
#include <string.h>

#define FAR (UINT64_MAX / 4096) /* the length from a node that has no way to the goal: d times it and an arc's fits */

struct route {
    uint64_t length;
    uint32_t *arcs; /* of a slot's width, with words without an arc at the end */
};

/* How dissimilar two routes are. */
struct fraction {
    uint64_t top, bottom;
};

struct search {
    const uint8_t *table, *closed;
    uint32_t nodes, goal, arcs, width, d;
    uint64_t most;      /* d times a length may be as much */
    uint64_t *left;     /* the length from each node to the goal, or FAR */
    uint8_t *visited;   /* by the path */
    uint32_t *path;
    struct route *routes;
    size_t slots, listed; /* one more than the slots where they do not suffice */
    struct fraction *apart; /* of route i and route j > i, at i * listed + j */
    uint32_t k, chosen[OJEONBUT_ROUTES], best[OJEONBUT_ROUTES];
    struct fraction best_least;
    bool found;
};

static uint32_t width_of_slots; /* for qsort */

static void *memory(size_t bytes)
{
    void *p = malloc(bytes > 0 ? bytes : 1);
    if (!p)
        abort();
    return p;
}

/* Word i of an arc's record: 0 its start node, 1 its end node, 2 its length. */
static uint32_t word(const uint8_t *table, uint32_t arc, int i)
{
    const uint8_t *p = table + (size_t)arc * OJEONBUT_RECORD + 4 * i;
    return p[0] | (uint32_t)p[1] << 8 | (uint32_t)p[2] << 16 | (uint32_t)p[3] << 24;
}

/* The lengths from all nodes to the goal: all arcs looked at until nothing changes. */
static void find_lengths(struct search *s)
{
    for (uint32_t v = 0; v < s->nodes; v++)
        s->left[v] = v == s->goal ? 0 : FAR;
    for (bool nearer = true; nearer;) {
        nearer = false;
        for (uint32_t a = 0; a < s->arcs; a++) {
            uint64_t by = s->left[word(s->table, a, 1)] + word(s->table, a, 2), *from = &s->left[word(s->table, a, 0)];
            if (!s->closed[a] && by < *from) {
                *from = by;
                nearer = true;
            }
        }
    }
}

/* The first arc that starts at v or after it. */
static uint32_t first_arc(const struct search *s, uint32_t v)
{
    uint32_t low = 0, high = s->arcs;
    while (low < high) {
        uint32_t middle = low + (high - low) / 2;
        if (word(s->table, middle, 0) < v)
            low = middle + 1;
        else
            high = middle;
    }
    return low;
}

/* Lists the routes in range that begin with the path, of this length, which ends at v. */
static void extend(struct search *s, uint32_t v, uint32_t count, uint64_t length)
{
    if (s->listed > s->slots)
        return;
    if (v == s->goal) {
        if (s->listed++ < s->slots) {
            struct route *r = &s->routes[s->listed - 1];
            r->length = length;
            r->arcs = memory(s->width * sizeof *r->arcs);
            for (uint32_t i = 0; i < s->width; i++)
                r->arcs[i] = i < count ? s->path[i] : OJEONBUT_NONE;
        }
        return;
    }
    s->visited[v] = 1;
    for (uint32_t a = first_arc(s, v); a < s->arcs && word(s->table, a, 0) == v; a++) {
        uint32_t to = word(s->table, a, 1);
        uint64_t on = length + word(s->table, a, 2);
        if (s->closed[a] || s->visited[to] || (on + s->left[to]) * s->d > s->most)
            continue;
        s->path[count] = a;
        extend(s, to, count + 1, on);
    }
    s->visited[v] = 0;
}

/* Rule 3. */
static int order(const void *of_x, const void *of_y)
{
    const struct route *x = of_x, *y = of_y;
    if (x->length != y->length)
        return x->length < y->length ? -1 : 1;
    for (uint32_t i = 0; i < width_of_slots; i++)
        if (x->arcs[i] != y->arcs[i])
            return x->arcs[i] < y->arcs[i] ? -1 : 1;
    return 0;
}

static bool less(struct fraction x, struct fraction y) { return (unsigned __int128)x.top * y.bottom < (unsigned __int128)y.top * x.bottom; }

/* The dissimilarities of each two routes; `driven` is of the arcs and all 0. */
static void find_apart(struct search *s, uint8_t *driven)
{
    for (size_t i = 0; i < s->listed; i++) {
        const struct route *p = &s->routes[i];
        for (uint32_t j = 0; j < s->width && p->arcs[j] != OJEONBUT_NONE; j++)
            driven[p->arcs[j]] = 1;
        for (size_t o = i + 1; o < s->listed; o++) {
            const struct route *q = &s->routes[o];
            uint64_t all = p->length, both = 0;
            for (uint32_t j = 0; j < s->width && q->arcs[j] != OJEONBUT_NONE; j++)
                *(driven[q->arcs[j]] ? &both : &all) += word(s->table, q->arcs[j], 2);
            s->apart[i * s->listed + o] = (struct fraction){all - both, all};
        }
        for (uint32_t j = 0; j < s->width && p->arcs[j] != OJEONBUT_NONE; j++)
            driven[p->arcs[j]] = 0;
    }
}

/* All sets that begin with those chosen, in order of their ranks; the first of the best stays. */
static void choose(struct search *s, uint32_t count, uint32_t from, struct fraction least)
{
    if (count == s->k) {
        if (!s->found || less(s->best_least, least)) {
            memcpy(s->best, s->chosen, sizeof s->best);
            s->best_least = least;
            s->found = true;
        }
        return;
    }
    for (uint32_t r = from; r < s->listed; r++) {
        struct fraction own = least;
        for (uint32_t i = 0; i < count; i++) {
            struct fraction x = s->apart[s->chosen[i] * s->listed + r];
            own = less(x, own) ? x : own;
        }
        s->chosen[count] = r;
        choose(s, count + 1, r + 1, own);
    }
}

ojeonbut_reply near_variety(const uint8_t *table, size_t table_bytes, uint32_t nodes, uint32_t start, uint32_t goal, uint32_t k, uint32_t c, uint32_t d, const uint8_t *closed,
                            size_t closed_bytes, uint32_t *list, size_t list_words, uint32_t *area, size_t area_words, uint8_t *work, size_t work_bytes)
{
    struct search s = {.table = table, .closed = closed, .nodes = nodes, .goal = goal, .arcs = (uint32_t)(table_bytes / OJEONBUT_RECORD), .width = nodes - 1, .d = d, .k = k};
    ojeonbut_reply reply = {OJEONBUT_FOUND, 0};
    uint8_t *driven = memory(s.arcs);
    (void)closed_bytes, (void)area_words, (void)work, (void)work_bytes;
    memset(driven, 0, s.arcs);
    s.slots = list_words / s.width;
    s.left = memory(nodes * sizeof *s.left);
    s.visited = memory(nodes);
    memset(s.visited, 0, nodes);
    s.path = memory(s.width * sizeof *s.path);
    s.routes = memory(s.slots * sizeof *s.routes);
    find_lengths(&s);
    if (s.left[start] < FAR) {
        s.most = (uint64_t)(d + c) * s.left[start];
        extend(&s, start, 0, 0);
    }
    size_t held = s.listed < s.slots ? s.listed : s.slots;
    if (s.listed > s.slots || s.listed < k) {
        reply.outcome = s.listed > s.slots ? OJEONBUT_LIST_FULL : OJEONBUT_TOO_FEW;
        memset(list, 0xff, list_words * sizeof *list);
        memset(area, 0xff, (size_t)k * s.width * sizeof *area);
    } else {
        reply.number = (uint32_t)s.listed;
        width_of_slots = s.width;
        qsort(s.routes, s.listed, sizeof *s.routes, order);
        s.apart = memory(s.listed * s.listed * sizeof *s.apart);
        find_apart(&s, driven);
        choose(&s, 0, 0, (struct fraction){1, 1});
        for (size_t i = 0; i < s.listed; i++)
            memcpy(list + i * s.width, s.routes[i].arcs, s.width * sizeof *list);
        for (uint32_t i = 0; i < k; i++)
            memcpy(area + i * s.width, s.routes[s.best[i]].arcs, s.width * sizeof *area);
        free(s.apart);
    }
    for (size_t i = 0; i < held; i++)
        free(s.routes[i].arcs);
    free(s.routes);
    free(s.path);
    free(s.visited);
    free(s.left);
    free(driven);
    return reply;
}
