/* The bits of the ratios of P2 and P5, and of a hundred drawn queries with lengths to the limits: a line a query, with its outcome and, for each of its routes and rounds, two
 * numbers of 16 hexadecimal digits. tests/ratios.txt has what is due, from a model of document 01 over whole numbers in another language. */
#include "ojeonbut.h"

#include <inttypes.h>
#include <stdio.h>
#include <string.h>

enum { CASES = 100, NODES = 6, ARCS = 16, ROUTES = 4, ROOM = 4096 };

static uint64_t state = 2;

/* A number below n. */
static uint32_t draw(uint32_t n)
{
    state = state * 6364136223846793005u + 1442695040888963407u;
    return (uint32_t)((state >> 33) % n);
}

static void put(uint8_t *p, uint32_t v)
{
    for (int i = 0; i < 4; i++)
        p[i] = (uint8_t)(v >> 8 * i);
}

static uint8_t table[ARCS * OJEONBUT_RECORD];

static void arc(uint32_t i, uint32_t from, uint32_t to, uint32_t length)
{
    put(table + i * OJEONBUT_RECORD, from);
    put(table + i * OJEONBUT_RECORD + 4, to);
    put(table + i * OJEONBUT_RECORD + 8, length);
    put(table + i * OJEONBUT_RECORD + 12, 0);
}

/* The routes from node 0 to the last one. */
static void show(const char *name, uint32_t nodes, uint32_t arcs, uint32_t k, uint32_t a, uint32_t b)
{
    static uint8_t closed[ARCS], labels[ROOM * OJEONBUT_LABEL];
    static uint32_t area[ROUTES * (NODES - 1)];
    static ojeonbut_summary summaries[ROUTES];
    static ojeonbut_ratios ratios[ROUTES];
    ojeonbut_reply r = ojeonbut_query_ratios(table, arcs * OJEONBUT_RECORD, nodes, 0, nodes - 1, k, a, b, closed, arcs, labels, sizeof labels, area, ROUTES * (NODES - 1), summaries,
                                             ROUTES, ratios, ROUTES);
    printf("%s: %u", name, r.outcome);
    for (uint32_t i = 0; i < k; i++) {
        uint64_t overlap, detour;
        memcpy(&overlap, &ratios[i].overlap, sizeof overlap);
        memcpy(&detour, &ratios[i].detour, sizeof detour);
        printf(" %016" PRIx64 " %016" PRIx64, overlap, detour);
    }
    printf("\n");
}

/* A length at a limit, or any. */
static uint32_t draw_length(void)
{
    switch (draw(4)) {
    case 0: return OJEONBUT_LENGTH - draw(3);
    case 1: return 1 + draw(3);
    default: return 1 + draw(OJEONBUT_LENGTH);
    }
}

int main(void)
{
    static const uint32_t scope[5][3] = {{0, 1, 2}, {0, 2, 3}, {1, 2, 1}, {1, 3, 2}, {2, 3, 2}};
    for (uint32_t i = 0; i < 5; i++)
        arc(i, scope[i][0], scope[i][1], scope[i][2]);
    show("P2", 4, 5, 4, 1, 2);
    show("P5", 4, 5, 3, 999, 1000);
    for (int c = 1; c <= CASES; c++) {
        char name[16];
        uint32_t from = 0;
        for (uint32_t i = 0; i < ARCS; i++) {
            from += draw(3) == 0 && from + 2 < NODES;
            uint32_t to = draw(5) ? from + 1 + draw(NODES - 1 - from) : (from + 1 + draw(NODES - 1)) % NODES;
            arc(i, from, to, draw_length());
        }
        uint32_t b = 1 + draw(1000), a = draw(3) ? b - 1 : draw(b);
        sprintf(name, "%d", c);
        show(name, NODES, ARCS, ROUTES, a, b);
    }
    return 0;
}
