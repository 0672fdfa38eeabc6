/* The scope's example with the two ratios of each route: how much of an earlier route it shares at most, and how much longer than the first it is. */
#include <ojeonbut.h>

#include <stdio.h>

enum { NODES = 4, ARCS = 5, ROUTES = 4 };

int main(void)
{
    static const uint32_t arcs[ARCS][3] = {{0, 1, 2}, {0, 2, 3}, {1, 2, 1}, {1, 3, 2}, {2, 3, 2}};
    static const uint8_t closed[ARCS]; /* every road is open */
    uint8_t table[ARCS * OJEONBUT_RECORD] = {0}, labels[512 * OJEONBUT_LABEL];
    for (int i = 0; i < ARCS; i++)
        for (int j = 0; j < 3; j++)
            table[i * OJEONBUT_RECORD + 4 * j] = (uint8_t)arcs[i][j];
    uint32_t area[ROUTES * (NODES - 1)];
    ojeonbut_summary summaries[ROUTES];
    ojeonbut_ratios ratios[ROUTES];
    ojeonbut_reply r = ojeonbut_query_ratios(table, sizeof table, NODES, 0, 3, ROUTES, 1, 2, closed, sizeof closed, labels, sizeof labels, area, ROUTES * (NODES - 1), summaries,
                                             ROUTES, ratios, ROUTES);
    printf("outcome %u\n", r.outcome);
    for (int i = 0; i < ROUTES && summaries[i].arcs > 0; i++)
        printf("route %d: length %llu, overlap %.2f, detour %.2f\n", i + 1, (unsigned long long)summaries[i].length, ratios[i].overlap, ratios[i].detour);
    return 0;
}
