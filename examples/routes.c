/* The scope's example: four nodes, five arcs, and up to four routes from node 0 to node 3, each sharing at most half of every earlier one.
 * Prints what the desk program prints for it. Build: see README, "Call it from C". */
#include <stdio.h>
#include "ojeonbut.h"

enum { NODES = 4, ARCS = 5, WANTED = 4, ROOM = 512 };

static const uint32_t arcs[ARCS][3] = { { 0, 1, 2 }, { 0, 2, 3 }, { 1, 2, 1 }, { 1, 3, 2 }, { 2, 3, 2 } };

static uint8_t table[ARCS * OJEONBUT_RECORD];
static uint8_t labels[ROOM * OJEONBUT_LABEL];
static uint32_t area[WANTED * (NODES - 1)];
static ojeonbut_summary summaries[WANTED];

static void put32(uint8_t *to, uint32_t v)
{
    for (int i = 0; i < 4; i++)
        to[i] = (uint8_t)(v >> (8 * i));
}

/* The records, in order of start node; bytes 12 to 15 stay zero. */
static void make_table(void)
{
    for (int i = 0; i < ARCS; i++)
        for (int j = 0; j < 3; j++)
            put32(table + i * OJEONBUT_RECORD + 4 * j, arcs[i][j]);
}

static int table_is_good(void)
{
    ojeonbut_reply fault = ojeonbut_check(table, sizeof table, NODES);
    ojeonbut_part run = ojeonbut_arcs_from(table, sizeof table, NODES, 1);
    return fault.outcome == OJEONBUT_FOUND && run.place == 2 * OJEONBUT_RECORD && run.bytes == 2 * OJEONBUT_RECORD;
}

int main(void)
{
    make_table();
    if (!table_is_good())
        return 1;
    ojeonbut_reply r = ojeonbut_query(table, sizeof table, NODES, 0, 3, WANTED, 1, 2, labels, sizeof labels, area, WANTED * (NODES - 1), summaries, WANTED);
    if (r.outcome != OJEONBUT_FOUND && r.outcome != OJEONBUT_FEWER && r.outcome != OJEONBUT_ROOM) {
        printf("refused %u %u\n", (unsigned)r.outcome, (unsigned)r.number);
        return 1;
    }
    int found = 0;
    while (found < WANTED && summaries[found].arcs > 0)
        found++;
    printf("end %u routes %d\n", (unsigned)r.outcome, found);
    for (int i = 0; i < found; i++) {
        printf("%d %llu %llu", i + 1, (unsigned long long)summaries[i].length, (unsigned long long)summaries[i].labels);
        for (uint64_t j = 0; j < summaries[i].arcs; j++)
            printf(" %u", (unsigned)area[i * (NODES - 1) + j]);
        printf("\n");
    }
    if (r.outcome != OJEONBUT_FOUND)
        printf("none %llu\n", (unsigned long long)summaries[found].labels);
    return 0;
}
