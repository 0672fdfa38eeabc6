/* A store of accepted plans: two plans stored, the first withdrawn, the records in use collected at the front, and the second fetched. */
#include <ojeonbut.h>

#include <stdio.h>

enum { RECORDS = 8, WIDTH = 8, ROUTES = 2 };

#define NONE OJEONBUT_NONE

static void print_records(const char *when, const uint8_t *file)
{
    printf("%s:", when);
    for (int i = 0; i < RECORDS; i++)
        printf(" %u", file[i * OJEONBUT_PLAN_RECORD]); /* these plan numbers have one byte */
    printf("\n");
}

int main(void)
{
    static uint8_t file[RECORDS * OJEONBUT_PLAN_RECORD]; /* all zero: every record is free */
    const uint32_t one[] = {5}, two[ROUTES * WIDTH] = {0, 3, NONE, NONE, NONE, NONE, NONE, NONE, 0, 2, 4, 6, 8, 10, 12, NONE};
    uint32_t slots[ROUTES * WIDTH];
    ojeonbut_plan_store(file, sizeof file, 7, one, 1, 1, 1);
    ojeonbut_plan_store(file, sizeof file, 9, two, ROUTES * WIDTH, ROUTES, WIDTH);
    print_records("stored", file);
    ojeonbut_plan_withdraw(file, sizeof file, 7);
    print_records("withdrawn", file);
    ojeonbut_plan_collect(file, sizeof file);
    print_records("collected", file);
    ojeonbut_reply r = ojeonbut_plan_fetch(file, sizeof file, 9, slots, ROUTES * WIDTH, WIDTH);
    printf("plan 9: outcome %u, routes %u\n", r.outcome, r.number);
    for (uint32_t i = 0; i < r.number; i++) {
        printf("route %u:", i + 1);
        for (int j = 0; j < WIDTH && slots[i * WIDTH + j] != OJEONBUT_NONE; j++)
            printf(" %u", slots[i * WIDTH + j]);
        printf("\n");
    }
    printf("plan 7: outcome %u\n", ojeonbut_plan_fetch(file, sizeof file, 7, slots, ROUTES * WIDTH, WIDTH).outcome);
    return 0;
}
