/* The archive's calls for accepted plans on drawn histories, with wrong requests, exchanged records and damaged files, in buffers that lie in junk: every outcome, every byte of
 * the file and every word of the slots is held against calls written out here, which sort a file's records to judge it; and every fetch against the plan last stored under
 * its number. Then the limits. Prints how often each outcome occurred; exits 1 where something differs, and prints the first call that does. */
#include "ojeonbut.h"

#include <stdbool.h>
#include <stdio.h>
#include <stdlib.h>
#include <string.h>

enum {
    HISTORIES = 1000,
    STEPS = 40,
    RECORDS = 2000,
    RECORD = OJEONBUT_PLAN_RECORD,
    PLANS = 8,
    ROUTES = OJEONBUT_ROUTES,
    WIDTH = OJEONBUT_PLAN_WIDTH,
    HELD = 6,                                 /* arcs of a full part */
    BYTES = (RECORDS + 1) * RECORD,           /* lent at most in a history, with some odd ones */
    WORDS = (ROUTES + 1) * (WIDTH + 1),       /* lent at most */
    AROUND = 64,
    JUNK = 0xa5,
    OUTCOMES = OJEONBUT_PLAN_ROOM + 1
};

static uint64_t state = 1;

/* A number below n. */
static uint32_t draw(uint32_t n)
{
    state = state * 6364136223846793005u + 1442695040888963407u;
    return (uint32_t)((state >> 33) % n);
}

static uint32_t word(const uint8_t *p) { return p[0] | (uint32_t)p[1] << 8 | (uint32_t)p[2] << 16 | (uint32_t)p[3] << 24; }

static void put(uint8_t *p, uint32_t v)
{
    for (int i = 0; i < 4; i++)
        p[i] = (uint8_t)(v >> 8 * i);
}

/* ---- a file read again */

struct part {
    uint32_t plan, rank, used, number;
    const uint8_t *record;
};

static struct part parts[1 << 16];
static size_t part_count;

static int by_part(const void *x, const void *y)
{
    const struct part *a = x, *b = y;
    if (a->plan != b->plan)
        return a->plan < b->plan ? -1 : 1;
    if (a->rank != b->rank)
        return a->rank < b->rank ? -1 : 1;
    return a->number < b->number ? -1 : a->number > b->number;
}

static bool right_record(const uint8_t *p)
{
    if (word(p) == 0) {
        for (int i = 0; i < RECORD; i++)
            if (p[i])
                return false;
        return true;
    }
    if (p[4] >= ROUTES || p[5] < 1 || p[5] > HELD)
        return false;
    for (int j = 0; j < HELD; j++)
        if (j < p[5] ? word(p + 8 + 4 * j) >= OJEONBUT_ARCS : word(p + 8 + 4 * j) != OJEONBUT_NONE)
            return false;
    return true;
}

/* May `b` come next after `a` in order of plan, rank and part? */
static bool in_order(const struct part *a, const struct part *b)
{
    if (!a || a->plan != b->plan)
        return b->rank == 0 && b->number == 0;
    if (a->rank != b->rank)
        return b->rank == a->rank + 1 && b->number == 0;
    return b->number == a->number + 1 && a->used == HELD;
}

/* Sorts the records in use into `parts`; false where the file is out of form. */
static bool read_file(const uint8_t *file, size_t bytes)
{
    part_count = 0;
    if (bytes % RECORD)
        return false;
    for (const uint8_t *p = file; p < file + bytes; p += RECORD) {
        if (!right_record(p))
            return false;
        if (word(p))
            parts[part_count++] = (struct part){word(p), p[4], p[5], p[6] | (uint32_t)p[7] << 8, p};
    }
    qsort(parts, part_count, sizeof *parts, by_part);
    for (size_t i = 0; i < part_count; i++)
        if (!in_order(i ? &parts[i - 1] : NULL, &parts[i]))
            return false;
    return true;
}

static bool has_plan(uint32_t plan)
{
    for (size_t i = 0; i < part_count; i++)
        if (parts[i].plan == plan)
            return true;
    return false;
}

/* ---- what each call is to do */

struct call {
    enum { STORE, FETCH, WITHDRAW, COLLECT } kind;
    uint32_t plan, routes, width;
    size_t bytes, words;
};

static ojeonbut_reply plain(uint32_t outcome) { return (ojeonbut_reply){outcome, 0}; }

/* The number of arcs in a slot, 0 where it is out of form. */
static uint32_t arcs_of(const uint32_t *slot, uint32_t width)
{
    uint32_t n = 0;
    while (n < width && slot[n] < OJEONBUT_ARCS)
        n++;
    for (uint32_t i = n; i < width; i++)
        if (slot[i] != OJEONBUT_NONE)
            return 0;
    return n;
}

static ojeonbut_reply due_store(uint8_t *file, const uint32_t *slots, const struct call *c)
{
    size_t needed = 0, records = c->bytes / RECORD;
    if (c->plan == 0 || c->routes < 1 || c->routes > ROUTES || c->width > WIDTH || c->words != (size_t)c->routes * c->width)
        return plain(OJEONBUT_PLAN_REQUEST);
    for (uint32_t r = 0; r < c->routes; r++) {
        uint32_t n = arcs_of(slots + (size_t)r * c->width, c->width);
        if (n == 0)
            return plain(OJEONBUT_PLAN_REQUEST);
        needed += (n + HELD - 1) / HELD;
    }
    if (has_plan(c->plan))
        return plain(OJEONBUT_PLAN_THERE);
    if (records - part_count < needed)
        return plain(OJEONBUT_PLAN_ROOM);
    uint8_t *p = file;
    for (uint32_t r = 0; r < c->routes; r++) {
        const uint32_t *slot = slots + (size_t)r * c->width;
        uint32_t n = arcs_of(slot, c->width);
        for (uint32_t first = 0; first < n; first += HELD) {
            while (word(p))
                p += RECORD;
            uint32_t used = n - first < HELD ? n - first : HELD, number = first / HELD;
            put(p, c->plan);
            p[4] = (uint8_t)r;
            p[5] = (uint8_t)used;
            p[6] = (uint8_t)number;
            p[7] = (uint8_t)(number >> 8);
            for (uint32_t j = 0; j < HELD; j++)
                put(p + 8 + 4 * j, j < used ? slot[first + j] : OJEONBUT_NONE);
        }
    }
    return plain(OJEONBUT_FOUND);
}

static ojeonbut_reply due_fetch(uint32_t *slots, const struct call *c)
{
    uint32_t routes = 0;
    bool narrow = false;
    for (size_t i = 0; i < part_count; i++)
        if (parts[i].plan == c->plan) {
            routes = parts[i].rank + 1;
            narrow |= parts[i].number * HELD + parts[i].used > c->width;
        }
    if (narrow || c->words < (size_t)routes * c->width)
        return plain(OJEONBUT_BUFFERS);
    for (size_t i = 0; i < (size_t)routes * c->width; i++)
        slots[i] = OJEONBUT_NONE;
    for (size_t i = 0; i < part_count; i++)
        if (parts[i].plan == c->plan)
            for (uint32_t j = 0; j < parts[i].used; j++)
                slots[(size_t)parts[i].rank * c->width + parts[i].number * HELD + j] = word(parts[i].record + 8 + 4 * j);
    return (ojeonbut_reply){OJEONBUT_FOUND, routes};
}

/* What is due, done to the file and the slots. */
static ojeonbut_reply due_call(uint8_t *file, uint32_t *slots, const struct call *c)
{
    if (!read_file(file, c->bytes))
        return plain(OJEONBUT_PLAN_FILE);
    if (c->kind == STORE)
        return due_store(file, slots, c);
    if (c->kind == COLLECT) {
        static uint8_t front[BYTES];
        size_t n = 0;
        for (size_t i = 0; i < c->bytes; i += RECORD)
            if (word(file + i)) {
                memcpy(front + n, file + i, RECORD);
                n += RECORD;
            }
        memset(front + n, 0, c->bytes - n);
        memcpy(file, front, c->bytes);
        return plain(OJEONBUT_FOUND);
    }
    if (c->plan == 0)
        return plain(OJEONBUT_PLAN_REQUEST);
    if (!has_plan(c->plan))
        return plain(OJEONBUT_PLAN_THERE);
    if (c->kind == FETCH)
        return due_fetch(slots, c);
    for (size_t i = 0; i < c->bytes; i += RECORD)
        if (word(file + i) == c->plan)
            memset(file + i, 0, RECORD);
    return plain(OJEONBUT_FOUND);
}

/* ---- the archive's call beside it */

static uint8_t file_area[AROUND + BYTES + AROUND], file_due[sizeof file_area];
static uint32_t slot_area[AROUND + WORDS + AROUND], slot_due[sizeof slot_area / sizeof *slot_area];
static uint8_t *const file = file_area + AROUND;
static uint32_t *const slots = slot_area + AROUND;
static uint32_t outcomes[4][OUTCOMES], calls, as_due;

static ojeonbut_reply library(const struct call *c)
{
    switch (c->kind) {
    case STORE: return ojeonbut_plan_store(file, c->bytes, c->plan, slots, c->words, c->routes, c->width);
    case FETCH: return ojeonbut_plan_fetch(file, c->bytes, c->plan, slots, c->words, c->width);
    case WITHDRAW: return ojeonbut_plan_withdraw(file, c->bytes, c->plan);
    default: return ojeonbut_plan_collect(file, c->bytes);
    }
}

static bool same(ojeonbut_reply a, ojeonbut_reply b) { return a.outcome == b.outcome && a.number == b.number; }

/* The place of the first difference, or n. */
static size_t first_other(const void *a, const void *b, size_t n)
{
    size_t i = 0;
    if (memcmp(a, b, n) == 0)
        return n;
    while (((const uint8_t *)a)[i] == ((const uint8_t *)b)[i])
        i++;
    return i;
}

/* Plays the call on the file and the slots as they stand; true where all is as due. */
static bool play(const struct call *c, ojeonbut_reply *reply)
{
    size_t file_all = AROUND + c->bytes + AROUND, slot_all = (AROUND + c->words + AROUND) * sizeof *slots;
    memcpy(file_due, file_area, file_all);
    memcpy(slot_due, slot_area, slot_all);
    ojeonbut_reply due = due_call(file_due + AROUND, slot_due + AROUND, c), found = library(c);
    size_t file_other = first_other(file_due, file_area, file_all), slot_other = first_other(slot_due, slot_area, slot_all);
    bool right = same(due, found) && file_other == file_all && slot_other == slot_all;
    if (!right && as_due == calls)
        printf("the first difference: kind %d, plan %u, routes %u, width %u, %zu bytes, %zu words; due %u %u, found %u %u; bytes of the file differ from %zd of %zu, of the slots from %zd of %zu\n",
               c->kind, c->plan, c->routes, c->width, c->bytes, c->words, due.outcome, due.number, found.outcome, found.number, (ssize_t)file_other - AROUND, c->bytes,
               (ssize_t)slot_other - AROUND * (ssize_t)sizeof *slots, c->words * sizeof *slots);
    calls++;
    as_due += right;
    if (found.outcome < OUTCOMES)
        outcomes[c->kind][found.outcome]++;
    *reply = due;
    return right;
}

/* ---- drawn histories */

static const uint32_t numbers[PLANS] = {1, 2, 3, 255, 256, 0x01000000, UINT32_MAX - 1, UINT32_MAX};

/* What was last stored under each number and not withdrawn since: its slots and their width, no routes where there is none. */
static struct {
    uint32_t routes, width;
    uint32_t *slots;
} kept[PLANS];

static void junk_slots(size_t words) { memset(slot_area, JUNK, (AROUND + words + AROUND) * sizeof *slots); }

/* Slots of a plan, right or with one thing wrong. */
static void draw_slots(struct call *c, uint32_t records)
{
    uint32_t fault = draw(24);
    c->routes = 1 + draw(draw(3) ? 3 : ROUTES);
    c->width = draw(12) ? 1 + draw(30) : draw(3) ? 1 + draw(800) : WIDTH - draw(3);
    if (fault == 1)
        c->routes = draw(2) ? 0 : ROUTES + 1;
    if (fault == 2)
        c->width = draw(2) ? 0 : WIDTH + 1;
    c->words = (size_t)c->routes * c->width;
    junk_slots(c->words + 1);
    for (uint32_t r = 0; r < c->routes; r++) {
        uint32_t most = c->width < HELD * (records + 1) ? c->width : HELD * (records + 1), n = !most ? 0 : draw(3) ? 1 + draw(most) : most;
        for (uint32_t m = 0; m < c->width; m++)
            slots[(size_t)r * c->width + m] = m >= n ? OJEONBUT_NONE : draw(9) ? draw(OJEONBUT_ARCS) : OJEONBUT_ARCS - 1;
    }
    if (!c->words)
        return;
    size_t at = draw((uint32_t)c->words);
    switch (fault) {
    case 3: slots[at] = draw(2) ? OJEONBUT_ARCS : OJEONBUT_NONE - 1; break;
    case 4: slots[at] = OJEONBUT_NONE; break;
    case 5: slots[at] = draw(OJEONBUT_ARCS); break;
    case 6: memset(slots + at / c->width * c->width, 0xff, c->width * sizeof *slots); break;
    case 7: c->words += draw(2) ? 1 : (size_t)-1; break;
    case 8: c->words = draw(2) ? 0 : c->words / 2; break;
    default: break;
    }
}

/* A call about one of the plans, now and then about number zero or in a file with some bytes too many. */
static struct call draw_call(int kind, uint32_t plan, uint32_t records)
{
    struct call c = {.kind = (unsigned)kind, .plan = draw(40) ? numbers[plan] : 0, .bytes = (size_t)records * RECORD + (draw(60) ? 0 : 1 + draw(RECORD - 1))};
    if (kind == STORE)
        draw_slots(&c, records);
    if (kind == FETCH) {
        uint32_t routes = kept[plan].routes, most = kept[plan].width;
        c.width = draw(4) ? most : draw(2) ? draw(most + 1) : draw(2) ? most + draw(9) : WIDTH;
        c.words = (size_t)routes * c.width;
        if (draw(4) == 0)
            c.words = draw(2) && c.words ? c.words - 1 : c.words + draw(9);
        junk_slots(c.words);
    }
    return c;
}

/* After a store, a withdrawal or a fetch: what is kept, and whether the fetch gave that. */
static bool keep(const struct call *c, uint32_t plan, ojeonbut_reply reply)
{
    if (reply.outcome != OJEONBUT_FOUND || c->kind == COLLECT)
        return true;
    if (c->kind == WITHDRAW) {
        kept[plan].routes = 0;
        return true;
    }
    if (c->kind == STORE) {
        kept[plan].routes = c->routes;
        kept[plan].width = c->width;
        kept[plan].slots = realloc(kept[plan].slots, c->words * sizeof *slots);
        memcpy(kept[plan].slots, slots, c->words * sizeof *slots);
        return true;
    }
    if (reply.number != kept[plan].routes)
        return false;
    for (uint32_t r = 0; r < kept[plan].routes; r++)
        for (uint32_t m = 0; m < c->width || m < kept[plan].width; m++) {
            uint32_t a = m < c->width ? slots[(size_t)r * c->width + m] : OJEONBUT_NONE, b = m < kept[plan].width ? kept[plan].slots[(size_t)r * kept[plan].width + m] : OJEONBUT_NONE;
            if (a != b)
                return false;
        }
    return true;
}

/* One to three bytes of a file in form made others, or a record made as another is, free, or a full part with one arc less; then each call on it. */
static uint32_t damaged, refused;

static void damage(uint32_t records)
{
    static uint8_t before[BYTES];
    ojeonbut_reply reply;
    size_t bytes = (size_t)records * RECORD;
    if (!bytes)
        return;
    memcpy(before, file, bytes);
    uint8_t *a = file + draw(records) * RECORD, *b = file + draw(records) * RECORD;
    for (int tries = 0; word(a) == 0 && tries < 3; tries++)
        a = file + draw(records) * RECORD;
    switch (draw(9)) {
    case 0: memcpy(a, b, RECORD); break;
    case 1: memset(a, 0, RECORD); break;
    case 2:
        a[draw(RECORD)] ^= (uint8_t)(1 << draw(8));
        b[draw(RECORD)] ^= (uint8_t)(1 << draw(8)); /* fall through */
    case 3: a[draw(RECORD)] = (uint8_t)draw(256); break;
    case 4: a[draw(8)] += 1; break;
    case 5: a[draw(8)] -= 1; break;
    case 6:
        a[5] = HELD - 1;
        put(a + 8 + 4 * (HELD - 1), OJEONBUT_NONE);
        break;
    default: a[draw(RECORD)] = (uint8_t)draw(9); break;
    }
    damaged++;
    for (int kind = STORE; kind <= COLLECT; kind++) {
        static uint8_t broken[BYTES];
        memcpy(broken, file, bytes);
        struct call c = draw_call(kind, draw(PLANS), records);
        play(&c, &reply);
        memcpy(file, broken, bytes);
    }
    refused += !read_file(file, bytes);
    memcpy(file, before, bytes);
}

/* Two records change places: the file means what it did. */
static void exchange(uint32_t records)
{
    uint8_t own[RECORD];
    for (uint32_t i = 0; i < records; i++) {
        uint8_t *a = file + draw(records) * RECORD, *b = file + draw(records) * RECORD;
        memcpy(own, a, RECORD);
        memcpy(a, b, RECORD);
        memcpy(b, own, RECORD);
    }
}

static bool play_history(void)
{
    static const int kinds[] = {STORE, STORE, STORE, STORE, STORE, STORE, FETCH, FETCH, FETCH, FETCH, WITHDRAW, WITHDRAW, WITHDRAW, COLLECT};
    uint32_t records = draw(3) ? draw(60) : draw(2) ? draw(300) : draw(RECORDS + 1);
    bool right = true;
    memset(file_area, JUNK, sizeof file_area);
    memset(file, 0, (size_t)records * RECORD);
    for (int i = 0; i < PLANS; i++)
        kept[i].routes = 0;
    for (int i = 0; i < STEPS; i++) {
        uint32_t plan = draw(PLANS), kind = draw(16);
        if (kind == 14)
            damage(records);
        else if (kind == 15)
            exchange(draw(2) ? records : 0);
        else {
            ojeonbut_reply reply;
            for (int tries = 0; tries < 4 && (kept[plan].routes > 0) == (kinds[kind] == STORE); tries++) /* seldom one that is there on storing, or absent else */
                plan = draw(PLANS);
            struct call c = draw_call(kinds[kind], plan, records);
            right &= play(&c, &reply) && keep(&c, plan, reply);
        }
    }
    return right;
}

/* ---- the limits */

enum { LARGE = 1 << 16 };

static uint8_t large[(LARGE + 1) * RECORD];
static uint32_t large_slots[LARGE * HELD + 1], large_again[sizeof large_slots / sizeof *large_slots];

/* The outcome of a store of `routes` routes of one arc in slots of `width` words. */
static uint32_t store_outcome(uint32_t routes, uint32_t width, uint32_t arc)
{
    memset(large, 0, (ROUTES + 1) * RECORD);
    for (size_t i = 0; i < (size_t)routes * width; i++)
        large_slots[i] = i % width ? OJEONBUT_NONE : arc;
    return ojeonbut_plan_store(large, (ROUTES + 1) * RECORD, 1, large_slots, (size_t)routes * width, routes, width).outcome;
}

/* The longest route that can be stored, in just enough records and in one less; and back, into slots as wide and wider. */
static bool longest_as_due(void)
{
    const size_t records = (WIDTH + HELD - 1) / HELD;
    for (uint32_t i = 0; i < WIDTH; i++)
        large_slots[i] = i % OJEONBUT_ARCS;
    memset(large, 0, records * RECORD);
    large[records * RECORD] = JUNK;
    if (ojeonbut_plan_store(large, (records - 1) * RECORD, 5, large_slots, WIDTH, 1, WIDTH).outcome != OJEONBUT_PLAN_ROOM || word(large) != 0 ||
        ojeonbut_plan_store(large, records * RECORD, 5, large_slots, WIDTH, 1, WIDTH).outcome != OJEONBUT_FOUND || large[records * RECORD] != JUNK)
        return false;
    for (uint32_t width = WIDTH; width < WIDTH + 3; width++) {
        memset(large_again, JUNK, sizeof large_again);
        if (!same(ojeonbut_plan_fetch(large, records * RECORD, 5, large_again, width, width), (ojeonbut_reply){OJEONBUT_FOUND, 1}) ||
            memcmp(large_slots, large_again, WIDTH * sizeof *large_slots) != 0)
            return false;
        for (uint32_t i = WIDTH; i < width; i++)
            if (large_again[i] != OJEONBUT_NONE)
                return false;
    }
    return ojeonbut_plan_fetch(large, records * RECORD, 5, large_again, WIDTH, WIDTH - 1).outcome == OJEONBUT_BUFFERS;
}

/* A route of every part number there is, as no store makes it: it is fetched, and collected as it stands. One more part has no number. */
static bool every_part_as_due(void)
{
    for (uint32_t i = 0; i < LARGE; i++) {
        uint8_t *p = large + (size_t)i * RECORD;
        put(p, 6);
        p[4] = 0;
        p[5] = HELD;
        p[6] = (uint8_t)i;
        p[7] = (uint8_t)(i >> 8);
        for (uint32_t j = 0; j < HELD; j++)
            put(p + 8 + 4 * j, large_slots[i * HELD + j] = (i * HELD + j) % OJEONBUT_ARCS);
    }
    const size_t bytes = (size_t)LARGE * RECORD, words = LARGE * HELD;
    memset(large_again, JUNK, sizeof large_again);
    bool right = same(ojeonbut_plan_fetch(large, bytes, 6, large_again, words, (uint32_t)words), (ojeonbut_reply){OJEONBUT_FOUND, 1}) &&
                 memcmp(large_slots, large_again, words * sizeof *large_slots) == 0 &&
                 ojeonbut_plan_fetch(large, bytes, 6, large_again, words, (uint32_t)words - 1).outcome == OJEONBUT_BUFFERS &&
                 ojeonbut_plan_collect(large, bytes).outcome == OJEONBUT_FOUND;
    memcpy(large + bytes, large, RECORD);
    return right && ojeonbut_plan_collect(large, bytes + RECORD).outcome == OJEONBUT_PLAN_FILE;
}

static bool limits_as_due(void)
{
    bool right = store_outcome(1, 1, OJEONBUT_ARCS - 1) == OJEONBUT_FOUND && store_outcome(1, 1, OJEONBUT_ARCS) == OJEONBUT_PLAN_REQUEST &&
                 store_outcome(ROUTES + 1, 1, 0) == OJEONBUT_PLAN_REQUEST && store_outcome(1, WIDTH + 1, 0) == OJEONBUT_PLAN_REQUEST &&
                 store_outcome(1, WIDTH, 0) == OJEONBUT_FOUND && store_outcome(ROUTES, 1, 0) == OJEONBUT_FOUND;
    /* the twelve records just stored, and a thirteenth of rank 12; then an arc number of 262,144 */
    memcpy(large + ROUTES * RECORD, large, RECORD);
    large[ROUTES * RECORD + 4] = ROUTES;
    right = right && ojeonbut_plan_collect(large, ROUTES * RECORD).outcome == OJEONBUT_FOUND && ojeonbut_plan_collect(large, (ROUTES + 1) * RECORD).outcome == OJEONBUT_PLAN_FILE;
    put(large + 8, OJEONBUT_ARCS);
    right = right && ojeonbut_plan_collect(large, ROUTES * RECORD).outcome == OJEONBUT_PLAN_FILE;
    return right && longest_as_due() && every_part_as_due() && ojeonbut_plan_collect(large, 0).outcome == OJEONBUT_FOUND;
}

static void print_outcomes(const char *call, const uint32_t *of)
{
    printf("%s:", call);
    for (int i = 0; i < OUTCOMES; i++)
        if (of[i])
            printf(" %d in %u", i, of[i]);
    printf("\n");
}

int main(void)
{
    uint32_t histories = 0;
    for (int i = 0; i < HISTORIES; i++)
        histories += play_history();
    bool limits = limits_as_due();
    printf("drawn histories of plans %d, as due %u; calls %u, as due %u; damaged files %u, out of form %u; limits %s\n", HISTORIES, histories, calls, as_due, damaged, refused,
           limits ? "as due" : "NOT as due");
    print_outcomes("store", outcomes[STORE]);
    print_outcomes("fetch", outcomes[FETCH]);
    print_outcomes("withdraw", outcomes[WITHDRAW]);
    print_outcomes("collect", outcomes[COLLECT]);
    return histories == HISTORIES && as_due == calls && limits ? 0 : 1;
}
