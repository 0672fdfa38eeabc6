/* The archive's calls for road files on drawn files and tables, right and spoilt, in buffers that lie in junk: every outcome and every byte is held against a reader and a
 * writer written out here. Then files of the greatest size: read, written and read again, one arc more, and how long falling start nodes take beside rising ones. Prints how
 * often each outcome occurred; exits 1 where something differs, and prints the first text that does. */
#include "ojeonbut.h"

#include <stdbool.h>
#include <stdio.h>
#include <stdlib.h>
#include <string.h>
#include <time.h>

enum { CASES = 20000, NODES = 6, ARCS = 10, TEXT = 1024, AREA = (ARCS + 2) * OJEONBUT_RECORD, AROUND = 32, JUNK = 0xa5, OUTCOMES = OJEONBUT_NUMBERED + 1 };

static uint64_t state = 1;

/* A number below n. */
static uint32_t draw(uint32_t n)
{
    state = state * 6364136223846793005u + 1442695040888963407u;
    return (uint32_t)((state >> 33) % n);
}

struct arc {
    uint32_t from, to, length;
};

/* ---- a second reader */

struct line {
    char kind; /* c, p, a, or 0 for none of them */
    uint64_t numbers[3];
};

/* The number that a part of a line is, or 2 ^ 32 where it is none. */
static uint64_t number_of(const char *s, size_t n)
{
    uint64_t v = 0;
    if (n == 0 || n > 10 || (n > 1 && s[0] == '0'))
        return UINT64_C(1) << 32;
    for (size_t i = 0; i < n; i++) {
        if (s[i] < '0' || s[i] > '9')
            return UINT64_C(1) << 32;
        v = v * 10 + (uint64_t)(s[i] - '0');
    }
    return v > UINT32_MAX ? UINT64_C(1) << 32 : v;
}

/* A line is split at its spaces. */
static struct line line_of(const char *s, size_t n)
{
    struct line line = {0};
    size_t starts[8], ends[8], parts = 0, begin = 0;
    if (n > 0 && s[0] == 'c' && (n == 1 || s[1] == ' ')) {
        line.kind = 'c';
        return line;
    }
    for (size_t i = 0; i <= n; i++)
        if (i == n || s[i] == ' ') {
            if (parts == 8)
                return line;
            starts[parts] = begin;
            ends[parts++] = i;
            begin = i + 1;
        }
    bool sizes = parts == 4 && ends[0] == 1 && s[0] == 'p' && ends[1] - starts[1] == 2 && s[starts[1]] == 's' && s[starts[1] + 1] == 'p';
    bool arc = parts == 4 && ends[0] == 1 && s[0] == 'a';
    if (!sizes && !arc)
        return line;
    size_t first = sizes ? 2 : 1;
    for (size_t i = first; i < 4; i++)
        if ((line.numbers[i - first] = number_of(s + starts[i], ends[i] - starts[i])) > UINT32_MAX)
            return line;
    if (sizes || (line.numbers[0] > 0 && line.numbers[1] > 0))
        line.kind = s[0];
    return line;
}

static ojeonbut_made refused(uint32_t outcome, uint32_t number) { return (ojeonbut_made){outcome, number, 0, 0}; }

static void put(uint8_t *p, uint32_t v)
{
    for (int i = 0; i < 4; i++)
        p[i] = (uint8_t)(v >> 8 * i);
}

static uint32_t word(const uint8_t *p) { return p[0] | (uint32_t)p[1] << 8 | (uint32_t)p[2] << 16 | (uint32_t)p[3] << 24; }

/* What is due for a text; where it is 0, the table stands at `table`, which has room. */
static ojeonbut_made due_read(const char *text, size_t n, uint8_t *table, size_t room)
{
    static struct arc arcs[TEXT];
    uint32_t lines = 0, count = 0;
    bool begun = false;
    uint64_t nodes = 0, wanted = 0;
    size_t begin = 0;
    for (size_t i = 0; i < n; i++) {
        if (text[i] != '\n')
            continue;
        struct line line = line_of(text + begin, i - begin);
        lines++;
        begin = i + 1;
        if (line.kind == 'p' && !begun) {
            begun = true;
            nodes = line.numbers[0];
            wanted = line.numbers[1];
        } else if (line.kind == 'a' && begun && count < wanted) {
            arcs[count++] = (struct arc){(uint32_t)line.numbers[0] - 1, (uint32_t)line.numbers[1] - 1, (uint32_t)line.numbers[2]};
        } else if (line.kind != 'c') {
            return refused(OJEONBUT_FILE, lines);
        }
    }
    if (begin < n || !begun || count < wanted)
        return refused(OJEONBUT_FILE, lines + 1);
    if (nodes < 1 || nodes > OJEONBUT_NODES || wanted > OJEONBUT_ARCS)
        return refused(OJEONBUT_SIZE, 0);
    static struct arc inorder[TEXT];
    for (uint32_t i = 0; i < count; i++) {
        uint32_t at = 0;
        for (uint32_t j = 0; j < count; j++)
            at += arcs[j].from < arcs[i].from || (arcs[j].from == arcs[i].from && j < i);
        inorder[at] = arcs[i];
    }
    for (uint32_t i = 0; i < count; i++) {
        struct arc a = inorder[i];
        uint32_t fault = a.from >= nodes || a.to >= nodes                      ? OJEONBUT_NODE
                         : a.from == a.to                                      ? OJEONBUT_LOOP
                         : a.length < 1 || a.length > OJEONBUT_LENGTH          ? OJEONBUT_BAD_LENGTH
                                                                               : 0;
        if (fault)
            return refused(fault, i);
    }
    if (room < count * (size_t)OJEONBUT_RECORD)
        return refused(OJEONBUT_BUFFERS, 0);
    for (uint32_t i = 0; i < count; i++) {
        put(table + i * OJEONBUT_RECORD, inorder[i].from);
        put(table + i * OJEONBUT_RECORD + 4, inorder[i].to);
        put(table + i * OJEONBUT_RECORD + 8, inorder[i].length);
        put(table + i * OJEONBUT_RECORD + 12, 0);
    }
    return (ojeonbut_made){OJEONBUT_FOUND, 0, count * (size_t)OJEONBUT_RECORD, (uint32_t)nodes};
}

/* ---- drawn files */

/* A road file that is well-formed: comments anywhere, arcs in any order. Some have a fault that only the table made shows. */
static size_t draw_file(char *text)
{
    uint32_t nodes = 2 + draw(NODES - 1), arcs = draw(ARCS + 1), most = draw(8) ? nodes : nodes + 1;
    size_t n = 0;
    static const char *const comments[] = {"c\n", "c \n", "c  a 1 2 3\n", "c p sp 1 1\n", "c \xff\t{}\n"};
    while (draw(3) == 0)
        n += (size_t)sprintf(text + n, "%s", comments[draw(5)]);
    n += (size_t)sprintf(text + n, "p sp %u %u\n", draw(40) ? nodes : draw(2) ? 0 : OJEONBUT_NODES + 1, arcs);
    for (uint32_t i = 0; i < arcs; i++) {
        uint32_t from = draw(nodes), to = draw(20) ? (from + 1 + draw(nodes - 1)) % nodes : draw(most);
        while (draw(6) == 0)
            n += (size_t)sprintf(text + n, "%s", comments[draw(5)]);
        n += (size_t)sprintf(text + n, "a %u %u %u\n", from + 1, to + 1, draw(30) ? 1 + draw(9) : draw(2) ? 0 : OJEONBUT_LENGTH + draw(2));
    }
    return n;
}

/* One byte or one line made wrong, or nothing. */
static size_t spoil_file(char *text, size_t n)
{
    static const char bytes[] = " \n0127acps\t\r-";
    size_t at = draw((uint32_t)n), end;
    switch (draw(8)) {
    case 0: text[at] = bytes[draw(sizeof bytes - 1)]; return n;
    case 1: memmove(text + at, text + at + 1, n - at - 1); return n - 1;
    case 2: memmove(text + at + 1, text + at, n - at); return n + 1;
    case 3: /* a line gone */
        while (at > 0 && text[at - 1] != '\n')
            at--;
        for (end = at; text[end] != '\n';)
            end++;
        memmove(text + at, text + end + 1, n - end - 1);
        return n - (end + 1 - at);
    case 4: /* a line more */
        while (at > 0 && text[at - 1] != '\n')
            at--;
        for (end = at; text[end] != '\n';)
            end++;
        memmove(text + end + 1, text + at, n - at);
        return n + (end + 1 - at);
    case 5: return draw(2) ? at : n - 1;
    default: return n;
    }
}

/* ---- each call as due */

static uint32_t outcomes[2][OUTCOMES];

static bool same(ojeonbut_made a, ojeonbut_made b) { return a.outcome == b.outcome && a.number == b.number && a.bytes == b.bytes && a.nodes == b.nodes; }

static void count(int call, ojeonbut_made m)
{
    if (m.outcome < OUTCOMES)
        outcomes[call][m.outcome]++;
}

static bool read_as_due(const char *text, size_t n)
{
    static uint8_t due[AROUND + TEXT * OJEONBUT_RECORD + AROUND], found[sizeof due];
    memset(due, JUNK, sizeof due);
    memset(found, JUNK, sizeof found);
    size_t room = draw(4) ? AREA : draw(AREA);
    ojeonbut_made m = due_read(text, n, due + AROUND, room), got = ojeonbut_read_roads((const uint8_t *)text, n, found + AROUND, room);
    count(0, got);
    return same(m, got) && memcmp(due, found, sizeof due) == 0;
}

/* The road file that is due for a table without a fault. */
static size_t due_write(const uint8_t *table, size_t bytes, uint32_t nodes, char *text)
{
    size_t n = (size_t)sprintf(text, "p sp %u %zu\n", nodes, bytes / OJEONBUT_RECORD);
    for (size_t i = 0; i < bytes; i += OJEONBUT_RECORD)
        n += (size_t)sprintf(text + n, "a %u %u %u\n", word(table + i) + 1, word(table + i + 4) + 1, word(table + i + 8));
    return n;
}

/* The fault of a table, or 27 with its lowest record that has a road number, or outcome 0. */
static ojeonbut_reply due_refusal(const uint8_t *table, size_t bytes, uint32_t nodes)
{
    ojeonbut_reply fault = ojeonbut_check(table, bytes, nodes); /* tests/calls.c holds it to the rules */
    for (uint32_t i = 0; !fault.outcome && i < bytes / OJEONBUT_RECORD; i++)
        if (word(table + i * OJEONBUT_RECORD + 12))
            fault = (ojeonbut_reply){OJEONBUT_NUMBERED, i};
    return fault;
}

/* A table, right or with one number or its length made wrong or with road numbers, written; and read again where it was written. */
static bool write_as_due(void)
{
    static uint8_t table[AREA], again[AREA + AROUND];
    static char due[AROUND + TEXT + AROUND], found[sizeof due];
    uint32_t nodes = 2 + draw(NODES - 1), arcs = draw(ARCS + 1), from = 0;
    for (uint32_t i = 0; i < arcs; i++) {
        from += draw(2) && from + 1 < nodes;
        put(table + i * OJEONBUT_RECORD, from);
        put(table + i * OJEONBUT_RECORD + 4, (from + 1 + draw(nodes - 1)) % nodes);
        put(table + i * OJEONBUT_RECORD + 8, draw(9) ? 1 + draw(OJEONBUT_LENGTH) : 1);
        put(table + i * OJEONBUT_RECORD + 12, 0);
    }
    size_t bytes = arcs * (size_t)OJEONBUT_RECORD;
    if (arcs && draw(4) == 0)
        put(table + draw(arcs) * OJEONBUT_RECORD + 4 * draw(4), draw(NODES));
    while (arcs && draw(8) == 0)
        table[draw(arcs) * OJEONBUT_RECORD + 12 + draw(4)] = (uint8_t)(1 + draw(255));
    if (draw(16) == 0)
        bytes += 1 + draw(15);
    if (draw(16) == 0)
        nodes = draw(2) ? 0 : OJEONBUT_NODES + 1;
    memset(due, JUNK, sizeof due);
    memset(found, JUNK, sizeof found);
    ojeonbut_reply fault = due_refusal(table, bytes, nodes);
    size_t n = 0, room = draw(TEXT);
    char text[TEXT];
    if (!fault.outcome) {
        n = due_write(table, bytes, nodes, text);
        room = draw(2) ? n - draw(2) : draw(4) ? TEXT : draw((uint32_t)n);
    }
    ojeonbut_made m = fault.outcome ? refused(fault.outcome, fault.number) : room < n ? refused(OJEONBUT_BUFFERS, 0) : (ojeonbut_made){OJEONBUT_FOUND, 0, n, 0};
    if (!m.outcome)
        memcpy(due + AROUND, text, n);
    ojeonbut_made got = ojeonbut_write_roads(table, bytes, nodes, (uint8_t *)found + AROUND, room);
    count(1, got);
    if (!same(m, got) || memcmp(due, found, sizeof due) != 0)
        return false;
    if (m.outcome)
        return true;
    memset(again, JUNK, sizeof again);
    ojeonbut_made back = ojeonbut_read_roads((uint8_t *)found + AROUND, n, again, sizeof again);
    return same(back, (ojeonbut_made){OJEONBUT_FOUND, 0, bytes, nodes}) && memcmp(again, table, bytes) == 0 && again[bytes] == JUNK;
}

/* ---- files of the greatest size */

enum { LARGE = 6000000 };

static char large[LARGE];
static uint8_t large_table[OJEONBUT_ARCS * OJEONBUT_RECORD + 1];

/* A file with `arcs` arcs of which number i starts at node `start(i)`, from 0; its length tells i. */
static size_t large_file(uint32_t arcs, uint32_t (*start)(uint32_t))
{
    size_t n = (size_t)sprintf(large, "c of the greatest size\np sp %d %u\n", OJEONBUT_NODES, arcs);
    for (uint32_t i = 0; i < arcs; i++)
        n += (size_t)sprintf(large + n, "a %u %u %u\n", start(i) + 1, (start(i) + 1) % OJEONBUT_NODES + 1, OJEONBUT_LENGTH - i);
    return n;
}

static uint32_t rising(uint32_t i) { return i / 4 % OJEONBUT_NODES; }
static uint32_t falling(uint32_t i) { return (OJEONBUT_ARCS - 1 - i % OJEONBUT_ARCS) / 4; }
static uint32_t scattered(uint32_t i) { return i * 2741 % OJEONBUT_NODES; } /* 2741 is odd: each node four times */

/* Every node has four arcs, in file order: the lengths fall by the number of arcs between. */
static bool large_as_due(uint32_t (*start)(uint32_t))
{
    static uint32_t next[OJEONBUT_NODES];
    static uint8_t due[sizeof large_table], text[LARGE], again[sizeof large_table];
    size_t n = large_file(OJEONBUT_ARCS, start);
    memset(next, 0, sizeof next);
    memset(due, JUNK, sizeof due);
    memset(large_table, JUNK, sizeof large_table);
    for (uint32_t i = 0; i < OJEONBUT_ARCS; i++) {
        uint32_t from = start(i);
        uint8_t *record = due + (4 * from + next[from]++) * OJEONBUT_RECORD;
        put(record, from);
        put(record + 4, (from + 1) % OJEONBUT_NODES);
        put(record + 8, OJEONBUT_LENGTH - i);
        put(record + 12, 0);
    }
    const size_t bytes = OJEONBUT_ARCS * OJEONBUT_RECORD;
    const ojeonbut_made whole = {OJEONBUT_FOUND, 0, bytes, OJEONBUT_NODES};
    if (!same(ojeonbut_read_roads((uint8_t *)large, n, large_table, sizeof large_table), whole) || memcmp(due, large_table, sizeof due) != 0)
        return false;
    ojeonbut_made written = ojeonbut_write_roads(large_table, bytes, OJEONBUT_NODES, text, sizeof text);
    memset(again, JUNK, sizeof again);
    return written.outcome == OJEONBUT_FOUND && same(ojeonbut_read_roads(text, written.bytes, again, sizeof again), whole) && memcmp(due, again, sizeof due) == 0;
}

/* One arc more than a table may have is 13, and one more than the file says is 14 with its line. */
static bool one_more_as_due(void)
{
    size_t n = large_file(OJEONBUT_ARCS + 1, rising);
    memset(large_table, JUNK, sizeof large_table);
    ojeonbut_made over = ojeonbut_read_roads((uint8_t *)large, n, large_table, sizeof large_table);
    n = large_file(OJEONBUT_ARCS, rising);
    n += (size_t)sprintf(large + n, "a 1 2 1\nc after it\n");
    ojeonbut_made line = ojeonbut_read_roads((uint8_t *)large, n, large_table, sizeof large_table);
    for (size_t i = 0; i < sizeof large_table; i++)
        if (large_table[i] != JUNK)
            return false;
    return same(over, refused(OJEONBUT_SIZE, 0)) && same(line, refused(OJEONBUT_FILE, OJEONBUT_ARCS + 3));
}

/* The least time of five reads, in seconds. */
static double time_of(uint32_t (*start)(uint32_t))
{
    size_t n = large_file(OJEONBUT_ARCS, start);
    double least = 1e9;
    for (int i = 0; i < 5; i++) {
        struct timespec a, b;
        clock_gettime(CLOCK_MONOTONIC, &a);
        ojeonbut_read_roads((uint8_t *)large, n, large_table, sizeof large_table);
        clock_gettime(CLOCK_MONOTONIC, &b);
        double t = (double)(b.tv_sec - a.tv_sec) + 1e-9 * (double)(b.tv_nsec - a.tv_nsec);
        if (t < least)
            least = t;
    }
    return least;
}

static void print_outcomes(const char *call, const uint32_t *of)
{
    printf("%s:", call);
    for (int i = 0; i < OUTCOMES; i++)
        if (of[i])
            printf(" %d in %u", i, of[i]);
    printf("\n");
}

int main(void)
{
    uint32_t as_due = 0;
    for (uint32_t i = 0; i < CASES; i++) {
        static char text[2 * TEXT];
        size_t n = spoil_file(text, draw_file(text));
        if (read_as_due(text, n) && write_as_due())
            as_due++;
        else if (as_due == i)
            printf("the first difference, in this text or in the table after it, read or written:\n%.*s\n", (int)n, text);
    }
    bool greatest = large_as_due(rising) && large_as_due(falling) && large_as_due(scattered), over = one_more_as_due();
    double in_order = time_of(rising), against = time_of(falling), mixed = time_of(scattered);
    bool quick = against <= 2 * in_order && mixed <= 2 * in_order;
    printf("drawn files and tables %d, as due %u; 262,144 arcs %s, one more %s\n", CASES, as_due, greatest ? "as due" : "NOT as due", over ? "as due" : "NOT as due");
    print_outcomes("read", outcomes[0]);
    print_outcomes("written", outcomes[1]);
    printf("262,144 arcs rising %.1f ms, falling %.1f ms, scattered %.1f ms: %s\n", 1e3 * in_order, 1e3 * against, 1e3 * mixed, quick ? "at most twice" : "OVER twice");
    return as_due == CASES && greatest && over && quick ? 0 : 1;
}
