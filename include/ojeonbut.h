/* Ojeonbut: the shortest routes that share no more road than a threshold permits.
 *
 * What the caller must ensure, for every call: each pointer is valid for the length given with it and not NULL, also where that length is 0, for
 * writing where it is not const; no buffer that is written overlaps another buffer of the same call; nothing else changes any of them during the call;
 * `area`, `list`, `slots`, `summaries` and `ratios` are aligned for their types. Nothing else: any bytes, any numbers and any lengths are taken, and what is wrong is refused.
 *
 * The calls keep nothing between them, allocate nothing, and may run in several threads at once on different buffers. docs/FIGURES.md has the stack they need.
 * Link libojeonbut.a, which is for x86-64 Linux. */
#ifndef OJEONBUT_H
#define OJEONBUT_H

#include <stddef.h>
#include <stdint.h>

#ifdef __cplusplus
extern "C" {
#endif

/* The version that this header declares; ojeonbut_version() gives the archive's. It goes up with every change that a caller can see: docs/CHANGES.md. */
#define OJEONBUT_VERSION 10

/* A road table: arc records of 16 bytes, little-endian: start node, end node, length, road number (bytes 12 to 15); 4 bytes each. Records stand in order of start node.
 * An arc's number is its record's, from 0; a node's is below the node count. Arcs that have one road number other than 0 are of one road, as both sides of a street are;
 * an arc with road number 0 is a road of its own. Any road number is taken. */
#define OJEONBUT_RECORD 16      /* bytes of an arc record */
#define OJEONBUT_NODES 65536    /* the most nodes; the least is 1 */
#define OJEONBUT_ARCS 262144    /* the most arcs */
#define OJEONBUT_LENGTH 1000000 /* the greatest length of an arc; the least is 1 */
#define OJEONBUT_ROUTES 12      /* the most routes of a query or of a stored plan; the least is 1 */
#define OJEONBUT_LABEL 128      /* bytes of a label */
#define OJEONBUT_LABELS 65535   /* the most whole labels that may be lent */
#define OJEONBUT_WORK 64        /* bytes of working room for each node */
#define OJEONBUT_D 1000         /* the greatest d of ojeonbut_variety; the least is 1 */
#define OJEONBUT_NONE 4294967295u /* a word of a slot that holds no arc */
#define OJEONBUT_PLAN_RECORD 32 /* bytes of a record in a file of accepted plans */
#define OJEONBUT_PLAN_WIDTH 65535 /* the most words of a slot that a plan is stored from */

/* The outcomes. `number` is what stands beside each in ojeonbut_reply; where none is named it is 0. 12 and 25 are the desk program's, for malformed text and for its old form: no call gives them. */
enum ojeonbut_outcome {
    OJEONBUT_FOUND = 0,     /* all k routes found; from ojeonbut_pair: the pair found; from ojeonbut_variety: the k routes chosen, number: the routes listed; from ojeonbut_check: the table has no fault; from the calls for road files and for plans: done; number, from ojeonbut_plan_fetch: the routes */
    OJEONBUT_FEWER = 1,     /* fewer than k routes found, and no further one exists */
    OJEONBUT_NODE = 2,      /* a record names a node not below the node count; number: the record */
    OJEONBUT_LOOP = 3,      /* a record starts and ends at one node; number: the record */
    OJEONBUT_BAD_LENGTH = 4, /* a length is outside 1 to 1,000,000; number: the record */
    /* 5 is never given, and the number stays free */
    OJEONBUT_ORDER = 6,     /* a record's start node is below the one before it; number: the record */
    OJEONBUT_ENDS = 7,      /* start or goal not below the node count, or equal */
    OJEONBUT_WANTED = 8,    /* k outside 1 to 12 */
    OJEONBUT_THRESHOLD = 9, /* b outside 1 to 1,000, or a not below b */
    OJEONBUT_BUFFERS = 10,  /* area under k * (nodes - 1) words (k is 2 for a pair), fewer than k summaries or ratios, over 65,535 whole labels, or working room under 64 bytes for each node; the area lent for a table or a text too short; a slot narrower than a route of the plan, or fewer words than its slots */
    OJEONBUT_ROOM = 11,     /* a round needs more labels than were lent; number: the round, from 1 */
    OJEONBUT_SIZE = 13,     /* node count outside 1 to 65,536, table bytes not a multiple of 16, or over 262,144 records */
    OJEONBUT_FILE = 14,     /* a road file is malformed; number: its first line, from 1, that is none of the permitted ones, or the number a missing line would have */
    OJEONBUT_CLOSURES = 15, /* closure bytes of another number than the arcs, or one that is neither 0 nor 1 */
    OJEONBUT_PLAN_FILE = 16, /* a file of accepted plans is out of form, in any of its records */
    OJEONBUT_PLAN_REQUEST = 17, /* plan number zero; on storing, not 1 to 12 routes, an empty one, slots out of form, or an arc number above 262,143 */
    OJEONBUT_PLAN_THERE = 18, /* the plan is already there, on storing; it is absent, on fetching or withdrawing */
    OJEONBUT_PLAN_ROOM = 19, /* fewer free records than the plan needs */
    OJEONBUT_SECOND = 20,   /* a second table is not the first one's arcs in order of end node and then arc number */
    OJEONBUT_NO_PAIR = 21,  /* no two routes from start to goal share no arc */
    OJEONBUT_RANGE = 22,    /* d outside 1 to 1,000, or c above d */
    OJEONBUT_LIST_FULL = 23, /* more routes in range than the list has whole slots */
    OJEONBUT_TOO_FEW = 24,  /* fewer than k routes in range */
    OJEONBUT_NUMBERED = 27  /* a table to be written as a road file has a road number other than 0; number: the record, the lowest such */
};

typedef struct ojeonbut_reply {
    uint32_t outcome; /* an enum ojeonbut_outcome */
    uint32_t number;
} ojeonbut_reply;

/* A part of a table: the place of its first byte in the table, and its number of bytes. */
typedef struct ojeonbut_part {
    size_t place;
    size_t bytes;
} ojeonbut_part;

/* One round: the answer's length and number of arcs, and the round's label count. */
typedef struct ojeonbut_summary {
    uint64_t length;
    uint64_t arcs;
    uint64_t labels;
} ojeonbut_summary;

/* The two figures of a route for the dispatcher's screen: the greatest overlap with an earlier route, over that route's length; and the route's length over the first
 * route's. Each is one division of two whole numbers, rounded once. */
typedef struct ojeonbut_ratios {
    double overlap;
    double detour;
} ojeonbut_ratios;

/* What a call for road files made: the bytes of the table or the text and, of a table, its node count. A text has nodes 0; a refusal has bytes and nodes 0. */
typedef struct ojeonbut_made {
    uint32_t outcome; /* an enum ojeonbut_outcome */
    uint32_t number;
    size_t bytes;
    uint32_t nodes;
} ojeonbut_made;

uint32_t ojeonbut_version(void);

/* Outcome 13, or the lowest of 2 to 6 in the lowest faulty record, or 0. Writes nothing. */
ojeonbut_reply ojeonbut_check(const uint8_t *table, size_t table_bytes, uint32_t nodes);

/* Where the records of the arcs that leave `node` stand in the table; { 0, 0 } where the table has a fault or `node` is not below `nodes`. Writes nothing. */
ojeonbut_part ojeonbut_arcs_from(const uint8_t *table, size_t table_bytes, uint32_t nodes, uint32_t node);

/* The query: k routes from start to goal, each the shortest whose overlap with every earlier one is at most a/b of that one's length. The overlap is the length of its arcs
 * whose road the earlier one drives: an arc that stands on both routes, or one whose road number is not 0 and is that of an arc of the earlier one.
 * Checks come in the order 13, the records (2 to 6), 7, 8, 9, 10; then the rounds.
 *
 * After a refusal (2 to 10 and 13) no byte of any buffer is changed. After 0, 1 or 11:
 *   labels     every byte is zero. The room is label_bytes / 128 labels.
 *   area       slot r (from 0) is words r * (nodes - 1) up to (r + 1) * (nodes - 1): the arc numbers of round r + 1's answer in order, then OJEONBUT_NONE; all
 *              words of a slot without an answer are OJEONBUT_NONE. Words after the k-th slot are untouched.
 *   summaries  the first k: length, arcs and label count of each round; a round without an answer has 0, 0 and its count, under 11 the refused one has 0, 0 and
 *              the room; rounds not begun have three zeros. Summaries after the k-th are untouched. */
ojeonbut_reply ojeonbut_query(const uint8_t *table, size_t table_bytes, uint32_t nodes, uint32_t start, uint32_t goal, uint32_t k, uint32_t a, uint32_t b,
                              uint8_t *labels, size_t label_bytes, uint32_t *area, size_t area_words, ojeonbut_summary *summaries, size_t summary_count);

/* The same query while roads are closed: `closed` has one byte for each arc, 0 open and 1 closed. Routes have open arcs only; arc numbers do not change, and the part
 * that ojeonbut_arcs_from hands out for a node stays its whole run. With all bytes 0 it does exactly what ojeonbut_query does.
 * Checks come in the order 13, the records (2 to 6), 15, 7, 8, 9, 10; 15 too changes nothing. */
ojeonbut_reply ojeonbut_query_closed(const uint8_t *table, size_t table_bytes, uint32_t nodes, uint32_t start, uint32_t goal, uint32_t k, uint32_t a, uint32_t b,
                                     const uint8_t *closed, size_t closed_bytes, uint8_t *labels, size_t label_bytes, uint32_t *area, size_t area_words,
                                     ojeonbut_summary *summaries, size_t summary_count);

/* The query with closures, and the ratios of its routes: `ratios` has at least k records, else the outcome is 10. After 0, 1 or 11 the first k are written: the first route's
 * are exactly 0 and 1, those of a round without an answer 0 and 0. Records after the k-th are untouched, and a refusal changes none. All else is as ojeonbut_query_closed does it. */
ojeonbut_reply ojeonbut_query_ratios(const uint8_t *table, size_t table_bytes, uint32_t nodes, uint32_t start, uint32_t goal, uint32_t k, uint32_t a, uint32_t b,
                                     const uint8_t *closed, size_t closed_bytes, uint8_t *labels, size_t label_bytes, uint32_t *area, size_t area_words,
                                     ojeonbut_summary *summaries, size_t summary_count, ojeonbut_ratios *ratios, size_t ratio_count);

/* The query for via routes, for tables that fill any label room. For each node, the first route from start to it (the first of all in the order below) is joined to the first
 * route from it to goal: a candidate. A node that lacks either has none; candidates that visit a node twice are passed over, and of equal ones all but one. They are taken in
 * order: the shorter first, of equally long ones the one with the lower arc number where they first differ. Each is kept whose overlap with every route kept before is at most
 * a/b of that route's length, until k are kept. Overlap and threshold are those of ojeonbut_query, and closures those of ojeonbut_query_closed: via routes have open arcs only.
 * Unless it ends in 11, ojeonbut_query_closed has the same first route; and where there is a second here it has, for 2 routes or more, a second too, and that is no longer.
 *
 * `second` is the second table: the records of `table`, the same number of bytes, every record whole, in order of end node and, of one end node, of arc number. Closed arcs
 * stand in it too. Arc numbers are those of the first table throughout.
 * Checks come in the order 13, the records (2 to 6), 20, 15, 7, 8, 9, 10. 10 is: area under k * (nodes - 1) words, fewer than k summaries, or work_bytes below
 * OJEONBUT_WORK * nodes. The outcome is never 11: no labels are lent.
 *
 * After a refusal (2 to 10, 13, 15 and 20) no byte of any buffer is changed. After 0 (k routes) or 1 (fewer, and no candidate is left):
 *   area       slot r (from 0) is words r * (nodes - 1) up to (r + 1) * (nodes - 1): the arc numbers of the route kept as number r + 1 in order, then OJEONBUT_NONE; all words
 *              of a slot without a route are OJEONBUT_NONE. Words after the k-th slot are untouched.
 *   summaries  the first k: length and arcs of each route, and label count 0; three zeros where there is no route. Summaries after the k-th are untouched.
 *   work       every byte is zero, those past OJEONBUT_WORK * nodes too. What it holds at first does not matter. */
ojeonbut_reply ojeonbut_query_via(const uint8_t *table, size_t table_bytes, const uint8_t *second, size_t second_bytes, uint32_t nodes, uint32_t start, uint32_t goal,
                                  uint32_t k, uint32_t a, uint32_t b, const uint8_t *closed, size_t closed_bytes, uint32_t *area, size_t area_words,
                                  ojeonbut_summary *summaries, size_t summary_count, uint8_t *work, size_t work_bytes);

/* Two routes from start to goal with nothing in common: they share no arc number, and no two such routes have a lesser total length. Each visits no node twice; a node other
 * than start and goal may stand on both. Road numbers are set aside: two arcs of one road are two arcs. Closures are those of ojeonbut_query_closed: both routes have open arcs
 * only. The shortest route need not be one of the two. Which of several pairs of the same total comes out is left open; the total is not.
 * Checks come in the order 13, the records (2 to 6), 15, 7, 10. 10 is: area under 2 * (nodes - 1) words, fewer than 2 summaries, or work_bytes below OJEONBUT_WORK * nodes.
 * Then the outcome is 0, or 21 exactly where no two routes from start to goal share no arc.
 *
 * After a refusal of these checks (2 to 7, 10, 13 and 15) no byte of any buffer is changed. After 0 or 21:
 *   area       two slots of nodes - 1 words, one after the other: the arc numbers of a route in order, then OJEONBUT_NONE. The first has the shorter route; of two equally long
 *              ones that with the lower arc number where they first differ. After 21 all words of both are OJEONBUT_NONE. Words after the second slot are untouched.
 *   summaries  the first two: length and arcs of each route, and label count 0; after 21 three zeros each. Summaries after the second are untouched.
 *   work       every byte is zero, those past OJEONBUT_WORK * nodes too. What it holds at first does not matter. */
ojeonbut_reply ojeonbut_pair(const uint8_t *table, size_t table_bytes, uint32_t nodes, uint32_t start, uint32_t goal, const uint8_t *closed, size_t closed_bytes,
                             uint32_t *area, size_t area_words, ojeonbut_summary *summaries, size_t summary_count, uint8_t *work, size_t work_bytes);

/* The most different of the near-shortest: k of the routes from start to goal that are at most c/d of the shortest longer than it. A route is in range where its length times d is
 * at most d + c times that of the shortest; equality is in range. All routes in range are listed, each once: the shorter first, of equally long ones the one with the lower arc
 * number where they first differ. A route's rank is its place in this list, from 0. Two routes are as dissimilar as one minus the length of the arcs that stand on both over the
 * length of those that stand on one of them at least: by arc number, road numbers set aside. Of all sets of k routes of the list that one is chosen whose least dissimilar two are
 * the most dissimilar, compared as whole-number fractions, without rounding; of equal sets the one whose ranks come first: the lower rank where they first differ. For k = 1 it is
 * the shortest route. Routes visit no node twice, and closures are those of ojeonbut_query_closed: they have open arcs only.
 *
 * `list` holds list_words / (nodes - 1) routes, at most 4,294,967,295, and is never a cause for 10. How many routes are in range grows fast with c/d, and the time with them. The stack grows with the
 * longest route in range, by some bytes for each of its arcs: for a route of 65,535 arcs it is more than the 8 MB that a program usually has. docs/FIGURES.md has both.
 * Checks come in the order 13, the records (2 to 6), 15, 7, 8, 10, 22. 10 is: area under k * (nodes - 1) words, or work_bytes below OJEONBUT_WORK * nodes. Then the outcome is 23
 * exactly where more routes are in range than the list holds; else 24 exactly where fewer than k are; else 0, with the number of routes listed beside it.
 *
 * After a refusal of these checks (2 to 8, 10, 13, 15 and 22) no byte of any buffer is changed. After 0, 23 or 24:
 *   list       after 0, slots of nodes - 1 words, one after the other: the arc numbers of the route of rank 0, 1 and so on, in order, then OJEONBUT_NONE. Words after the slot of
 *              the last route listed are untouched. After 23 or 24 every word is OJEONBUT_NONE, those past the last whole slot too.
 *   area       k such slots: the chosen routes by rank. After 23 or 24 all words of the k slots are OJEONBUT_NONE. Words after the k-th slot are untouched.
 *   work       every byte is zero, those past OJEONBUT_WORK * nodes too. What it holds at first does not matter. */
ojeonbut_reply ojeonbut_variety(const uint8_t *table, size_t table_bytes, uint32_t nodes, uint32_t start, uint32_t goal, uint32_t k, uint32_t c, uint32_t d,
                                const uint8_t *closed, size_t closed_bytes, uint32_t *list, size_t list_words, uint32_t *area, size_t area_words, uint8_t *work,
                                size_t work_bytes);

/* The run of one node, by direction: 0, where the records of the arcs that leave `node` stand in `table`; 1, where those of the arcs that come to it stand in `second`, by rising
 * arc number. The part's place is one in that table. { 0, 0 } for another direction, where the table has a fault (13 or 2 to 6), where the second table is not its arcs in order
 * of end node and then arc number (20), or where `node` is not below `nodes`. Writes nothing. */
ojeonbut_part ojeonbut_run(const uint8_t *table, size_t table_bytes, const uint8_t *second, size_t second_bytes, uint32_t nodes, uint32_t direction, uint32_t node);

/* The step along a node's run that the query takes: the first arc from `place` on that is open, or `end` where there is none before it. Past the bytes an arc is open;
 * where `place` is not below `end` it is `end`. Writes nothing. */
size_t ojeonbut_next_arc(const uint8_t *closed, size_t closed_bytes, size_t place, size_t end);

/* A road file (the shortest-path graph format of the 9th DIMACS Implementation Challenge) has these lines, each ended by a newline, and no other: `c` alone, or `c`, a space
 * and any bytes; one line `p sp NODES ARCS` before every `a`; and ARCS lines `a TAIL HEAD LENGTH`, nodes counted from 1. One space between parts; numbers in decimal,
 * without sign or leading zero, at most 4,294,967,295.
 *
 * Reads one into a table at the front of `table`: the arcs in order of start node, those of one start node as they stand in the file, all with road number 0. Refusals: 14; then 13 and 2 to 4 on the
 * table made, by its own record numbers; then 10 where table_bytes is below 16 for each arc. A refusal changes no byte; nor does a read past the table made. */
ojeonbut_made ojeonbut_read_roads(const uint8_t *text, size_t text_bytes, uint8_t *table, size_t table_bytes);

/* Writes a table as a road file at the front of `text`: `p sp NODES ARCS`, then the arcs in their order. Refusals: 13 and 2 to 6, as ojeonbut_check; then 27, since a road
 * file carries no road numbers; then 10 where text_bytes is below the file's. A refusal changes no byte; nor does a write past the file made. Reading the file gives the table
 * back, byte for byte, and its node count. */
ojeonbut_made ojeonbut_write_roads(const uint8_t *table, size_t table_bytes, uint32_t nodes, uint8_t *text, size_t text_bytes);

/* A file of accepted plans: records of OJEONBUT_PLAN_RECORD bytes, no header, little-endian. A free record is all zero, so that a new file is any number of zero records.
 * A record in use holds a part of a route:
 *   bytes 0 to 3    the plan's number, not zero
 *   byte 4          the rank of the route in the plan, from 0 to 11
 *   byte 5          how many arcs stand here, 1 to 6
 *   bytes 6 and 7   the number of the part in the route, from 0
 *   bytes 8 to 31   six arc numbers, each at most 262,143; those not used are OJEONBUT_NONE
 * All parts of a route but its last hold six arcs. A plan's ranks, and the parts of each rank, run from 0 to their last without a gap, each once; records may stand in any order.
 * Every call first checks the whole file: where a record is otherwise, or file_bytes is not a multiple of 32, the outcome is 16. A refusal changes no byte of any buffer.
 *
 * Stores a plan from `routes` slots of `width` words in an area of exactly that many words: slot r (from 0) is words r * width up to (r + 1) * width, the arc numbers of the route
 * of rank r in order, then only OJEONBUT_NONE. Its parts go to the lowest free records, by rank and then by part; a route of n arcs takes one record for each six arcs begun.
 * Refusals, in this order:
 *   16   the file is out of form
 *   17   `plan` is zero; `routes` is not 1 to 12; `width` is above OJEONBUT_PLAN_WIDTH; slot_words is not routes * width; a slot has no arc, an arc after OJEONBUT_NONE, or another
 *        number above 262,143
 *   18   the file has a plan of this number
 *   19   fewer records are free than the plan takes
 * After 0 the records taken are written whole, and no other byte of the file has changed. */
ojeonbut_reply ojeonbut_plan_store(uint8_t *file, size_t file_bytes, uint32_t plan, const uint32_t *slots, size_t slot_words, uint32_t routes, uint32_t width);

/* Fetches a plan into slots of `width` words, of any width: after 0, `number` is how many routes it has, and the slot of each holds its arc numbers in order, then OJEONBUT_NONE.
 * Words after the last of these slots are untouched. Refusals, in this order: 16; 17 where `plan` is zero; 18 where the file has no such plan; 10 where a route is longer than
 * `width`, or slot_words is below `width` for each route. */
ojeonbut_reply ojeonbut_plan_fetch(const uint8_t *file, size_t file_bytes, uint32_t plan, uint32_t *slots, size_t slot_words, uint32_t width);

/* Withdraws a plan: all bytes of its records become zero, and no other byte changes. Refusals, in this order: 16; 17 where `plan` is zero; 18 where the file has no such plan. */
ojeonbut_reply ojeonbut_plan_withdraw(uint8_t *file, size_t file_bytes, uint32_t plan);

/* Collects the records in use at the front of the file, in their order; all bytes after them become zero. What each plan is fetched as does not change. Refusal: 16. */
ojeonbut_reply ojeonbut_plan_collect(uint8_t *file, size_t file_bytes);

#ifdef __cplusplus
}
#endif

#endif
