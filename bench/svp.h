/* The via routes of ojeonbut_query_via, written plainly: the measure that its times are held against.
 *
 * Arguments and results are those of ojeonbut_query_via, with these differences. Nothing is checked: the arguments must be such as ojeonbut_query_via does not
 * refuse, so that the outcome is 0 or 1. `second` is not read and `work` not touched: what it needs stands in memory of its own, freed before it returns; where
 * there is none to be had it calls abort(). */
#ifndef SVP_H
#define SVP_H

#include "ojeonbut.h"

ojeonbut_reply svp_query_via(const uint8_t *table, size_t table_bytes, const uint8_t *second, size_t second_bytes, uint32_t nodes, uint32_t start, uint32_t goal,
                             uint32_t k, uint32_t a, uint32_t b, const uint8_t *closed, size_t closed_bytes, uint32_t *area, size_t area_words,
                             ojeonbut_summary *summaries, size_t summary_count, uint8_t *work, size_t work_bytes);

/* The second table: the records of a table without fault in order of end node and then of arc number, into as many bytes. */
void svp_second(const uint8_t *table, size_t table_bytes, uint32_t nodes, uint8_t *out);

#endif
