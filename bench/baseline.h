/* The search of ojeonbut_query, written plainly: the measure that the library's times are held against.
 *
 * Arguments and results are those of ojeonbut_query, with these differences. Nothing is checked: the table must be one in which ojeonbut_check finds no
 * fault, and the other arguments such as ojeonbut_query does not refuse, so that the outcome is 0, 1 or 11. `labels` must be aligned for uint64_t, and its
 * bytes are left as the search leaves them. Candidates, and a few bytes for each node and arc, stand in memory of its own, freed before it returns; where
 * there is none to be had it calls abort(). */
#ifndef BASELINE_H
#define BASELINE_H

#include "ojeonbut.h"

ojeonbut_reply baseline_query(const uint8_t *table, size_t table_bytes, uint32_t nodes, uint32_t start, uint32_t goal, uint32_t k, uint32_t a, uint32_t b,
                              uint8_t *labels, size_t label_bytes, uint32_t *area, size_t area_words, ojeonbut_summary *summaries, size_t summary_count);

/* The same over the arcs whose byte is 0, as ojeonbut_query_closed. */
ojeonbut_reply baseline_query_closed(const uint8_t *table, size_t table_bytes, uint32_t nodes, uint32_t start, uint32_t goal, uint32_t k, uint32_t a, uint32_t b,
                                     const uint8_t *closed, size_t closed_bytes, uint8_t *labels, size_t label_bytes, uint32_t *area, size_t area_words,
                                     ojeonbut_summary *summaries, size_t summary_count);

#endif
