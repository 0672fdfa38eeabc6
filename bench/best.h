/* The search of ojeonbut_query, written as fast as we can in C: the second measure that the library's times are held against, beside the plain one of baseline.h.
 *
 * Arguments and results are those of baseline_query and baseline_query_closed: nothing is checked, `labels` must be aligned for uint64_t and is left as the search
 * leaves it, and other memory is its own, freed before it returns; where there is none to be had it calls abort(). */
#ifndef BEST_H
#define BEST_H

#include "ojeonbut.h"

ojeonbut_reply best_query(const uint8_t *table, size_t table_bytes, uint32_t nodes, uint32_t start, uint32_t goal, uint32_t k, uint32_t a, uint32_t b,
                          uint8_t *labels, size_t label_bytes, uint32_t *area, size_t area_words, ojeonbut_summary *summaries, size_t summary_count);

ojeonbut_reply best_query_closed(const uint8_t *table, size_t table_bytes, uint32_t nodes, uint32_t start, uint32_t goal, uint32_t k, uint32_t a, uint32_t b,
                                 const uint8_t *closed, size_t closed_bytes, uint8_t *labels, size_t label_bytes, uint32_t *area, size_t area_words,
                                 ojeonbut_summary *summaries, size_t summary_count);

#endif
