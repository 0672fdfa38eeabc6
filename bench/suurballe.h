/* The pair of ojeonbut_pair, written plainly: the measure that its times are held against.
 *
 * Arguments and results are those of ojeonbut_pair, with these differences. Nothing is checked: the arguments must be such as ojeonbut_pair does not refuse, so that the
 * outcome is 0 or 21; of several pairs of the least total another may come out. `work` is not touched: what it needs stands in memory of its own, freed before it returns;
 * where there is none to be had it calls abort(). */
#ifndef SUURBALLE_H
#define SUURBALLE_H

#include "ojeonbut.h"

ojeonbut_reply suurballe_pair(const uint8_t *table, size_t table_bytes, uint32_t nodes, uint32_t start, uint32_t goal, const uint8_t *closed, size_t closed_bytes,
                              uint32_t *area, size_t area_words, ojeonbut_summary *summaries, size_t summary_count, uint8_t *work, size_t work_bytes);

#endif
