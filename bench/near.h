/* The list and the choice of ojeonbut_variety, written plainly: the measure that its answers are held against.
 *
 * Arguments and results are those of ojeonbut_variety, with these differences. Nothing is checked: the arguments must be such as ojeonbut_variety does not refuse, so that the
 * outcome is 0, 23 or 24. The list is sorted when it is whole, and all sets of k routes are looked at: with n routes listed the time goes with n to the power of k. `work` is not
 * touched: what it needs stands in memory of its own, freed before it returns; where there is none to be had it calls abort(). */
#ifndef NEAR_H
#define NEAR_H

#include "ojeonbut.h"

ojeonbut_reply near_variety(const uint8_t *table, size_t table_bytes, uint32_t nodes, uint32_t start, uint32_t goal, uint32_t k, uint32_t c, uint32_t d, const uint8_t *closed,
                            size_t closed_bytes, uint32_t *list, size_t list_words, uint32_t *area, size_t area_words, uint8_t *work, size_t work_bytes);

#endif
