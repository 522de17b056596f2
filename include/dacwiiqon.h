/* The plan for the unit's host program, as proved functions on numbers and byte slices.
 *
 * Link with libhost.a. A slice is a pointer and its length in bytes. The slices of one call must not overlap and no pointer
 * may be NULL, also where a length is 0: nothing checks that.
 *
 * Each function returns document 01's refusal number, 0 for none. On a refusal every slice holds what it held before.
 *   1  n above 64
 *   2  m is 0 or above 4
 *   3  out_length is not 8 (plan_total) or not 24 (plan_bytes, column_plan_bytes)
 *   13 position past the total   (plan_bytes, column_plan_bytes)
 *   14 fewer than 8 bytes lent   (plan_bytes, column_plan_bytes)
 * If several apply, the lowest number is returned. No state is kept between calls. 8 bytes always hold the next order.
 *
 * The plan comes in two forms, each for its own sheet: plan_bytes gives the row plan, for sheets sealed by rows, and
 * column_plan_bytes the column plan, for sheets sealed by columns. Order by order the two do the same, so total and positions
 * are common to both. The bytes are not: an order names other cells, and may have another length. A walk must keep to one of the
 * two functions and to the sheet of its plan; nothing checks that either.
 */
#ifndef DACWIIQON_H
#define DACWIIQON_H

#include <stddef.h>
#include <stdint.h>

/* How many orders the plan for n bids and m pools has, by rows and by columns alike: 8 bytes to out, lowest byte first. */
uint32_t plan_total(uint64_t n, uint64_t m, uint8_t *out, size_t out_length);

/* Fills bytes with as many whole orders as fit, from a position of the row plan on, and keeps the bytes after them.
 * 24 bytes to out, three numbers of 8 bytes each, lowest byte first: the count of bytes, the count of orders, the next position.
 * The first position is 0; the last one is the total, where nothing is left to write. A call that is not refused gives 0 orders
 * there and nowhere else: a loop may stop at the first such call, or at the total, and has then got exactly the plan's bytes. */
uint32_t plan_bytes(uint64_t n, uint64_t m, uint64_t position, uint8_t *bytes, size_t bytes_length, uint8_t *out,
                    size_t out_length);

/* The same of the column plan. A slice may hold more or fewer of its orders than of the row plan's. */
uint32_t column_plan_bytes(uint64_t n, uint64_t m, uint64_t position, uint8_t *bytes, size_t bytes_length, uint8_t *out,
                           size_t out_length);

#endif
