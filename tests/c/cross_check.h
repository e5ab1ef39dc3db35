/*
 * build/libcross_check.a, which is proved as the library is and is for tests and the benchmark alone: sums, differences and products of doubles,
 * as patterns, and fmod of f32 at a width of a caller's own.
 *
 *     ew_check_..         in whole numbers, what steps 40 to 42 call
 *     ew_check_float_..   by the language's own operation on floats. Of an operand that is not finite 7ff8000000000000
 *     ew_check_own_..     at a type with what a width has to have and no more: its default NaN, and fmod's word
 *
 * Of finite operands the first two sorts are proved to be one definition. What the first three functions give of others is nothing to count on.
 */
#ifndef CROSS_CHECK_H
#define CROSS_CHECK_H

#include <stdint.h>

uint64_t ew_check_sum(uint64_t x, uint64_t y);
uint64_t ew_check_difference(uint64_t x, uint64_t y);
uint64_t ew_check_product(uint64_t x, uint64_t y);
uint64_t ew_check_float_sum(uint64_t x, uint64_t y);
uint64_t ew_check_float_difference(uint64_t x, uint64_t y);
uint64_t ew_check_float_product(uint64_t x, uint64_t y);
uint32_t ew_check_own_default_nan(void);
uint32_t ew_check_own_fmod(uint32_t x, uint32_t y);

#endif
