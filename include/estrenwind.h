/*
 * Estrenwind: rounding, splitting, scaling and remainders of IEEE 754 numbers, exact to the last bit, and recipes of such steps, in which
 * doubles are also added, subtracted and multiplied.
 *
 * A function whose name ends in _f64, _f32 or _f16 takes and returns bit patterns: the 64 bits of a double as a uint64_t, the
 * 32 bits of a float as a uint32_t, the 16 bits of a half (binary16) as a uint16_t. So a host cannot change a NaN's bits on the
 * way in or out, and what a function makes of a NaN is what its comment says: mostly the same NaN "quieted", which means the
 * same pattern with the top fraction bit set. Under each pair stand two forms on double and float, with C's names, that only
 * move the bits.
 *
 * Every answer is worked out in whole-number arithmetic. None depends on the rounding mode, on flush-to-zero (FTZ) or on
 * denormals-are-zero (DAZ); none reads or sets errno or an exception flag. Code compiled with -ffast-math may assume that
 * its own doubles are never NaN, infinite or -0: there, use the patterns.
 *
 * Nothing here keeps state or allocates memory: any number of threads may call anything at once.
 *
 * Link with libestrenwind.a (x86-64). For C99 and C++11 or later.
 *
 * SPDX-License-Identifier: Apache-2.0 OR MIT
 */
#ifndef ESTRENWIND_H
#define ESTRENWIND_H

#include <stddef.h>
#include <stdint.h>
#include <string.h>

#ifdef __cplusplus
extern "C" {
#endif

/* ---- Version and sizes ---- */

#define EW_VERSION "0.2.0"
#define EW_VERSION_MAJOR 0
#define EW_VERSION_MINOR 2
#define EW_VERSION_PATCH 0

/* What recipes, frames and sheets measure, in bytes where nothing else is said. A line's length counts its line feed. */
#define EW_MOST_STEPS 128                                /* steps of the longest recipe: words that are enough for every ew_run */
#define EW_MOST_INPUTS 16                                /* inputs of a recipe */
#define EW_RECIPE_LINE 39                                /* a recipe, per step */
#define EW_SHEET_LINE 39                                 /* a sheet, per step */
#define EW_FRAME_INPUT 16                                /* a frame, per input */
#define EW_ANSWER_LINE 19                                /* the longest answer to a frame line */
#define EW_MOST_TEXT (EW_MOST_STEPS * EW_RECIPE_LINE)    /* 4992: the longest recipe */
#define EW_MOST_SHEET (EW_MOST_STEPS * EW_SHEET_LINE)    /* 4992: memory that is enough for every ew_sheet */
#define EW_MOST_FRAME (EW_MOST_INPUTS * EW_FRAME_INPUT)  /* 256: the longest frame */

/* ---- Bits and values ---- */

/* ew_bits_f64 returns the pattern of x, ew_value_f64 the double of a pattern; likewise _f32. */
static inline uint64_t ew_bits_f64(double x) { uint64_t bits; memcpy(&bits, &x, sizeof bits); return bits; }
static inline uint32_t ew_bits_f32(float x) { uint32_t bits; memcpy(&bits, &x, sizeof bits); return bits; }
static inline double ew_value_f64(uint64_t bits) { double x; memcpy(&x, &bits, sizeof x); return x; }
static inline float ew_value_f32(uint32_t bits) { float x; memcpy(&x, &bits, sizeof x); return x; }

/* ---- Refusals ---- */

/* The number in the field `refusal` of an answer. What the other fields hold when it is not EW_ACCEPTED, each function says. */
enum {
    EW_ACCEPTED = 0,
    EW_REFUSED_NAN = 1,     /* a NaN has no whole number */
    EW_REFUSED_OPERAND = 2, /* an infinite number has no remainder, and none is left by zero */
    EW_REFUSED_RANGE = 3,   /* the result is infinite or does not fit */

    /* A recipe's text; the place is the step's number, but 0 for the length. */
    EW_REFUSED_LENGTH = 10,   /* no line, not whole lines of 39 bytes, or more than 128 */
    EW_REFUSED_DIGIT = 11,    /* not a lower-case hexadecimal digit, or a line without its line feed */
    EW_REFUSED_OPCODE = 12,   /* an opcode that there is not */
    EW_REFUSED_UNUSED = 13,   /* a field that the step does not use is not zero */
    EW_REFUSED_AHEAD = 14,    /* an operand that does not stand before the step */
    EW_REFUSED_KIND = 15,     /* an operand of the wrong kind */
    EW_REFUSED_DECLARED = 16, /* a NaN in a double input or constant, or an input's low end above its high end */
    EW_REFUSED_INPUTS = 17,   /* a seventeenth input */

    /* A step of a run or a sheet; the place is its number. A sheet refuses where some frame could be refused. */
    EW_REFUSED_REMAINDER = 20, /* fmod or remainder of an infinite number, or by zero; add, subtract or multiply of an infinite number */
    EW_REFUSED_OVERFLOW = 21,  /* lround, a whole sum or difference, ldexp, add, subtract or multiply out of range */
    EW_REFUSED_INEXACT = 22,   /* a whole number over 2^53 in magnitude, to be made a double */

    /* A frame; the place is 0, but the input's step for its range. */
    EW_REFUSED_FRAME = 30,       /* not 16 digits per input */
    EW_REFUSED_FRAME_DIGIT = 31, /* not a lower-case hexadecimal digit */
    EW_REFUSED_INPUT = 32,       /* an input that is a NaN or outside its range */

    EW_REFUSED_ROOM = 40 /* lent memory too short; the place is 0 */
};

/* A pattern, and the refusal's number; what the pattern is where one is refused, each function says. Then the same of values. */
typedef struct { uint64_t word; uint64_t refusal; } ew_word64;
typedef struct { uint32_t word; uint64_t refusal; } ew_word32;
typedef struct { uint16_t word; uint64_t refusal; } ew_word16;
typedef struct { double value; uint64_t refusal; } ew_double;
typedef struct { float value; uint64_t refusal; } ew_float;
static inline ew_double ew_value_word64(ew_word64 answer) { ew_double r; r.value = ew_value_f64(answer.word); r.refusal = answer.refusal; return r; }
static inline ew_float ew_value_word32(ew_word32 answer) { ew_float r; r.value = ew_value_f32(answer.word); r.refusal = answer.refusal; return r; }

/* ---- Kinds of numbers ---- */

/* What ew_classify answers. */
enum {
    EW_NAN = 0,
    EW_INFINITE = 1,
    EW_ZERO = 2,
    EW_SUBNORMAL = 3,
    EW_NORMAL = 4
};

/* ew_classify returns the kind of x: EW_NAN, EW_INFINITE, EW_ZERO, EW_SUBNORMAL or EW_NORMAL, whatever its sign. */
uint8_t ew_classify_f64(uint64_t x);
uint8_t ew_classify_f32(uint32_t x);
static inline uint8_t ew_classify(double x) { return ew_classify_f64(ew_bits_f64(x)); }
static inline uint8_t ew_classifyf(float x) { return ew_classify_f32(ew_bits_f32(x)); }

/* ---- Signs ---- */

/*
 * ew_fabs returns x with its sign bit cleared.
 *
 * Special cases are:
 *     fabs(-0) = +0
 *     fabs(-Inf) = +Inf
 *     fabs(NaN) = the same NaN, signalling or quiet, with its sign bit cleared
 */
uint64_t ew_fabs_f64(uint64_t x);
uint32_t ew_fabs_f32(uint32_t x);
static inline double ew_fabs(double x) { return ew_value_f64(ew_fabs_f64(ew_bits_f64(x))); }
static inline float ew_fabsf(float x) { return ew_value_f32(ew_fabs_f32(ew_bits_f32(x))); }

/*
 * ew_negate returns x with its sign bit flipped.
 *
 * Special cases are:
 *     negate(+0) = -0, negate(-0) = +0
 *     negate(+Inf) = -Inf, negate(-Inf) = +Inf
 *     negate(NaN) = the same NaN, signalling or quiet, with its sign bit flipped
 */
uint64_t ew_negate_f64(uint64_t x);
uint32_t ew_negate_f32(uint32_t x);
static inline double ew_negate(double x) { return ew_value_f64(ew_negate_f64(ew_bits_f64(x))); }
static inline float ew_negatef(float x) { return ew_value_f32(ew_negate_f32(ew_bits_f32(x))); }

/* ---- Rounding to whole numbers ---- */

/*
 * ew_floor returns the greatest integer not above x.
 *
 * Special cases are:
 *     floor(±0) = ±0
 *     floor(±Inf) = ±Inf
 *     floor(NaN) = that NaN, quieted
 */
uint64_t ew_floor_f64(uint64_t x);
uint32_t ew_floor_f32(uint32_t x);
uint16_t ew_floor_f16(uint16_t x);
static inline double ew_floor(double x) { return ew_value_f64(ew_floor_f64(ew_bits_f64(x))); }
static inline float ew_floorf(float x) { return ew_value_f32(ew_floor_f32(ew_bits_f32(x))); }

/*
 * ew_ceil returns the least integer not below x.
 *
 * Special cases are:
 *     ceil(±0) = ±0
 *     ceil(x) = -0 for -1 < x < 0
 *     ceil(±Inf) = ±Inf
 *     ceil(NaN) = that NaN, quieted
 */
uint64_t ew_ceil_f64(uint64_t x);
uint32_t ew_ceil_f32(uint32_t x);
uint16_t ew_ceil_f16(uint16_t x);
static inline double ew_ceil(double x) { return ew_value_f64(ew_ceil_f64(ew_bits_f64(x))); }
static inline float ew_ceilf(float x) { return ew_value_f32(ew_ceil_f32(ew_bits_f32(x))); }

/*
 * ew_trunc returns the nearest integer to x that is not larger than x in magnitude. A zero result has x's sign.
 *
 * Special cases are:
 *     trunc(±0) = ±0
 *     trunc(±Inf) = ±Inf
 *     trunc(NaN) = that NaN, quieted
 */
uint64_t ew_trunc_f64(uint64_t x);
uint32_t ew_trunc_f32(uint32_t x);
uint16_t ew_trunc_f16(uint16_t x);
static inline double ew_trunc(double x) { return ew_value_f64(ew_trunc_f64(ew_bits_f64(x))); }
static inline float ew_truncf(float x) { return ew_value_f32(ew_trunc_f32(ew_bits_f32(x))); }

/*
 * ew_round returns the integer nearest to x, and of two equally near the one away from zero. A zero result has x's sign.
 *
 * Special cases are:
 *     round(±0) = ±0
 *     round(±Inf) = ±Inf
 *     round(NaN) = that NaN, quieted
 */
uint64_t ew_round_f64(uint64_t x);
uint32_t ew_round_f32(uint32_t x);
uint16_t ew_round_f16(uint16_t x);
static inline double ew_round(double x) { return ew_value_f64(ew_round_f64(ew_bits_f64(x))); }
static inline float ew_roundf(float x) { return ew_value_f32(ew_round_f32(ew_bits_f32(x))); }

/*
 * ew_nearbyint returns the integer nearest to x, and of two equally near the even one, whatever the rounding mode. A zero
 * result has x's sign.
 *
 * Special cases are:
 *     nearbyint(±0) = ±0
 *     nearbyint(±Inf) = ±Inf
 *     nearbyint(NaN) = that NaN, quieted
 */
uint64_t ew_nearbyint_f64(uint64_t x);
uint32_t ew_nearbyint_f32(uint32_t x);
uint16_t ew_nearbyint_f16(uint16_t x);
static inline double ew_nearbyint(double x) { return ew_value_f64(ew_nearbyint_f64(ew_bits_f64(x))); }
static inline float ew_nearbyintf(float x) { return ew_value_f32(ew_nearbyint_f32(ew_bits_f32(x))); }

/* A whole number, or the refusal to give one. */
typedef struct {
    int64_t value;
    uint64_t refusal;
} ew_whole;

/*
 * ew_lround returns round(x) as a signed 64-bit number.
 *
 * Special cases are:
 *     lround(±0) = 0
 *     lround(-2^63) = INT64_MIN
 *
 * Refuses 1 (EW_REFUSED_NAN) where x is a NaN: value 0.
 * Refuses 3 (EW_REFUSED_RANGE) where x is infinite or round(x) is outside -2^63 to 2^63-1: value 0.
 */
ew_whole ew_lround_f64(uint64_t x);
ew_whole ew_lround_f32(uint32_t x);
static inline ew_whole ew_lround(double x) { return ew_lround_f64(ew_bits_f64(x)); }
static inline ew_whole ew_lroundf(float x) { return ew_lround_f32(ew_bits_f32(x)); }

/* ---- Halves ---- */

/*
 * Halves have no C type of their own here: they are patterns, and what is worked out with them is worked out in floats. The five
 * roundings above have a form on halves, _f16, which gives what ew_f16_to_f32, the same rounding on floats and ew_f32_to_f16
 * give, for every pattern. Two forms below have a float in place of its pattern.
 */

/*
 * ew_f16_to_f32 returns the float of a half, exactly.
 *
 * Special cases are:
 *     f16_to_f32(±0) = ±0
 *     f16_to_f32(±Inf) = ±Inf
 *     f16_to_f32(NaN) = a NaN with its sign and its payload, quieted; the float's further bits are zero
 */
uint32_t ew_f16_to_f32(uint16_t x);
static inline float ew_f16_to_float(uint16_t x) { return ew_value_f32(ew_f16_to_f32(x)); }

/*
 * ew_f32_to_f16 returns the half nearest to x, and of two equally near the even one. A zero result has x's sign. A half that
 * is no NaN comes back from ew_f16_to_f32 and ew_f32_to_f16 with its own bits.
 *
 * Special cases are:
 *     f32_to_f16(±0) = ±0
 *     f32_to_f16(x) = ±0 for |x| <= 2^-25
 *     f32_to_f16(±Inf) = ±Inf
 *     f32_to_f16(NaN) = a NaN with its sign and the top ten bits of its payload, quieted
 *
 * Refuses 3 (EW_REFUSED_RANGE) where x is finite and 65520 or more in magnitude: the infinity of x's sign.
 */
ew_word16 ew_f32_to_f16(uint32_t x);
static inline ew_word16 ew_float_to_f16(float x) { return ew_f32_to_f16(ew_bits_f32(x)); }

/* ---- Splitting and scaling ---- */

/* The two parts of a number, as patterns and as values. */
typedef struct { uint64_t whole, fraction; } ew_parts64;
typedef struct { uint32_t whole, fraction; } ew_parts32;
typedef struct { double whole, fraction; } ew_double_parts;
typedef struct { float whole, fraction; } ew_float_parts;

/*
 * ew_modf returns trunc(x) and what x has past it, each with x's sign.
 *
 * For an x that is not a NaN, whole + fraction in C is x again, to the bit and in every rounding mode, but for this: it is the
 * host that adds. With FTZ or DAZ set it gives a zero of x's sign for a subnormal x (whose fraction is x itself), and
 * -ffast-math may lose the sign of a zero. The two parts themselves are the same on every host.
 *
 * Special cases are:
 *     modf(±0) = ±0, ±0
 *     modf(±Inf) = ±Inf, ±0
 *     modf(NaN) = that NaN, quieted, twice
 */
ew_parts64 ew_modf_f64(uint64_t x);
ew_parts32 ew_modf_f32(uint32_t x);
static inline ew_double_parts ew_modf(double x)
{
    const ew_parts64 parts = ew_modf_f64(ew_bits_f64(x));
    ew_double_parts r;
    r.whole = ew_value_f64(parts.whole);
    r.fraction = ew_value_f64(parts.fraction);
    return r;
}
static inline ew_float_parts ew_modff(float x)
{
    const ew_parts32 parts = ew_modf_f32(ew_bits_f32(x));
    ew_float_parts r;
    r.whole = ew_value_f32(parts.whole);
    r.fraction = ew_value_f32(parts.fraction);
    return r;
}

/* A fraction and an exponent, as a pattern and as a value. */
typedef struct { uint64_t fraction; int64_t exponent; } ew_frexp64;
typedef struct { uint32_t fraction; int64_t exponent; } ew_frexp32;
typedef struct { double fraction; int64_t exponent; } ew_double_frexp;
typedef struct { float fraction; int64_t exponent; } ew_float_frexp;

/*
 * ew_frexp returns a fraction of magnitude at least 0.5 and below 1, with x's sign, and an exponent: x is fraction * 2^exponent.
 *
 * Special cases are:
 *     frexp(±0) = ±0, 0
 *     frexp(±Inf) = ±Inf, 0
 *     frexp(NaN) = that NaN, quieted, 0
 */
ew_frexp64 ew_frexp_f64(uint64_t x);
ew_frexp32 ew_frexp_f32(uint32_t x);
static inline ew_double_frexp ew_frexp(double x)
{
    const ew_frexp64 parts = ew_frexp_f64(ew_bits_f64(x));
    ew_double_frexp r;
    r.fraction = ew_value_f64(parts.fraction);
    r.exponent = parts.exponent;
    return r;
}
static inline ew_float_frexp ew_frexpf(float x)
{
    const ew_frexp32 parts = ew_frexp_f32(ew_bits_f32(x));
    ew_float_frexp r;
    r.fraction = ew_value_f32(parts.fraction);
    r.exponent = parts.exponent;
    return r;
}

/*
 * ew_ldexp returns x * 2^n, rounded once, and of two equally near numbers the even one. Too small a result is a zero with x's
 * sign, and is not refused.
 *
 * Special cases are:
 *     ldexp(±0, n) = ±0
 *     ldexp(±Inf, n) = ±Inf
 *     ldexp(NaN, n) = that NaN, quieted
 *
 * Refuses 3 (EW_REFUSED_RANGE) where x is finite and the result infinite: that infinity.
 */
ew_word64 ew_ldexp_f64(uint64_t x, int64_t n);
ew_word32 ew_ldexp_f32(uint32_t x, int64_t n);
static inline ew_double ew_ldexp(double x, int64_t n) { return ew_value_word64(ew_ldexp_f64(ew_bits_f64(x), n)); }
static inline ew_float ew_ldexpf(float x, int64_t n) { return ew_value_word32(ew_ldexp_f32(ew_bits_f32(x), n)); }

/* ---- Remainders ---- */

/*
 * ew_fmod returns x - n * y exactly, n being x / y cut to a whole number: of smaller magnitude than y, with x's sign.
 *
 * Special cases are:
 *     fmod(±0, y) = ±0 for y not zero
 *     fmod(x, ±Inf) = x for a finite x
 *     fmod(x, y) = the first NaN, quieted, where there is one
 *
 * Refuses 2 (EW_REFUSED_OPERAND) where x is infinite or y is zero, and neither is a NaN: the default NaN.
 */
ew_word64 ew_fmod_f64(uint64_t x, uint64_t y);
ew_word32 ew_fmod_f32(uint32_t x, uint32_t y);
static inline ew_double ew_fmod(double x, double y) { return ew_value_word64(ew_fmod_f64(ew_bits_f64(x), ew_bits_f64(y))); }
static inline ew_float ew_fmodf(float x, float y) { return ew_value_word32(ew_fmod_f32(ew_bits_f32(x), ew_bits_f32(y))); }

/*
 * ew_remainder returns x - n * y exactly, n being the integer nearest to x / y, and of two equally near the even one: at most half of y
 * in magnitude. A zero result has x's sign.
 *
 * Special cases are:
 *     remainder(±0, y) = ±0 for y not zero
 *     remainder(x, ±Inf) = x for a finite x
 *     remainder(x, y) = the first NaN, quieted, where there is one
 *
 * Refuses 2 (EW_REFUSED_OPERAND) where x is infinite or y is zero, and neither is a NaN: the default NaN.
 */
ew_word64 ew_remainder_f64(uint64_t x, uint64_t y);
ew_word32 ew_remainder_f32(uint32_t x, uint32_t y);
static inline ew_double ew_remainder(double x, double y) { return ew_value_word64(ew_remainder_f64(ew_bits_f64(x), ew_bits_f64(y))); }
static inline ew_float ew_remainderf(float x, float y) { return ew_value_word32(ew_remainder_f32(ew_bits_f32(x), ew_bits_f32(y))); }

/*
 * A remainder, as a pattern and as a value, with low digits of the quotient and the refusal's number. Each has 16 bytes, so that it comes
 * back in registers.
 */
typedef struct { uint64_t word; int32_t quotient; uint32_t refusal; } ew_remquo64;
typedef struct { uint32_t word; int32_t quotient; uint64_t refusal; } ew_remquo32;
typedef struct { double value; int32_t quotient; uint32_t refusal; } ew_double_remquo;
typedef struct { float value; int32_t quotient; uint64_t refusal; } ew_float_remquo;

/*
 * ew_remquo returns what ew_remainder does, and a quotient: the sign of x / y on the magnitude of n modulo 8, so from -7 to 7. Where
 * n is 8 it is 0, where n is -9 it is -1. Its low three bits are those of n: of quarter turns, two of them name the quarter.
 *
 * Special cases are:
 *     remquo(±0, y) = ±0, 0 for y not zero
 *     remquo(x, ±Inf) = x, 0 for a finite x
 *     remquo(x, y) = the first NaN, quieted, 0, where there is one
 *
 * Refuses 2 (EW_REFUSED_OPERAND) where x is infinite or y is zero, and neither is a NaN: the default NaN, 0.
 */
ew_remquo64 ew_remquo_f64(uint64_t x, uint64_t y);
ew_remquo32 ew_remquo_f32(uint32_t x, uint32_t y);
static inline ew_double_remquo ew_remquo(double x, double y)
{
    const ew_remquo64 answer = ew_remquo_f64(ew_bits_f64(x), ew_bits_f64(y));
    ew_double_remquo r;
    r.value = ew_value_f64(answer.word);
    r.quotient = answer.quotient;
    r.refusal = answer.refusal;
    return r;
}
static inline ew_float_remquo ew_remquof(float x, float y)
{
    const ew_remquo32 answer = ew_remquo_f32(ew_bits_f32(x), ew_bits_f32(y));
    ew_float_remquo r;
    r.value = ew_value_f32(answer.word);
    r.quotient = answer.quotient;
    r.refusal = answer.refusal;
    return r;
}

/* ---- Order ---- */

/*
 * ew_nextafter returns the neighbour of x towards y. A zero that is reached keeps x's sign.
 *
 * Special cases are:
 *     nextafter(x, y) = y where x equals y, as +0 equals -0
 *     nextafter(±0, y) = the smallest subnormal number, with y's sign
 *     nextafter(x, y) = the first NaN, quieted, where there is one
 *
 * Refuses 3 (EW_REFUSED_RANGE) where x is finite and the result infinite: that infinity.
 */
ew_word64 ew_nextafter_f64(uint64_t x, uint64_t y);
ew_word32 ew_nextafter_f32(uint32_t x, uint32_t y);
static inline ew_double ew_nextafter(double x, double y) { return ew_value_word64(ew_nextafter_f64(ew_bits_f64(x), ew_bits_f64(y))); }
static inline ew_float ew_nextafterf(float x, float y) { return ew_value_word32(ew_nextafter_f32(ew_bits_f32(x), ew_bits_f32(y))); }

/*
 * ew_fmin returns the lesser of two numbers, ew_fmax the greater. -0 counts as below +0, so that on numbers both give the same
 * bits whichever operand comes first, as C23's fminimum_num and fmaximum_num do.
 *
 * Special cases are:
 *     fmin(+0, -0) = fmin(-0, +0) = -0, fmax(+0, -0) = fmax(-0, +0) = +0
 *     fmin(NaN, y) = y, fmin(x, NaN) = x, where the other is not a NaN
 *     fmin(NaN, NaN) = the first, quieted
 */
uint64_t ew_fmin_f64(uint64_t x, uint64_t y);
uint32_t ew_fmin_f32(uint32_t x, uint32_t y);
uint64_t ew_fmax_f64(uint64_t x, uint64_t y);
uint32_t ew_fmax_f32(uint32_t x, uint32_t y);
static inline double ew_fmin(double x, double y) { return ew_value_f64(ew_fmin_f64(ew_bits_f64(x), ew_bits_f64(y))); }
static inline float ew_fminf(float x, float y) { return ew_value_f32(ew_fmin_f32(ew_bits_f32(x), ew_bits_f32(y))); }
static inline double ew_fmax(double x, double y) { return ew_value_f64(ew_fmax_f64(ew_bits_f64(x), ew_bits_f64(y))); }
static inline float ew_fmaxf(float x, float y) { return ew_value_f32(ew_fmax_f32(ew_bits_f32(x), ew_bits_f32(y))); }

/* ---- Recipes ---- */

/*
 * What holds of ew_sheet, ew_explain, ew_run and ew_run_lines:
 *
 *     Threads    They keep no state. Any number of threads may call them at once, on the same text and frame too, each with
 *                lent memory of its own.
 *     Lengths    A length counts elements: bytes, of words uint64_t each. An array of length 0 is not touched: its pointer
 *                may be NULL.
 *     Overlap    The lent memory (sheet, words, answers) must not overlap the text, the frame or the lines. These may overlap.
 *     Alignment  words is aligned as uint64_t is. Text, frame, lines, sheet and answers may start anywhere.
 *     Stack      On the longest recipe ew_run uses 6 KiB, the others 7 KiB. 12 KiB are enough for each, with what
 *                the dynamic linker takes of it to bind memcpy at its first call.
 */

/* The kind of a step's value. */
enum {
    EW_DOUBLE = 1,
    EW_WHOLE = 2
};

/* What a sheet answers: a refusal's number and place, or the number of steps that it shows. What is not used is 0. */
typedef struct { uint64_t refusal, place, steps; } ew_sheet_answer;

/*
 * ew_sheet works out, from the ranges that a recipe declares for its inputs, a range for every step and whether its value is whole, and
 * writes one line per step to sheet, EW_SHEET_LINE bytes each: step 2 lower-case hexadecimal digits, kind 2, mark 2, low 16, high 16, a line
 * feed. Memory past the last line stays as it was.
 *
 * A passed sheet (refusal 0) is a promise, and proved: of any frame that is refused nothing of 30, 31 and 32, ew_run, given room, completes,
 * and every step's value has the kind and lies in the range that its line shows, both ends included. Where a double's mark is 01, its value
 * is also finite and has no fraction; 00 promises nothing of that. The mark of step k is 01 where sheet[k * EW_SHEET_LINE + 5] is '1'.
 *
 * Marked 01 are, by their opcodes, and all others are 00:
 *     every step of kind EW_WHOLE
 *     32, a whole number as a double
 *     01, an input of one number (as +0 to -0 is), and 03, a constant, where that number is finite and has no fraction
 *     10 to 14, the roundings, where both ends of the range are finite
 *     16 and 17, fabs and negate, where A is
 *     20, 21, 22 and 24, fmin, fmax, fmod and remainder, where A and B are
 *     40, 41 and 42, add, subtract and multiply, where A and B are
 *
 * Refuses 10 to 17 for the text, 40 where sheet has fewer than EW_SHEET_LINE bytes per step, and 20 to 22 for a step some of whose values
 * ew_run might refuse: the first in that order, and no byte is written.
 */
ew_sheet_answer ew_sheet(const uint8_t *text, size_t text_len, uint8_t *sheet, size_t sheet_len);

/* Why a sheet is refused with 20, 21 or 22: a fact about the range of an operand, or about an end of the answer. */
enum {
    EW_REASON_NONE = 0,
    EW_REASON_DIVISOR_HOLDS_ZERO = 1,     /* 20: B of fmod or remainder may be zero */
    EW_REASON_DIVIDEND_LOW_INFINITE = 2,  /* 20: A of fmod or remainder has an infinite low end */
    EW_REASON_DIVIDEND_HIGH_INFINITE = 3, /* 20: or high end */
    EW_REASON_LROUND_LOW = 4,             /* 21: lround of A's low end does not fit 64 bits */
    EW_REASON_LROUND_HIGH = 5,            /* 21: or of its high end */
    EW_REASON_WHOLE_LOW = 6,              /* 21: the low end of a sum or difference does not fit 64 bits */
    EW_REASON_WHOLE_HIGH = 7,             /* 21: or its high end */
    EW_REASON_LDEXP_LOW_INFINITE = 8,     /* 21: ldexp's A has an infinite low end */
    EW_REASON_LDEXP_HIGH_INFINITE = 9,    /* 21: or high end */
    EW_REASON_LDEXP_LOW_OVERFLOWS = 10,   /* 21: the low end of what ldexp gives overflows */
    EW_REASON_LDEXP_HIGH_OVERFLOWS = 11,  /* 21: or its high end */
    EW_REASON_TOO_BIG_LOW = 12,           /* 22: A's low end, to be made a double, is over 2^53 in magnitude */
    EW_REASON_TOO_BIG_HIGH = 13,          /* 22: or its high end */
    EW_REASON_A_LOW_INFINITE = 14,        /* 20: A of add, subtract or multiply has an infinite low end */
    EW_REASON_A_HIGH_INFINITE = 15,       /* 20: or high end */
    EW_REASON_B_LOW_INFINITE = 16,        /* 20: B of add, subtract or multiply has an infinite low end */
    EW_REASON_B_HIGH_INFINITE = 17,       /* 20: or high end */
    EW_REASON_ANSWER_LOW_OVERFLOWS = 18,  /* 21: the low end of what add, subtract or multiply gives overflows */
    EW_REASON_ANSWER_HIGH_OVERFLOWS = 19  /* 21: or its high end */
};

/*
 * Why a recipe's sheet is refused: refusal and place are those of its text (10 to 17); or step is the one that ew_sheet refuses with 20 to 22,
 * operand the step of its operand that the reason is about, and reason one of those above. What is not used is 0, and all five are
 * where the sheet passes.
 */
typedef struct { uint64_t refusal, place, step, operand, reason; } ew_explain_answer;

/*
 * ew_explain says why ew_sheet, given room, refuses a recipe with 20 to 22. The reason's fact is true of the ranges that the sheet's rules give
 * to the steps before, and no reason before it in the list above is true of that step. The operand is A; for
 * EW_REASON_DIVISOR_HOLDS_ZERO, EW_REASON_B_LOW_INFINITE and EW_REASON_B_HIGH_INFINITE it is B.
 *
 * Refuses 10 to 17 for the text, as ew_sheet does. It is lent no memory.
 */
ew_explain_answer ew_explain(const uint8_t *text, size_t text_len);

/* What a run answers: a refusal's number and place, or the last step's kind and the 64 bits of its value. What is not used is 0. */
typedef struct { uint64_t refusal, place, kind, word; } ew_run_answer;

/*
 * ew_run works out every step of a recipe on one frame, and writes each step's 64 bits to words, in step order: a double's pattern,
 * a whole number's two's complement. Memory past the last step's word stays as it was.
 *
 * A recipe is one line of EW_RECIPE_LINE bytes per step: opcode 2 lower-case hexadecimal digits, A 2, B 2, P 16, Q 16, a line feed. A frame
 * is EW_FRAME_INPUT digits per input, run together.
 *
 * The opcodes, and what they work on:
 *     01, 02           an input from P to Q: a double, a whole number
 *     03, 04           the constant P: a double, a whole number
 *     10 to 14         floor, ceil, trunc, round, nearbyint of a double
 *     15, 16, 17       the fraction of a double, as modf gives it; fabs and negate of one
 *     18               lround of a double, a whole number
 *     20, 21, 22, 24   fmin, fmax, fmod, remainder of two doubles
 *     23               ldexp of a double by a whole number
 *     30, 31           A + B, A - B of whole numbers
 *     32               a whole number as a double
 *     40, 41, 42       add, subtract, multiply: A + B, A - B, A * B of doubles, rounded once to the nearest, halves to even. A zero sum is -0
 *                      where both terms are (in A - B the term is B negated), else +0; a zero product is -0 where the signs differ
 *
 * Refuses 10 to 17 for the text, 40 where words has fewer places than the recipe steps, 30, 31 and 32 for the frame, and 20 to 22 for
 * a step: the first in that order, and no word is written.
 */
ew_run_answer ew_run(const uint8_t *text, size_t text_len, const uint8_t *frame, size_t frame_len, uint64_t *words, size_t words_len);

/*
 * What ew_run_lines answers: a refusal's number and place, or how many bytes of lines it has read and how many bytes of answers it has written.
 * What is not used is 0.
 */
typedef struct { uint64_t refusal, place, read, written; } ew_lines_answer;

/*
 * ew_run_lines answers frame lines as the program run does, and reads the recipe once for all of them. A line counts where its line feed is
 * there. Each is answered by one line: kind 2 lower-case hexadecimal digits and word 16; or ff, a refusal's number 2 digits and its place
 * 2, and a refused frame does not stop the next. It goes on while EW_ANSWER_LINE bytes of answers are left. Memory past the last answer stays
 * as it was.
 *
 * What was not read is there for the next call, with the lines that follow it: the answers one after another are those of run. Where lines
 * has a line feed at least one line is answered. A last line that lacks its line feed is the caller's to end.
 *
 * Refuses 10 to 17 for the text, and 40 where answers has fewer than EW_ANSWER_LINE bytes: the first in that order, and no byte is written.
 */
ew_lines_answer ew_run_lines(const uint8_t *text, size_t text_len, const uint8_t *lines, size_t lines_len, uint8_t *answers, size_t answers_len);

#ifdef __cplusplus
}
#endif

#endif
