/*
 * Calls every function of estrenwind.h, on patterns and on values, and compares bits. The cases are document 01's marked ones
 * at every width, and those that a float operation gets wrong under flush-to-zero, denormals-are-zero or another rounding mode:
 * the table is gone through once in each rounding mode.
 *
 * Built as C99, as C++11 (compile.cpp), and with -ffast-math, whose start-up code sets FTZ and DAZ for the whole program.
 */
#include <fenv.h>
#include <stddef.h>
#include <stdio.h>
#include <string.h>

#include "estrenwind.h"

#ifdef __FAST_MATH__
#include <xmmintrin.h>
#endif

static int checks, failures;

static void check(const char *function, uint64_t x, uint64_t answer, uint64_t expected)
{
    checks++;
    if (answer != expected) {
        failures++;
        printf("%s(%llx) gave %llx, expected %llx\n", function, (unsigned long long)x, (unsigned long long)answer,
               (unsigned long long)expected);
    }
}

/* A row names a function once; these are its form on patterns, its form on values, and its name in a message. */
#define F64(function) #function "_f64", ew_##function##_f64, ew_##function
#define F32(function) #function "_f32", ew_##function##_f32, ew_##function##f
#define F16(function) #function "_f16", ew_##function##_f16

static const struct {
    const char *name;
    uint64_t (*pattern)(uint64_t);
    double (*value)(double);
    uint64_t x, expected;
} words64[] = {
    {F64(floor), 0xbfe0000000000000, 0xbff0000000000000}, /* floor(-0.5) = -1 */
    {F64(floor), 0x4330000000000001, 0x4330000000000001}, /* a whole number is itself */
    {F64(floor), 0x8000000000000001, 0xbff0000000000000}, /* the negative nearest to zero */
    {F64(floor), 0x8000000000000000, 0x8000000000000000},
    {F64(floor), 0xfff0000000000000, 0xfff0000000000000},
    {F64(floor), 0xfff4000000000001, 0xfffc000000000001}, /* a signalling NaN, quieted */
    {F64(ceil), 0xbfe0000000000000, 0x8000000000000000},  /* ceil(-0.5) = -0 */
    {F64(ceil), 0x0000000000000001, 0x3ff0000000000000},
    {F64(ceil), 0x432fffffffffffff, 0x4330000000000000}, /* carries into the exponent */
    {F64(ceil), 0x7ff0000000000001, 0x7ff8000000000001},
    {F64(trunc), 0x8000000000000000, 0x8000000000000000}, /* trunc(-0) = -0 */
    {F64(trunc), 0xbfefffffffffffff, 0x8000000000000000},
    {F64(trunc), 0x800fffffffffffff, 0x8000000000000000},
    {F64(trunc), 0x7ff0000000000000, 0x7ff0000000000000},
    {F64(trunc), 0x7ff7ffffffffffff, 0x7fffffffffffffff},
    {F64(round), 0x3fe0000000000000, 0x3ff0000000000000}, /* round(0.5) = 1 */
    {F64(round), 0x3fdfffffffffffff, 0x0000000000000000}, /* the greatest below one half */
    {F64(round), 0xc004000000000000, 0xc008000000000000}, /* round(-2.5) = -3 */
    {F64(round), 0x8000000000000001, 0x8000000000000000},
    {F64(round), 0x7ff8000000000000, 0x7ff8000000000000},
    {F64(nearbyint), 0x4004000000000000, 0x4000000000000000}, /* nearbyint(2.5) = 2 */
    {F64(nearbyint), 0x400c000000000000, 0x4010000000000000}, /* nearbyint(3.5) = 4 */
    {F64(nearbyint), 0xbfe0000000000000, 0x8000000000000000},
    {F64(nearbyint), 0x3fe0000000000001, 0x3ff0000000000000},
    {F64(nearbyint), 0xfff0000000000001, 0xfff8000000000001},
    {F64(fabs), 0x8000000000000001, 0x0000000000000001},
    {F64(fabs), 0xfff0000000000001, 0x7ff0000000000001}, /* stays a signalling NaN */
    {F64(negate), 0x0000000000000000, 0x8000000000000000},
    {F64(negate), 0x7ff0000000000001, 0xfff0000000000001},
};

static const struct {
    const char *name;
    uint32_t (*pattern)(uint32_t);
    float (*value)(float);
    uint32_t x, expected;
} words32[] = {
    {F32(floor), 0xbf000000, 0xbf800000},
    {F32(floor), 0x4b000001, 0x4b000001},
    {F32(floor), 0x80000001, 0xbf800000},
    {F32(floor), 0xff800001, 0xffc00001},
    {F32(ceil), 0xbf000000, 0x80000000},
    {F32(ceil), 0x00000001, 0x3f800000},
    {F32(ceil), 0x4affffff, 0x4b000000},
    {F32(trunc), 0x80000000, 0x80000000},
    {F32(trunc), 0x807fffff, 0x80000000},
    {F32(trunc), 0x7f800000, 0x7f800000},
    {F32(round), 0x3f000000, 0x3f800000},
    {F32(round), 0x3effffff, 0x00000000},
    {F32(round), 0xc0200000, 0xc0400000},
    {F32(nearbyint), 0x40200000, 0x40000000},
    {F32(nearbyint), 0x3f000001, 0x3f800000},
    {F32(nearbyint), 0x7fbfffff, 0x7fffffff},
    {F32(fabs), 0xff800001, 0x7f800001},
    {F32(negate), 0x80000001, 0x00000001},
};

/* Halves have patterns alone. */
static const struct {
    const char *name;
    uint16_t (*pattern)(uint16_t);
    uint16_t x, expected;
} words16[] = {
    {F16(floor), 0xb800, 0xbc00},
    {F16(floor), 0x6401, 0x6401},
    {F16(floor), 0x8001, 0xbc00},
    {F16(floor), 0xfc01, 0xfe01},
    {F16(ceil), 0xb800, 0x8000},
    {F16(ceil), 0x0001, 0x3c00},
    {F16(ceil), 0x63ff, 0x6400}, /* carries into the exponent */
    {F16(trunc), 0x8000, 0x8000},
    {F16(trunc), 0x83ff, 0x8000},
    {F16(trunc), 0x7c00, 0x7c00},
    {F16(round), 0x3800, 0x3c00},
    {F16(round), 0x37ff, 0x0000},
    {F16(round), 0xc100, 0xc200},
    {F16(round), 0xfbff, 0xfbff},
    {F16(nearbyint), 0x4100, 0x4000},
    {F16(nearbyint), 0x3801, 0x3c00},
    {F16(nearbyint), 0x7dff, 0x7fff},
};

static const struct {
    uint16_t x;
    uint32_t expected;
} imports[] = {
    {0x0000, 0x00000000},
    {0x8000, 0x80000000},
    {0x0001, 0x33800000}, /* 2^-24 */
    {0x83ff, 0xb87fc000}, /* the largest subnormal one */
    {0x0400, 0x38800000}, /* 2^-14 */
    {0xc100, 0xc0200000}, /* -2.5 */
    {0x7bff, 0x477fe000}, /* 65504 */
    {0xfc00, 0xff800000},
    {0x7c01, 0x7fc02000}, /* a signalling NaN, quieted */
    {0xffff, 0xffffe000},
};

static const struct {
    uint32_t x;
    uint16_t expected;
    uint64_t refusal;
} exports[] = {
    {0x80000000, 0x8000, EW_ACCEPTED},
    {0x80000001, 0x8000, EW_ACCEPTED},      /* a subnormal float */
    {0x33000000, 0x0000, EW_ACCEPTED},      /* 2^-25: a tie, to even */
    {0xb3000001, 0x8001, EW_ACCEPTED},      /* the next one: up in magnitude, in every mode */
    {0x33c00000, 0x0002, EW_ACCEPTED},      /* 1.5 * 2^-24 */
    {0x34200001, 0x0003, EW_ACCEPTED},      /* rounded once */
    {0x387fe000, 0x0400, EW_ACCEPTED},      /* carries into the normal numbers */
    {0x38800000, 0x0400, EW_ACCEPTED},      /* 2^-14 */
    {0x3f801000, 0x3c00, EW_ACCEPTED},      /* 1 + 2^-11 */
    {0x3f803000, 0x3c02, EW_ACCEPTED},
    {0x477fefff, 0x7bff, EW_ACCEPTED},      /* 65519.996 */
    {0x477ff000, 0x7c00, EW_REFUSED_RANGE}, /* 65520 */
    {0xff7fffff, 0xfc00, EW_REFUSED_RANGE},
    {0xff800000, 0xfc00, EW_ACCEPTED},
    {0x7f800001, 0x7e00, EW_ACCEPTED}, /* a NaN whose payload is lost */
    {0xffbfffff, 0xffff, EW_ACCEPTED},
};

static const struct {
    uint64_t x;
    int64_t value;
    uint64_t refusal;
} wholes64[] = {
    {0xc3e0000000000000, INT64_MIN, EW_ACCEPTED}, /* lround(-2^63) */
    {0x43e0000000000000, 0, EW_REFUSED_RANGE},    /* lround(2^63) */
    {0x43dfffffffffffff, 0x7ffffffffffffc00, EW_ACCEPTED},
    {0xc3e0000000000001, 0, EW_REFUSED_RANGE},
    {0xc004000000000000, -3, EW_ACCEPTED},
    {0x3fdfffffffffffff, 0, EW_ACCEPTED},
    {0xfff0000000000000, 0, EW_REFUSED_RANGE},
    {0x7ff0000000000001, 0, EW_REFUSED_NAN},
};

static const struct {
    uint32_t x;
    int64_t value;
    uint64_t refusal;
} wholes32[] = {
    {0xdf000000, INT64_MIN, EW_ACCEPTED},
    {0x5f000000, 0, EW_REFUSED_RANGE},
    {0x5effffff, 0x7fffff8000000000, EW_ACCEPTED},
    {0xc0200000, -3, EW_ACCEPTED},
    {0x7f800000, 0, EW_REFUSED_RANGE},
    {0xffc00000, 0, EW_REFUSED_NAN},
};

static const struct {
    uint64_t x64;
    uint32_t x32;
    uint8_t kind;
} kinds[] = {
    {0xfff0000000000001, 0xff800001, EW_NAN},
    {0x7ff0000000000000, 0x7f800000, EW_INFINITE},
    {0x8000000000000000, 0x80000000, EW_ZERO},
    {0x000fffffffffffff, 0x007fffff, EW_SUBNORMAL},
    {0x8010000000000000, 0x80800000, EW_NORMAL},
};

/* Functions of two numbers that may refuse. */
static const struct {
    const char *name;
    ew_word64 (*pattern)(uint64_t, uint64_t);
    ew_double (*value)(double, double);
    uint64_t x, y, expected, refusal;
} pairs64[] = {
    {F64(fmod), 0xc01e000000000000, 0x4000000000000000, 0xbff8000000000000, EW_ACCEPTED}, /* fmod(-7.5, 2) = -1.5 */
    {F64(fmod), 0x4008000000000000, 0x3ff0000000000000, 0x0000000000000000, EW_ACCEPTED},
    {F64(fmod), 0xc008000000000000, 0xbff0000000000000, 0x8000000000000000, EW_ACCEPTED}, /* a zero with x's sign */
    {F64(fmod), 0x7fefffffffffffff, 0x0000000000000003, 0x0000000000000002, EW_ACCEPTED}, /* a subnormal divisor */
    {F64(fmod), 0x8000000000000005, 0x0000000000000003, 0x8000000000000002, EW_ACCEPTED},
    {F64(fmod), 0x4008000000000000, 0xfff0000000000000, 0x4008000000000000, EW_ACCEPTED},
    {F64(fmod), 0x7ff0000000000000, 0x4000000000000000, 0x7ff8000000000000, EW_REFUSED_OPERAND},
    {F64(fmod), 0x4008000000000000, 0x8000000000000000, 0x7ff8000000000000, EW_REFUSED_OPERAND},
    {F64(fmod), 0x7ff0000000000000, 0xfff0000000000001, 0xfff8000000000001, EW_ACCEPTED}, /* the NaN comes first */
    {F64(nextafter), 0x0000000000000000, 0xbff0000000000000, 0x8000000000000001, EW_ACCEPTED}, /* nextafter(+0, -1) */
    {F64(nextafter), 0x8000000000000001, 0x3ff0000000000000, 0x8000000000000000, EW_ACCEPTED}, /* x's sign at zero */
    {F64(nextafter), 0x0000000000000000, 0x8000000000000000, 0x8000000000000000, EW_ACCEPTED}, /* equal: the second */
    {F64(nextafter), 0x000fffffffffffff, 0x7ff0000000000000, 0x0010000000000000, EW_ACCEPTED},
    {F64(nextafter), 0x7fefffffffffffff, 0x7ff0000000000000, 0x7ff0000000000000, EW_REFUSED_RANGE},
    {F64(nextafter), 0xfff0000000000000, 0x0000000000000000, 0xffefffffffffffff, EW_ACCEPTED},
    {F64(nextafter), 0x3ff0000000000000, 0x7ff0000000000001, 0x7ff8000000000001, EW_ACCEPTED},
};

static const struct {
    const char *name;
    ew_word32 (*pattern)(uint32_t, uint32_t);
    ew_float (*value)(float, float);
    uint32_t x, y, expected;
    uint64_t refusal;
} pairs32[] = {
    {F32(fmod), 0xc0f00000, 0x40000000, 0xbfc00000, EW_ACCEPTED},
    {F32(fmod), 0x7f7ffffe, 0x00000003, 0x00000001, EW_ACCEPTED},
    {F32(fmod), 0xff800000, 0x40000000, 0x7fc00000, EW_REFUSED_OPERAND},
    {F32(fmod), 0x40400000, 0x00000000, 0x7fc00000, EW_REFUSED_OPERAND},
    {F32(nextafter), 0x00000000, 0xbf800000, 0x80000001, EW_ACCEPTED},
    {F32(nextafter), 0x80000001, 0x3f800000, 0x80000000, EW_ACCEPTED},
    {F32(nextafter), 0xff7fffff, 0xff800000, 0xff800000, EW_REFUSED_RANGE},
};

/* remainder and remquo. The quotient has the sign of x / y and the magnitude of n modulo 8. */
static const struct {
    uint64_t x, y, expected;
    int32_t quotient;
    uint64_t refusal;
} remainders64[] = {
    {0xc01e000000000000, 0x4000000000000000, 0x3fe0000000000000, -4, EW_ACCEPTED}, /* remainder(-7.5, 2) = 0.5 */
    {0x4014000000000000, 0x4000000000000000, 0x3ff0000000000000, 2, EW_ACCEPTED},  /* 5 by 2: a half, to the even 2 */
    {0x401c000000000000, 0x4000000000000000, 0xbff0000000000000, 4, EW_ACCEPTED},  /* 7 by 2: a half, to the even 4 */
    {0x400c000000000000, 0xbff0000000000000, 0xbfe0000000000000, -4, EW_ACCEPTED}, /* 3.5 by -1 */
    {0x401e000000000000, 0x3ff0000000000000, 0xbfe0000000000000, 0, EW_ACCEPTED},  /* 7.5 by 1: n is 8 */
    {0x4020000000000000, 0x3ff0000000000000, 0x0000000000000000, 0, EW_ACCEPTED},
    {0xc022000000000000, 0x3ff0000000000000, 0x8000000000000000, -1, EW_ACCEPTED}, /* -9 by 1 */
    {0x4022000000000000, 0xbff0000000000000, 0x0000000000000000, -1, EW_ACCEPTED},
    {0xc022000000000000, 0xbff0000000000000, 0x8000000000000000, 1, EW_ACCEPTED}, /* a zero with x's sign */
    {0x3ff0000000000000, 0x4000000000000000, 0x3ff0000000000000, 0, EW_ACCEPTED}, /* 1 by 2: a half, to 0 */
    {0x3ff0000000000001, 0x4000000000000000, 0xbfeffffffffffffe, 1, EW_ACCEPTED}, /* the next one */
    {0x7fe0000000000000, 0x7fefffffffffffff, 0xffdffffffffffffe, 1, EW_ACCEPTED}, /* twice y is no number */
    {0x7fefffffffffffff, 0x0000000000000003, 0x8000000000000001, 3, EW_ACCEPTED}, /* a subnormal divisor */
    {0x88005cfd922a752c, 0x8000000000004000, 0x8000000000000000, 0, EW_ACCEPTED},
    {0x8000000000000005, 0x0000000000000003, 0x0000000000000001, -2, EW_ACCEPTED},
    {0x0000000000000003, 0x0000000000000002, 0x8000000000000001, 2, EW_ACCEPTED}, /* a half of two subnormal numbers */
    {0x0008000000000000, 0x0010000000000000, 0x0008000000000000, 0, EW_ACCEPTED}, /* a half of the least normal number */
    {0x0008000000000001, 0x0010000000000000, 0x8007ffffffffffff, 1, EW_ACCEPTED},
    {0x8000000000000000, 0x4008000000000000, 0x8000000000000000, 0, EW_ACCEPTED},
    {0xc008000000000000, 0x7ff0000000000000, 0xc008000000000000, 0, EW_ACCEPTED},
    {0xfff0000000000000, 0x4000000000000000, 0x7ff8000000000000, 0, EW_REFUSED_OPERAND},
    {0x7ff0000000000000, 0x7ff0000000000000, 0x7ff8000000000000, 0, EW_REFUSED_OPERAND},
    {0xc008000000000000, 0x8000000000000000, 0x7ff8000000000000, 0, EW_REFUSED_OPERAND},
    {0x7ff0000000000000, 0xfff0000000000001, 0xfff8000000000001, 0, EW_ACCEPTED}, /* the NaN comes first */
    {0x7ff0000000000002, 0xfff0000000000001, 0x7ff8000000000002, 0, EW_ACCEPTED}, /* and of two the first */
};

static const struct {
    uint32_t x, y, expected;
    int32_t quotient;
    uint64_t refusal;
} remainders32[] = {
    {0xc0f00000, 0x40000000, 0x3f000000, -4, EW_ACCEPTED},
    {0x40e00000, 0x40000000, 0xbf800000, 4, EW_ACCEPTED},
    {0x40f00000, 0x3f800000, 0xbf000000, 0, EW_ACCEPTED},
    {0xc1100000, 0x3f800000, 0x80000000, -1, EW_ACCEPTED},
    {0x3f800000, 0x40000000, 0x3f800000, 0, EW_ACCEPTED},
    {0x3f800001, 0x40000000, 0xbf7ffffe, 1, EW_ACCEPTED},
    {0x7f7ffffe, 0x00000003, 0x00000001, 5, EW_ACCEPTED},
    {0xff7fffff, 0x00800001, 0x80000003, -5, EW_ACCEPTED}, /* the least normal number but one */
    {0x80000005, 0x00000003, 0x00000001, -2, EW_ACCEPTED},
    {0x00000003, 0x00000002, 0x80000001, 2, EW_ACCEPTED},
    {0x00400001, 0x00800000, 0x803fffff, 1, EW_ACCEPTED},
    {0x40400000, 0xff800000, 0x40400000, 0, EW_ACCEPTED},
    {0x7f800000, 0x40000000, 0x7fc00000, 0, EW_REFUSED_OPERAND},
    {0x40400000, 0x00000000, 0x7fc00000, 0, EW_REFUSED_OPERAND},
    {0x40400000, 0xff800001, 0xffc00001, 0, EW_ACCEPTED},
};

static const struct {
    const char *name;
    uint64_t (*pattern)(uint64_t, uint64_t);
    double (*value)(double, double);
    uint64_t x, y, expected;
} choices64[] = {
    {F64(fmin), 0x8000000000000001, 0x0000000000000001, 0x8000000000000001},
    {F64(fmin), 0x0000000000000000, 0x8000000000000000, 0x8000000000000000}, /* -0 is below +0 */
    {F64(fmin), 0x8000000000000000, 0x0000000000000000, 0x8000000000000000},
    {F64(fmin), 0x7ff0000000000001, 0x3ff0000000000000, 0x3ff0000000000000},
    {F64(fmin), 0x7ff0000000000001, 0xfff8000000000000, 0x7ff8000000000001},
    {F64(fmax), 0xbff0000000000000, 0xc000000000000000, 0xbff0000000000000},
    {F64(fmax), 0x0000000000000000, 0x8000000000000000, 0x0000000000000000},
    {F64(fmax), 0x8000000000000000, 0x0000000000000000, 0x0000000000000000},
    {F64(fmax), 0x3ff0000000000000, 0x7ff8000000000000, 0x3ff0000000000000},
    {F64(fmax), 0x0000000000000001, 0x0000000000000002, 0x0000000000000002}, /* equal where subnormals are zeros */
};

static const struct {
    const char *name;
    uint32_t (*pattern)(uint32_t, uint32_t);
    float (*value)(float, float);
    uint32_t x, y, expected;
} choices32[] = {
    {F32(fmin), 0x80000001, 0x00000001, 0x80000001},
    {F32(fmin), 0x00000000, 0x80000000, 0x80000000},
    {F32(fmin), 0x80000000, 0x00000000, 0x80000000},
    {F32(fmin), 0xff800001, 0xffc00000, 0xffc00001},
    {F32(fmax), 0x00000000, 0x80000000, 0x00000000},
    {F32(fmax), 0x80000000, 0x00000000, 0x00000000},
    {F32(fmax), 0x00000001, 0x00000002, 0x00000002},
    {F32(fmax), 0x7fc00000, 0xff800000, 0xff800000},
};

static const struct {
    uint64_t x;
    int64_t n;
    uint64_t expected, refusal;
} scales64[] = {
    {0x3ff0000000000000, -1075, 0x0000000000000000, EW_ACCEPTED}, /* ldexp(1, -1075) = +0 */
    {0x3ff0000000000000, 1024, 0x7ff0000000000000, EW_REFUSED_RANGE},
    {0xbff0000000000000, 1024, 0xfff0000000000000, EW_REFUSED_RANGE},
    {0x3ff8000000000000, -1075, 0x0000000000000001, EW_ACCEPTED},
    {0x3ff0000000000003, -1024, 0x0004000000000001, EW_ACCEPTED}, /* rounded once, up */
    {0x3ff0000000000006, -1024, 0x0004000000000002, EW_ACCEPTED}, /* a tie, to even */
    {0x3fffffffffffffff, -1023, 0x0010000000000000, EW_ACCEPTED}, /* carries into the normal numbers */
    {0x8000000000000001, 2097, 0xffe0000000000000, EW_ACCEPTED},
    {0x0000000000000001, 2098, 0x7ff0000000000000, EW_REFUSED_RANGE},
    {0x8000000000000001, INT64_MIN, 0x8000000000000000, EW_ACCEPTED},
    {0x0000000000000001, INT64_MAX, 0x7ff0000000000000, EW_REFUSED_RANGE},
    {0x8000000000000000, INT64_MAX, 0x8000000000000000, EW_ACCEPTED},
    {0xfff0000000000000, INT64_MIN, 0xfff0000000000000, EW_ACCEPTED},
    {0x7ff0000000000001, 0, 0x7ff8000000000001, EW_ACCEPTED},
};

static const struct {
    uint32_t x;
    int64_t n;
    uint32_t expected;
    uint64_t refusal;
} scales32[] = {
    {0x3f800000, -150, 0x00000000, EW_ACCEPTED},
    {0x3f800001, -150, 0x00000001, EW_ACCEPTED},
    {0x3f800000, 128, 0x7f800000, EW_REFUSED_RANGE},
    {0x80000001, 276, 0xff000000, EW_ACCEPTED},
    {0x3fffffff, -127, 0x00800000, EW_ACCEPTED},
};

static const struct {
    uint64_t x, whole, fraction;
} parts64[] = {
    {0xc00a000000000000, 0xc008000000000000, 0xbfd0000000000000}, /* modf(-3.25) = -3, -0.25 */
    {0x8000000000000001, 0x8000000000000000, 0x8000000000000001},
    {0xc008000000000000, 0xc008000000000000, 0x8000000000000000},
    {0xfff0000000000000, 0xfff0000000000000, 0x8000000000000000},
    {0x432fffffffffffff, 0x432ffffffffffffe, 0x3fe0000000000000},
    {0xfff0000000000001, 0xfff8000000000001, 0xfff8000000000001},
};

static const struct {
    uint32_t x, whole, fraction;
} parts32[] = {
    {0xc0500000, 0xc0400000, 0xbe800000},
    {0x80000001, 0x80000000, 0x80000001},
    {0x7f800000, 0x7f800000, 0x00000000},
};

static const struct {
    uint64_t x, fraction;
    int64_t exponent;
} frexps64[] = {
    {0x0000000000000001, 0x3fe0000000000000, -1073}, /* frexp(pattern 1) = 0.5, -1073 */
    {0x800fffffffffffff, 0xbfeffffffffffffe, -1022},
    {0x7fefffffffffffff, 0x3fefffffffffffff, 1024},
    {0xc000000000000000, 0xbfe0000000000000, 2},
    {0x8000000000000000, 0x8000000000000000, 0},
    {0xfff0000000000000, 0xfff0000000000000, 0},
    {0x7ff0000000000001, 0x7ff8000000000001, 0},
};

static const struct {
    uint32_t x, fraction;
    int64_t exponent;
} frexps32[] = {
    {0x00000001, 0x3f000000, -148},
    {0xff7fffff, 0xbf7fffff, 128},
    {0x7f800001, 0x7fc00001, 0},
};

#define LENGTH(table) (sizeof(table) / sizeof(table)[0])

static void check_all(void)
{
    size_t i;
    for (i = 0; i < LENGTH(words64); i++) {
        const uint64_t x = words64[i].x;
        check(words64[i].name, x, words64[i].pattern(x), words64[i].expected);
        check(words64[i].name, x, ew_bits_f64(words64[i].value(ew_value_f64(x))), words64[i].expected);
    }
    for (i = 0; i < LENGTH(words32); i++) {
        const uint32_t x = words32[i].x;
        check(words32[i].name, x, words32[i].pattern(x), words32[i].expected);
        check(words32[i].name, x, ew_bits_f32(words32[i].value(ew_value_f32(x))), words32[i].expected);
    }
    for (i = 0; i < LENGTH(words16); i++)
        check(words16[i].name, words16[i].x, words16[i].pattern(words16[i].x), words16[i].expected);
    for (i = 0; i < LENGTH(imports); i++) {
        const uint16_t x = imports[i].x;
        check("f16_to_f32", x, ew_f16_to_f32(x), imports[i].expected);
        check("f16_to_float", x, ew_bits_f32(ew_f16_to_float(x)), imports[i].expected);
    }
    for (i = 0; i < LENGTH(exports); i++) {
        const uint32_t x = exports[i].x;
        const ew_word16 pattern = ew_f32_to_f16(x), value = ew_float_to_f16(ew_value_f32(x));
        check("f32_to_f16", x, pattern.word, exports[i].expected);
        check("f32_to_f16", x, pattern.refusal, exports[i].refusal);
        check("float_to_f16", x, value.word, exports[i].expected);
        check("float_to_f16", x, value.refusal, exports[i].refusal);
    }
    for (i = 0; i < LENGTH(wholes64); i++) {
        const uint64_t x = wholes64[i].x;
        const ew_whole pattern = ew_lround_f64(x), value = ew_lround(ew_value_f64(x));
        check("lround_f64", x, (uint64_t)pattern.value, (uint64_t)wholes64[i].value);
        check("lround_f64", x, pattern.refusal, wholes64[i].refusal);
        check("lround", x, (uint64_t)value.value, (uint64_t)wholes64[i].value);
        check("lround", x, value.refusal, wholes64[i].refusal);
    }
    for (i = 0; i < LENGTH(wholes32); i++) {
        const uint32_t x = wholes32[i].x;
        const ew_whole pattern = ew_lround_f32(x), value = ew_lroundf(ew_value_f32(x));
        check("lround_f32", x, (uint64_t)pattern.value, (uint64_t)wholes32[i].value);
        check("lround_f32", x, pattern.refusal, wholes32[i].refusal);
        check("lroundf", x, (uint64_t)value.value, (uint64_t)wholes32[i].value);
        check("lroundf", x, value.refusal, wholes32[i].refusal);
    }
    for (i = 0; i < LENGTH(pairs64); i++) {
        const uint64_t x = pairs64[i].x, y = pairs64[i].y;
        const ew_word64 pattern = pairs64[i].pattern(x, y);
        const ew_double value = pairs64[i].value(ew_value_f64(x), ew_value_f64(y));
        check(pairs64[i].name, x, pattern.word, pairs64[i].expected);
        check(pairs64[i].name, x, pattern.refusal, pairs64[i].refusal);
        check(pairs64[i].name, x, ew_bits_f64(value.value), pairs64[i].expected);
        check(pairs64[i].name, x, value.refusal, pairs64[i].refusal);
    }
    for (i = 0; i < LENGTH(pairs32); i++) {
        const uint32_t x = pairs32[i].x, y = pairs32[i].y;
        const ew_word32 pattern = pairs32[i].pattern(x, y);
        const ew_float value = pairs32[i].value(ew_value_f32(x), ew_value_f32(y));
        check(pairs32[i].name, x, pattern.word, pairs32[i].expected);
        check(pairs32[i].name, x, pattern.refusal, pairs32[i].refusal);
        check(pairs32[i].name, x, ew_bits_f32(value.value), pairs32[i].expected);
        check(pairs32[i].name, x, value.refusal, pairs32[i].refusal);
    }
    for (i = 0; i < LENGTH(remainders64); i++) {
        const uint64_t x = remainders64[i].x, y = remainders64[i].y;
        const ew_word64 pattern = ew_remainder_f64(x, y);
        const ew_double value = ew_remainder(ew_value_f64(x), ew_value_f64(y));
        const ew_remquo64 patterns = ew_remquo_f64(x, y);
        const ew_double_remquo values = ew_remquo(ew_value_f64(x), ew_value_f64(y));
        check("remainder_f64", x, pattern.word, remainders64[i].expected);
        check("remainder_f64", x, pattern.refusal, remainders64[i].refusal);
        check("remainder", x, ew_bits_f64(value.value), remainders64[i].expected);
        check("remainder", x, value.refusal, remainders64[i].refusal);
        check("remquo_f64", x, patterns.word, remainders64[i].expected);
        check("remquo_f64 quotient", x, (uint64_t)patterns.quotient, (uint64_t)remainders64[i].quotient);
        check("remquo_f64", x, patterns.refusal, remainders64[i].refusal);
        check("remquo", x, ew_bits_f64(values.value), remainders64[i].expected);
        check("remquo quotient", x, (uint64_t)values.quotient, (uint64_t)remainders64[i].quotient);
        check("remquo", x, values.refusal, remainders64[i].refusal);
    }
    for (i = 0; i < LENGTH(remainders32); i++) {
        const uint32_t x = remainders32[i].x, y = remainders32[i].y;
        const ew_word32 pattern = ew_remainder_f32(x, y);
        const ew_float value = ew_remainderf(ew_value_f32(x), ew_value_f32(y));
        const ew_remquo32 patterns = ew_remquo_f32(x, y);
        const ew_float_remquo values = ew_remquof(ew_value_f32(x), ew_value_f32(y));
        check("remainder_f32", x, pattern.word, remainders32[i].expected);
        check("remainder_f32", x, pattern.refusal, remainders32[i].refusal);
        check("remainderf", x, ew_bits_f32(value.value), remainders32[i].expected);
        check("remainderf", x, value.refusal, remainders32[i].refusal);
        check("remquo_f32", x, patterns.word, remainders32[i].expected);
        check("remquo_f32 quotient", x, (uint64_t)patterns.quotient, (uint64_t)remainders32[i].quotient);
        check("remquo_f32", x, patterns.refusal, remainders32[i].refusal);
        check("remquof", x, ew_bits_f32(values.value), remainders32[i].expected);
        check("remquof quotient", x, (uint64_t)values.quotient, (uint64_t)remainders32[i].quotient);
        check("remquof", x, values.refusal, remainders32[i].refusal);
    }
    for (i = 0; i < LENGTH(choices64); i++) {
        const uint64_t x = choices64[i].x, y = choices64[i].y;
        check(choices64[i].name, x, choices64[i].pattern(x, y), choices64[i].expected);
        check(choices64[i].name, x, ew_bits_f64(choices64[i].value(ew_value_f64(x), ew_value_f64(y))), choices64[i].expected);
    }
    for (i = 0; i < LENGTH(choices32); i++) {
        const uint32_t x = choices32[i].x, y = choices32[i].y;
        check(choices32[i].name, x, choices32[i].pattern(x, y), choices32[i].expected);
        check(choices32[i].name, x, ew_bits_f32(choices32[i].value(ew_value_f32(x), ew_value_f32(y))), choices32[i].expected);
    }
    for (i = 0; i < LENGTH(scales64); i++) {
        const uint64_t x = scales64[i].x;
        const ew_word64 pattern = ew_ldexp_f64(x, scales64[i].n);
        const ew_double value = ew_ldexp(ew_value_f64(x), scales64[i].n);
        check("ldexp_f64", x, pattern.word, scales64[i].expected);
        check("ldexp_f64", x, pattern.refusal, scales64[i].refusal);
        check("ldexp", x, ew_bits_f64(value.value), scales64[i].expected);
        check("ldexp", x, value.refusal, scales64[i].refusal);
    }
    for (i = 0; i < LENGTH(scales32); i++) {
        const uint32_t x = scales32[i].x;
        const ew_word32 pattern = ew_ldexp_f32(x, scales32[i].n);
        const ew_float value = ew_ldexpf(ew_value_f32(x), scales32[i].n);
        check("ldexp_f32", x, pattern.word, scales32[i].expected);
        check("ldexp_f32", x, pattern.refusal, scales32[i].refusal);
        check("ldexpf", x, ew_bits_f32(value.value), scales32[i].expected);
        check("ldexpf", x, value.refusal, scales32[i].refusal);
    }
    for (i = 0; i < LENGTH(parts64); i++) {
        const uint64_t x = parts64[i].x;
        const ew_parts64 pattern = ew_modf_f64(x);
        const ew_double_parts value = ew_modf(ew_value_f64(x));
        check("modf_f64", x, pattern.whole, parts64[i].whole);
        check("modf_f64", x, pattern.fraction, parts64[i].fraction);
        check("modf", x, ew_bits_f64(value.whole), parts64[i].whole);
        check("modf", x, ew_bits_f64(value.fraction), parts64[i].fraction);
    }
    for (i = 0; i < LENGTH(parts32); i++) {
        const uint32_t x = parts32[i].x;
        const ew_parts32 pattern = ew_modf_f32(x);
        const ew_float_parts value = ew_modff(ew_value_f32(x));
        check("modf_f32", x, pattern.whole, parts32[i].whole);
        check("modf_f32", x, pattern.fraction, parts32[i].fraction);
        check("modff", x, ew_bits_f32(value.whole), parts32[i].whole);
        check("modff", x, ew_bits_f32(value.fraction), parts32[i].fraction);
    }
    for (i = 0; i < LENGTH(frexps64); i++) {
        const uint64_t x = frexps64[i].x;
        const ew_frexp64 pattern = ew_frexp_f64(x);
        const ew_double_frexp value = ew_frexp(ew_value_f64(x));
        check("frexp_f64", x, pattern.fraction, frexps64[i].fraction);
        check("frexp_f64", x, (uint64_t)pattern.exponent, (uint64_t)frexps64[i].exponent);
        check("frexp", x, ew_bits_f64(value.fraction), frexps64[i].fraction);
        check("frexp", x, (uint64_t)value.exponent, (uint64_t)frexps64[i].exponent);
    }
    for (i = 0; i < LENGTH(frexps32); i++) {
        const uint32_t x = frexps32[i].x;
        const ew_frexp32 pattern = ew_frexp_f32(x);
        const ew_float_frexp value = ew_frexpf(ew_value_f32(x));
        check("frexp_f32", x, pattern.fraction, frexps32[i].fraction);
        check("frexp_f32", x, (uint64_t)pattern.exponent, (uint64_t)frexps32[i].exponent);
        check("frexpf", x, ew_bits_f32(value.fraction), frexps32[i].fraction);
        check("frexpf", x, (uint64_t)value.exponent, (uint64_t)frexps32[i].exponent);
    }
    for (i = 0; i < LENGTH(kinds); i++) {
        check("classify_f64", kinds[i].x64, ew_classify_f64(kinds[i].x64), kinds[i].kind);
        check("classify_f32", kinds[i].x32, ew_classify_f32(kinds[i].x32), kinds[i].kind);
        check("classify", kinds[i].x64, ew_classify(ew_value_f64(kinds[i].x64)), kinds[i].kind);
        check("classifyf", kinds[i].x32, ew_classifyf(ew_value_f32(kinds[i].x32)), kinds[i].kind);
    }
}

/* How remquo's answers lie in memory. Of 16 bytes each, they come back in registers. */
static void check_layout(void)
{
    check("remquo64's answer", 0, sizeof(ew_remquo64), 16);
    check("remquo64's answer", 1, offsetof(ew_remquo64, word), 0);
    check("remquo64's answer", 2, offsetof(ew_remquo64, quotient), 8);
    check("remquo64's answer", 3, offsetof(ew_remquo64, refusal), 12);
    check("remquo32's answer", 0, sizeof(ew_remquo32), 16);
    check("remquo32's answer", 1, offsetof(ew_remquo32, word), 0);
    check("remquo32's answer", 2, offsetof(ew_remquo32, quotient), 4);
    check("remquo32's answer", 3, offsetof(ew_remquo32, refusal), 8);
}

/* Document 01's recipe: an input from -2.5 to 7.25, its floor, and that as a whole number. */
static const char recipe[] = "010000c004000000000000401d000000000000\n"
                             "10000000000000000000000000000000000000\n"
                             "18010000000000000000000000000000000000\n";

static void check_run(void)
{
    const uint8_t *text = (const uint8_t *)recipe;
    const size_t length = sizeof recipe - 1;
    uint64_t words[4] = {5, 6, 7, 8};
    ew_run_answer r = ew_run(text, length, (const uint8_t *)"401e000000000000", 16, words, 4); /* 7.5: outside */
    check("run refusal", 0, r.refusal, EW_REFUSED_INPUT);
    check("run place", 0, r.place, 0);
    check("run kind", 0, r.kind, 0);
    check("run word", 0, r.word, 0);
    check("run writes nothing", 0, words[0] ^ words[1] << 8 ^ words[2] << 16, 5 ^ 6 << 8 ^ 7 << 16);
    r = ew_run(text, length, (const uint8_t *)"bfe0000000000000", 16, words, 4); /* -0.5 */
    check("run refusal", 1, r.refusal, EW_ACCEPTED);
    check("run kind", 1, r.kind, EW_WHOLE);
    check("run word", 1, r.word, 0xffffffffffffffff);
    check("run words", 0, words[0], 0xbfe0000000000000);
    check("run words", 1, words[1], 0xbff0000000000000);
    check("run words", 2, words[2], 0xffffffffffffffff);
    check("run words", 3, words[3], 8);
    r = ew_run(text, length, (const uint8_t *)"bfe0000000000000", 16, words, 2);
    check("run refusal", 2, r.refusal, EW_REFUSED_ROOM);
    r = ew_run(text, length, text + 6, EW_FRAME_INPUT, words, 4); /* the frame is a part of the text: -2.5 */
    check("run refusal", 3, r.refusal, EW_ACCEPTED);
    check("run word", 3, r.word, 0xfffffffffffffffd);
}

/* Frames for it and the answers, as docs/FORMATS.md prints them; and how the answer of the call lies in memory. */
static const char frames[] = "bfe0000000000000\n401e000000000000\n";
static const char answered[] = "02ffffffffffffffff\nff2000\n";

static void check_lines(void)
{
    const uint8_t *text = (const uint8_t *)recipe, *lines = (const uint8_t *)frames;
    const size_t length = sizeof recipe - 1, lines_len = sizeof frames - 1;
    uint8_t answers[2 * EW_ANSWER_LINE + 1];
    ew_lines_answer l;
    check("lines' answer", 0, sizeof l, 32);
    check("lines' answer", 1, offsetof(ew_lines_answer, refusal), 0);
    check("lines' answer", 2, offsetof(ew_lines_answer, place), 8);
    check("lines' answer", 3, offsetof(ew_lines_answer, read), 16);
    check("lines' answer", 4, offsetof(ew_lines_answer, written), 24);
    memset(answers, '#', sizeof answers);
    l = ew_run_lines(text, length, lines, lines_len, answers, EW_ANSWER_LINE - 1);
    check("lines refusal", 0, l.refusal, EW_REFUSED_ROOM);
    check("lines place", 0, l.place, 0);
    check("lines read", 0, l.read, 0);
    check("lines written", 0, l.written, 0);
    check("lines write nothing", 0, answers[0], '#');
    l = ew_run_lines(text, length, lines, lines_len, answers, 2 * EW_ANSWER_LINE - 1); /* one answer, though the short one would fit */
    check("lines refusal", 1, l.refusal, EW_ACCEPTED);
    check("lines read", 1, l.read, EW_FRAME_INPUT + 1);
    check("lines written", 1, l.written, EW_ANSWER_LINE);
    check("lines leave the rest", 1, answers[EW_ANSWER_LINE], '#');
    l = ew_run_lines(text, length, lines, lines_len, answers, 2 * EW_ANSWER_LINE);
    check("lines refusal", 2, l.refusal, EW_ACCEPTED);
    check("lines place", 2, l.place, 0);
    check("lines read", 2, l.read, lines_len);
    check("lines written", 2, l.written, sizeof answered - 1);
    check("lines' answers", 2, memcmp(answers, answered, sizeof answered - 1) == 0, 1);
    check("lines leave the rest", 2, answers[sizeof answered - 1], '#');
    l = ew_run_lines(text, length - EW_RECIPE_LINE / 2, lines, lines_len, answers, sizeof answers);
    check("lines refusal", 3, l.refusal, EW_REFUSED_LENGTH);
    l = ew_run_lines(text, length, text, length, answers, sizeof answers); /* the lines are the text: no line of it is a frame */
    check("lines read", 4, l.read, length);
    check("lines' answers", 4, memcmp(answers, "ff1e00\nff1e00\nff1e00\n", 21) == 0, 1);
}

/* Its sheet, as document 01 prints it, with W-203's marks. */
static const char lines[] = "000100c004000000000000401d000000000000\n"
                            "010101c008000000000000401c000000000000\n"
                            "020201fffffffffffffffd0000000000000007\n";

static void check_sheet(void)
{
    const uint8_t *text = (const uint8_t *)recipe;
    const size_t length = sizeof recipe - 1, room = sizeof lines - 1;
    uint8_t sheet[sizeof lines + 1];
    ew_sheet_answer s;
    size_t k;
    memset(sheet, '#', sizeof sheet);
    s = ew_sheet(text, length, sheet, room - 1);
    check("sheet refusal", 0, s.refusal, EW_REFUSED_ROOM);
    check("sheet steps", 0, s.steps, 0);
    check("sheet writes nothing", 0, sheet[0], '#');
    /* What was enough for a line without its mark. */
    s = ew_sheet(text, length, sheet, (size_t)3 * (EW_SHEET_LINE - 2));
    check("sheet refusal", 2, s.refusal, EW_REFUSED_ROOM);
    check("sheet writes nothing", 2, sheet[0], '#');
    s = ew_sheet(text, length, sheet, sizeof sheet);
    check("sheet refusal", 1, s.refusal, EW_ACCEPTED);
    check("sheet place", 1, s.place, 0);
    check("sheet steps", 1, s.steps, 3);
    check("sheet lines", 1, memcmp(sheet, lines, room) == 0, 1);
    check("sheet leaves the rest", 1, sheet[room], '#');
    check("room of a sheet", 1, room, 3 * EW_SHEET_LINE);
    for (k = 0; k < 3; k++)
        check("mark", k, sheet[k * EW_SHEET_LINE + 5], k == 0 ? '0' : '1');
}

/*
 * fmod and remainder of an input by another whose range holds zero, steps that differ in a digit of the opcode; the recipe above, whose sheet
 * passes; and half a line.
 */
static void check_explain(void)
{
    char refused[] = "010000bff00000000000003ff0000000000000\n"
                     "01000000000000000000003ff0000000000000\n"
                     "22000100000000000000000000000000000000\n";
    const char digits[] = {'2', '4'};
    ew_explain_answer e;
    size_t i;
    for (i = 0; i < LENGTH(digits); i++) {
        refused[2 * EW_RECIPE_LINE + 1] = digits[i];
        e = ew_explain((const uint8_t *)refused, sizeof refused - 1);
        check("explain refusal", i, e.refusal, EW_ACCEPTED);
        check("explain place", i, e.place, 0);
        check("explain step", i, e.step, 2);
        check("explain operand", i, e.operand, 1);
        check("explain reason", i, e.reason, EW_REASON_DIVISOR_HOLDS_ZERO);
    }
    e = ew_explain((const uint8_t *)recipe, sizeof recipe - 1);
    check("explain refusal", 2, e.refusal, EW_ACCEPTED);
    check("explain step", 2, e.step, 0);
    check("explain operand", 2, e.operand, 0);
    check("explain reason", 2, e.reason, EW_REASON_NONE);
    e = ew_explain((const uint8_t *)recipe, EW_RECIPE_LINE / 2);
    check("explain refusal", 3, e.refusal, EW_REFUSED_LENGTH);
    check("explain reason", 3, e.reason, EW_REASON_NONE);
}

/* Steps 40 to 42 of two constants: the word, which both ends of the range are too, and the mark; or the refusal. */
static const struct {
    const char *opcode;
    uint64_t x, y, expected;
    const char *mark;
    uint64_t refusal;
} sums[] = {
    {"40", 0x3fb999999999999a, 0x3fc999999999999a, 0x3fd3333333333334, "00", EW_ACCEPTED}, /* 0.1 + 0.2 */
    {"40", 0x3ff0000000000000, 0x3ca0000000000000, 0x3ff0000000000000, "00", EW_ACCEPTED}, /* a half of the last place: down to even */
    {"40", 0x3ff0000000000001, 0x3ca0000000000000, 0x3ff0000000000002, "00", EW_ACCEPTED}, /* up to even */
    {"40", 0x3ff0000000000000, 0x3ca0000000000001, 0x3ff0000000000001, "00", EW_ACCEPTED}, /* more than a half */
    {"40", 0x3ff0000000000000, 0xbff0000000000000, 0x0000000000000000, "01", EW_ACCEPTED}, /* 1 + -1 = +0, rounded down too */
    {"40", 0x8000000000000000, 0x8000000000000000, 0x8000000000000000, "01", EW_ACCEPTED},
    {"40", 0x0000000000000000, 0x8000000000000000, 0x0000000000000000, "01", EW_ACCEPTED},
    {"40", 0x0000000000000001, 0x0000000000000001, 0x0000000000000002, "00", EW_ACCEPTED}, /* subnormal operands and answer */
    {"40", 0x0010000000000001, 0x8010000000000000, 0x0000000000000001, "00", EW_ACCEPTED}, /* subnormal answer */
    {"40", 0x7fefffffffffffff, 0x7c8fffffffffffff, 0x7fefffffffffffff, "01", EW_ACCEPTED}, /* less than a half above the largest */
    {"40", 0x7fefffffffffffff, 0x7c90000000000000, 0, "", EW_REFUSED_OVERFLOW},            /* a half */
    {"40", 0x7ff0000000000000, 0xfff0000000000000, 0, "", EW_REFUSED_REMAINDER},           /* infinite operands */
    {"41", 0x3fd3333333333333, 0x3fb999999999999a, 0x3fc9999999999999, "00", EW_ACCEPTED}, /* 0.3 - 0.1 */
    {"41", 0x3ff0000000000000, 0x3c90000000000000, 0x3ff0000000000000, "00", EW_ACCEPTED}, /* a half below a power of two: up to even */
    {"41", 0x3ff0000000000000, 0x3c90000000000001, 0x3fefffffffffffff, "00", EW_ACCEPTED},
    {"41", 0x3ff0000000000000, 0x3ff0000000000000, 0x0000000000000000, "01", EW_ACCEPTED},
    {"41", 0x8000000000000000, 0x0000000000000000, 0x8000000000000000, "01", EW_ACCEPTED},
    {"41", 0x0010000000000000, 0x0010000000000001, 0x8000000000000001, "00", EW_ACCEPTED},
    {"41", 0xffefffffffffffff, 0x7fefffffffffffff, 0, "", EW_REFUSED_OVERFLOW},
    {"41", 0x3ff0000000000000, 0xfff0000000000000, 0, "", EW_REFUSED_REMAINDER},
    {"42", 0x3fb999999999999a, 0x4008000000000000, 0x3fd3333333333334, "00", EW_ACCEPTED}, /* 0.1 * 3 */
    {"42", 0x3ff0000000000001, 0x4008000000000000, 0x4008000000000002, "00", EW_ACCEPTED}, /* a half: up to even */
    {"42", 0x3ff0000000000003, 0x4008000000000000, 0x4008000000000004, "00", EW_ACCEPTED}, /* down to even */
    {"42", 0x0010000000000000, 0x3fe0000000000000, 0x0008000000000000, "00", EW_ACCEPTED}, /* subnormal answer */
    {"42", 0x8000000000000001, 0x3fe0000000000000, 0x8000000000000000, "00", EW_ACCEPTED}, /* a half of the least: to even, -0 */
    {"42", 0x0000000000000001, 0x3fe8000000000000, 0x0000000000000001, "00", EW_ACCEPTED}, /* three quarters of it */
    {"42", 0x000fffffffffffff, 0x4000000000000000, 0x001ffffffffffffe, "00", EW_ACCEPTED}, /* subnormal operand, normal answer */
    {"42", 0x0000000000000000, 0xbff0000000000000, 0x8000000000000000, "01", EW_ACCEPTED},
    {"42", 0x8000000000000000, 0xbff0000000000000, 0x0000000000000000, "01", EW_ACCEPTED},
    {"42", 0x7fefffffffffffff, 0x3ff0000000000001, 0, "", EW_REFUSED_OVERFLOW},
    {"42", 0x7ff0000000000000, 0x0000000000000000, 0, "", EW_REFUSED_REMAINDER},
};

static void check_sums(void)
{
    char text[3 * EW_RECIPE_LINE + 1], line[EW_SHEET_LINE + 1];
    const uint8_t *const recipe_of_two = (const uint8_t *)text;
    uint8_t sheet[3 * EW_SHEET_LINE];
    uint64_t words[3];
    size_t i;
    for (i = 0; i < LENGTH(sums); i++) {
        const uint64_t refusal = sums[i].refusal, place = refusal == EW_ACCEPTED ? 0 : 2;
        ew_run_answer r;
        ew_sheet_answer s;
        snprintf(text, sizeof text, "030000%016llx%016d\n030000%016llx%016d\n%s0001%032d\n", (unsigned long long)sums[i].x, 0,
                 (unsigned long long)sums[i].y, 0, sums[i].opcode, 0);
        r = ew_run(recipe_of_two, 3 * EW_RECIPE_LINE, NULL, 0, words, 3);
        check("sum's refusal", i, r.refusal, refusal);
        check("sum's place", i, r.place, place);
        check("sum", i, r.word, sums[i].expected);
        s = ew_sheet(recipe_of_two, 3 * EW_RECIPE_LINE, sheet, sizeof sheet);
        check("sum's refusal by the sheet", i, s.refusal, refusal);
        check("sum's place by the sheet", i, s.place, place);
        snprintf(line, sizeof line, "0201%s%016llx%016llx\n", sums[i].mark, (unsigned long long)sums[i].expected, (unsigned long long)sums[i].expected);
        if (refusal == EW_ACCEPTED)
            check("sum's range", i, memcmp(sheet + 2 * EW_SHEET_LINE, line, EW_SHEET_LINE) == 0, 1);
    }
}

/* The same steps of two inputs from a low to a high end: the range, or why there is none and of which operand. */
static const struct {
    const char *opcode;
    uint64_t a[2], b[2], range[2], reason, operand;
} sum_ranges[] = {
    {"40", {0x3ff0000000000000, 0x4000000000000000}, {0x4024000000000000, 0x403e000000000000},
     {0x4026000000000000, 0x4040000000000000}, EW_REASON_NONE, 0}, /* 1 to 2, 10 to 30: 11 to 32 */
    {"41", {0x3ff0000000000000, 0x4000000000000000}, {0x4024000000000000, 0x403e000000000000},
     {0xc03d000000000000, 0xc020000000000000}, EW_REASON_NONE, 0}, /* -29 to -8 */
    {"42", {0xc000000000000000, 0x4008000000000000}, {0xc014000000000000, 0x401c000000000000},
     {0xc02e000000000000, 0x4035000000000000}, EW_REASON_NONE, 0}, /* -2 to 3, -5 to 7: -15 to 21 */
    {"42", {0x0000000000000000, 0x3ff0000000000000}, {0xbff0000000000000, 0x8000000000000000},
     {0xbff0000000000000, 0x8000000000000000}, EW_REASON_NONE, 0}, /* 0 to 1, -1 to -0: -1 to -0 */
    {"42", {0x0000000000000000, 0x3ff0000000000000}, {0x8000000000000000, 0x0000000000000000},
     {0x8000000000000000, 0x0000000000000000}, EW_REASON_NONE, 0}, /* zeros alone: -0 is the least and +0 the greatest */
    {"40", {0xfff0000000000000, 0x7ff0000000000000}, {0xfff0000000000000, 0x7ff0000000000000}, {0, 0}, EW_REASON_A_LOW_INFINITE, 0},
    {"41", {0x3ff0000000000000, 0x7ff0000000000000}, {0xfff0000000000000, 0x7ff0000000000000}, {0, 0}, EW_REASON_A_HIGH_INFINITE, 0},
    {"42", {0x0000000000000000, 0x0000000000000000}, {0xfff0000000000000, 0x7ff0000000000000}, {0, 0}, EW_REASON_B_LOW_INFINITE, 1},
    {"40", {0x7fefffffffffffff, 0x7fefffffffffffff}, {0x7fefffffffffffff, 0x7ff0000000000000}, {0, 0}, EW_REASON_B_HIGH_INFINITE, 1},
    {"40", {0xffefffffffffffff, 0x7fefffffffffffff}, {0xffefffffffffffff, 0x7fefffffffffffff}, {0, 0}, EW_REASON_ANSWER_LOW_OVERFLOWS, 0},
    {"41", {0xbff0000000000000, 0x7fefffffffffffff}, {0xffefffffffffffff, 0x3ff0000000000000}, {0, 0}, EW_REASON_ANSWER_HIGH_OVERFLOWS, 0},
    {"42", {0xffefffffffffffff, 0x0000000000000000}, {0xc000000000000000, 0x0000000000000000}, {0, 0}, EW_REASON_ANSWER_HIGH_OVERFLOWS, 0},
};

static void check_sum_ranges(void)
{
    char text[3 * EW_RECIPE_LINE + 1], line[EW_SHEET_LINE + 1];
    const uint8_t *const recipe_of_two = (const uint8_t *)text;
    uint8_t sheet[3 * EW_SHEET_LINE];
    size_t i;
    for (i = 0; i < LENGTH(sum_ranges); i++) {
        const uint64_t *const a = sum_ranges[i].a, *const b = sum_ranges[i].b, *const range = sum_ranges[i].range, reason = sum_ranges[i].reason;
        ew_sheet_answer s;
        ew_explain_answer e;
        snprintf(text, sizeof text, "010000%016llx%016llx\n010000%016llx%016llx\n%s0001%032d\n", (unsigned long long)a[0], (unsigned long long)a[1],
                 (unsigned long long)b[0], (unsigned long long)b[1], sum_ranges[i].opcode, 0);
        s = ew_sheet(recipe_of_two, 3 * EW_RECIPE_LINE, sheet, sizeof sheet);
        check("refusal of a range", i, s.refusal,
              reason == EW_REASON_NONE ? EW_ACCEPTED : reason >= EW_REASON_ANSWER_LOW_OVERFLOWS ? EW_REFUSED_OVERFLOW : EW_REFUSED_REMAINDER);
        snprintf(line, sizeof line, "020100%016llx%016llx\n", (unsigned long long)range[0], (unsigned long long)range[1]);
        if (reason == EW_REASON_NONE)
            check("range", i, memcmp(sheet + 2 * EW_SHEET_LINE, line, EW_SHEET_LINE) == 0, 1);
        e = ew_explain(recipe_of_two, 3 * EW_RECIPE_LINE);
        check("reason of a range", i, e.reason, reason);
        check("step of a range", i, e.step, reason == EW_REASON_NONE ? 0 : 2);
        check("operand of a range", i, e.operand, sum_ranges[i].operand);
    }
}

/* An array of length 0 may be NULL, each of them alone and all at once. */
static void check_nothing(void)
{
    const uint8_t *input = (const uint8_t *)recipe, *constant = (const uint8_t *)"040000000000000000002a0000000000000000\n";
    uint64_t word = 7;
    uint8_t sheet[EW_SHEET_LINE] = {'#'}, answers[EW_ANSWER_LINE] = {'#'};
    check("run of nothing", 0, ew_run(NULL, 0, NULL, 0, NULL, 0).refusal, EW_REFUSED_LENGTH);
    check("run without a text", 0, ew_run(NULL, 0, input, 16, &word, 1).refusal, EW_REFUSED_LENGTH);
    check("run without words", 0, ew_run(constant, EW_RECIPE_LINE, constant, 0, NULL, 0).refusal, EW_REFUSED_ROOM);
    check("run without a frame", 0, ew_run(input, EW_RECIPE_LINE, NULL, 0, &word, 1).refusal, EW_REFUSED_FRAME);
    check("run writes nothing", 0, word, 7);
    check("run without inputs", 0, ew_run(constant, EW_RECIPE_LINE, NULL, 0, &word, 1).refusal, EW_ACCEPTED);
    check("run without inputs", 1, word, 42);
    check("lines of nothing", 0, ew_run_lines(NULL, 0, NULL, 0, NULL, 0).refusal, EW_REFUSED_LENGTH);
    check("lines without a text", 0, ew_run_lines(NULL, 0, input, 39, answers, sizeof answers).refusal, EW_REFUSED_LENGTH);
    check("lines without memory", 0, ew_run_lines(constant, EW_RECIPE_LINE, NULL, 0, NULL, 0).refusal, EW_REFUSED_ROOM);
    check("no lines", 0, ew_run_lines(constant, EW_RECIPE_LINE, NULL, 0, answers, sizeof answers).refusal, EW_ACCEPTED);
    check("no lines", 1, ew_run_lines(constant, EW_RECIPE_LINE, NULL, 0, answers, sizeof answers).written, 0);
    check("lines write nothing", 1, answers[0], '#');
    check("sheet of nothing", 0, ew_sheet(NULL, 0, NULL, 0).refusal, EW_REFUSED_LENGTH);
    check("sheet without a text", 0, ew_sheet(NULL, 0, sheet, sizeof sheet).refusal, EW_REFUSED_LENGTH);
    check("sheet without memory", 0, ew_sheet(constant, EW_RECIPE_LINE, NULL, 0).refusal, EW_REFUSED_ROOM);
    check("sheet writes nothing", 0, sheet[0], '#');
    check("explanation of nothing", 0, ew_explain(NULL, 0).refusal, EW_REFUSED_LENGTH);
}

/* Text, frame, lines, answers and sheet at every address modulo 8. */
static void check_addresses(void)
{
    size_t i;
    for (i = 0; i < 8; i++) {
        uint8_t text[sizeof recipe + 8], frame[EW_FRAME_INPUT + 8], sheet[sizeof lines + 8];
        uint8_t line[sizeof frames + 8], answers[2 * EW_ANSWER_LINE + 8];
        uint64_t words[3];
        memcpy(text + i, recipe, sizeof recipe);
        memcpy(frame + i, "bfe0000000000000", EW_FRAME_INPUT);
        check("run at an address", i, ew_run(text + i, sizeof recipe - 1, frame + i, EW_FRAME_INPUT, words, 3).word, 0xffffffffffffffff);
        memcpy(line + i, frames, sizeof frames);
        check("lines at an address", i, ew_run_lines(text + i, sizeof recipe - 1, line + i, sizeof frames - 1, answers + i, 2 * EW_ANSWER_LINE).read,
              sizeof frames - 1);
        check("lines at an address", i, memcmp(answers + i, answered, sizeof answered - 1) == 0, 1);
        check("sheet at an address", i, ew_sheet(text + i, sizeof recipe - 1, sheet + i, sizeof lines - 1).steps, 3);
        check("sheet at an address", i, memcmp(sheet + i, lines, sizeof lines - 1) == 0, 1);
        check("explanation at an address", i, ew_explain(text + i, sizeof recipe - 1).reason, EW_REASON_NONE);
    }
}

/* Document 01's numbers, and a version that is its parts. The preprocessor can compute with all of them. */
#if EW_VERSION_MAJOR * 10000 + EW_VERSION_MINOR * 100 + EW_VERSION_PATCH < 100 || EW_MOST_TEXT < EW_MOST_SHEET
#error "the version or a size is no number"
#endif

static void check_constants(void)
{
    char version[40];
    snprintf(version, sizeof version, "%d.%d.%d", EW_VERSION_MAJOR, EW_VERSION_MINOR, EW_VERSION_PATCH);
    check("version " EW_VERSION, 0, strcmp(version, EW_VERSION) == 0, 1);
    check("steps", 0, EW_MOST_STEPS, 128);
    check("inputs", 0, EW_MOST_INPUTS, 16);
    check("recipe's line", 0, EW_RECIPE_LINE, 39);
    check("sheet's line", 0, EW_SHEET_LINE, 39);
    check("digits per input", 0, EW_FRAME_INPUT, 16);
    check("longest answer", 0, EW_ANSWER_LINE, 19);
    check("longest text", 0, EW_MOST_TEXT, 4992);
    check("longest sheet", 0, EW_MOST_SHEET, 4992);
    check("longest frame", 0, EW_MOST_FRAME, 256);
}

int main(void)
{
    static const int modes[] = {FE_TONEAREST, FE_DOWNWARD, FE_UPWARD, FE_TOWARDZERO};
    size_t i;
    check_constants();
    check_layout();
#ifdef __FAST_MATH__
    /* Without both bits this build would show nothing that the plain one does not. */
    check("MXCSR: FTZ and DAZ", 0, _mm_getcsr() & 0x8040, 0x8040);
#endif
    for (i = 0; i < LENGTH(modes); i++) {
        fesetround(modes[i]);
        check_all();
        check_run();
        check_lines();
        check_sheet();
        check_explain();
        check_sums();
        check_sum_ranges();
        check_nothing();
        check_addresses();
    }
    fesetround(FE_TONEAREST);
    if (failures != 0) {
        printf("%d of %d checks failed\n", failures, checks);
        return 1;
    }
    printf("%d checks passed\n", checks);
    return 0;
}
