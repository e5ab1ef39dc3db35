/*
 * Times single calls of the library's functions beside glibc's, musl's and newlib's, of those of halves beside floats and others'
 * conversions (halves.h), and of sums and products beside the processor's own (arithmetic.h), in one binary and one run.
 *
 * Every function is called through a pointer from a loop over an array that stays in the cache; the loop takes the operands
 * from an array of the function's own type and folds the answers' bits together, so that no answer is thrown away and all pay
 * the same for it. An identity function, called the same way, is the floor of what can be measured.
 *
 * Two things disturb such figures more than the code does:
 * - Where a function lies: the offset in a 64-byte line alone moves a call by a third. Our functions, musl's and newlib's all
 *   start a line, as the loops do. (In the library that holds for every program that links it.)
 * - A neighbour on the machine's core. All implementations take turns within a repetition, between identity calls, and a time
 *   counts only if the identity calls before and after it were as fast as they ever are.
 */
#include <math.h>
#include <stdio.h>
#include <stdlib.h>
#include <string.h>
#include <time.h>

#include <gnu/libc-version.h>

#include "estrenwind.h"
#include "functions.h"
#include "versions.h"

enum { COUNT = 4096, SAMPLES = 61, ENOUGH = 11 };
static const double QUIET = 1.1, SECONDS = 360;

/* ---- data ---- */

typedef union { uint64_t bits[COUNT]; double values[COUNT]; } operands64;
typedef union { uint32_t bits[COUNT]; float values[COUNT]; } operands32;

/* A compiler without _Float16 leaves its column empty. */
#ifdef __FLT16_MANT_DIG__
typedef _Float16 half;
#else
typedef uint16_t half;
#endif
typedef union { uint16_t bits[COUNT]; half values[COUNT]; } operands16;

/* x, the second operand y of a function of two numbers, and the n of ldexp. Or halves, the same as floats, and floats to be made halves. */
typedef struct {
    const char *name;
    operands64 x64, y64;
    operands32 x32, y32;
    int n64[COUNT], n32[COUNT];
    operands16 halves;
    operands32 floats, wide;
} data_set;

enum { TEXTURE, MIXED, SUBNORMAL, SPECIAL, FAR, TO_SUBNORMAL, TO_NORMAL, TOP_HEAVY, SMALLER, ANY_ORDER, FACTOR, LOW, HALF_NORMAL, HALF_SUBNORMAL, HALF_ANY,
       SETS };

static data_set sets[SETS] = {
    {.name = "texture-like: x in -4096 to 4096, with fractions; y in 0.5 to 64; n in -16 to 16"},
    {.name = "mixed magnitudes: half of them about where rounding happens, a quarter smaller, a quarter larger; any n that reaches"},
    {.name = "subnormal x and y, of every size alike; n to a subnormal number"},
    {.name = "texture-like, one in ten infinite or NaN"},
    {.name = "exponents far apart: x in the top quarter of the exponents, y in the lowest"},
    {.name = "texture-like x; subnormal y, of every size alike; n to a subnormal number"},
    {.name = "subnormal x, of every size alike; n to a normal number"},
    {.name = "subnormal x and y with random fractions: most have their leading one near the top"},
    {.name = "|x| < |y|: y in 0.5 to 64, x in -y to y"},
    {.name = "mixed magnitudes of any sign in no order, half of them about where rounding happens; all sums and products normal"},
    {.name = "subnormal x, of every size alike; y to a normal product"},
    {.name = "normal x and y; subnormal product, of every size alike"},
    {.name = "normal halves; floats that become such"},
    {.name = "subnormal halves; floats that become such"},
    {.name = "any 16 bits; any 32 bits"},
};

static uint64_t random_bits(void)
{
    static uint64_t state = 88172645463325252u;
    state ^= state << 13;
    state ^= state >> 7;
    state ^= state << 17;
    return state * 0x2545f4914f6cdd1du;
}

/* From 0 to below 1. */
static double random_part(void) { return (double)(random_bits() >> 11) * 0x1p-53; }

/* A double's pattern from an exponent field and a random sign and fraction. */
static uint64_t double_of(uint64_t e) { return (random_bits() & 0x800fffffffffffffu) | e << 52; }

/* Both widths' patterns from an exponent field and random signs and fractions. */
static void put(operands64 *f64, operands32 *f32, int i, uint64_t e64, uint32_t e32)
{
    const uint64_t r = random_bits();
    f64->bits[i] = (r & 0x8000000000000000u) | e64 << 52 | random_bits() >> 12;
    f32->bits[i] = (uint32_t)(r >> 32 & 0x80000000u) | e32 << 23 | (uint32_t)(random_bits() >> 41);
}

static void put_between(operands64 *f64, operands32 *f32, int i, double low, double high)
{
    const double x = low + random_part() * (high - low);
    f64->values[i] = x;
    f32->values[i] = (float)x;
}

static void put_mixed(operands64 *f64, operands32 *f32, int i)
{
    switch (random_bits() % 4) {
    case 0: put(f64, f32, i, 1 + random_bits() % 1014, (uint32_t)(1 + random_bits() % 118)); break;
    case 1: put(f64, f32, i, 1085 + random_bits() % 962, (uint32_t)(160 + random_bits() % 95)); break;
    default: put(f64, f32, i, 1015 + random_bits() % 70, (uint32_t)(119 + random_bits() % 41)); break;
    }
}

static void put_special(operands64 *f64, operands32 *f32, int i)
{
    put(f64, f32, i, 2047, 255);
    if (random_bits() % 2 == 0) {
        f64->bits[i] &= 0xfff0000000000000u;
        f32->bits[i] &= 0xff800000u;
    }
}

/* Subnormal numbers of every size alike: their leading one stands at any place of the fraction as often as at any other. */
static uint64_t random_below(int places)
{
    const uint64_t leading = (uint64_t)1 << random_bits() % (uint64_t)places;
    return leading | (random_bits() & (leading - 1));
}

static void put_subnormal(operands64 *f64, operands32 *f32, int i)
{
    const uint64_t r = random_bits();
    f64->bits[i] = (r & 0x8000000000000000u) | random_below(52);
    f32->bits[i] = (uint32_t)(r >> 32 & 0x80000000u) | (uint32_t)random_below(23);
}

/* The n that takes x's leading one to a place above that of the smallest subnormal number. */
static void put_scale(data_set *set, int i, int place64, int place32)
{
    set->n64[i] = place64 - 1074 - ilogb(set->x64.values[i]);
    set->n32[i] = place32 - 149 - ilogbf(set->x32.values[i]);
}

static void put_scale_to_subnormal(data_set *set, int i) { put_scale(set, i, (int)(random_bits() % 52), (int)(random_bits() % 23)); }

/* As put_mixed has them, but between the square roots of the least and of the largest number. */
static uint64_t random_mixed(void)
{
    switch (random_bits() % 4) {
    case 0: return double_of(512 + random_bits() % 503);
    case 1: return double_of(1085 + random_bits() % 450);
    default: return double_of(1015 + random_bits() % 70);
    }
}

/* A double of about 2^n. */
static uint64_t double_about(int n) { return double_of((uint64_t)(n + 1023)); }

/* Patterns with this exponent field and random signs and fractions. */
static uint16_t half_of(uint64_t e) { return (uint16_t)((random_bits() & 0x83ff) | e << 10); }
static uint32_t float_of(uint64_t e) { return (uint32_t)((random_bits() & 0x807fffff) | e << 23); }

static void put_half(data_set *set, int i, uint16_t half, uint32_t wide)
{
    set->halves.bits[i] = half;
    set->floats.bits[i] = ew_f16_to_f32(half);
    set->wide.bits[i] = wide;
}

static void fill(void)
{
    int i, s;
    for (i = 0; i < COUNT; i++) {
        data_set *set;
        for (s = 0; s < SETS; s++) {
            set = &sets[s];
            put_between(&set->x64, &set->x32, i, -4096, 4096);
            put_between(&set->y64, &set->y32, i, 0.5, 64);
            set->n64[i] = set->n32[i] = (int)(random_bits() % 33) - 16;
        }
        set = &sets[MIXED];
        put_mixed(&set->x64, &set->x32, i);
        put_mixed(&set->y64, &set->y32, i);
        set->n64[i] = (int)(random_bits() % 4200) - 2100;
        set->n32[i] = (int)(random_bits() % 600) - 300;
        set = &sets[SUBNORMAL];
        put_subnormal(&set->x64, &set->x32, i);
        put_subnormal(&set->y64, &set->y32, i);
        put_scale_to_subnormal(set, i);
        set = &sets[SPECIAL];
        if (random_bits() % 10 == 0)
            put_special(&set->x64, &set->x32, i);
        if (random_bits() % 10 == 0)
            put_special(&set->y64, &set->y32, i);
        set = &sets[FAR];
        put(&set->x64, &set->x32, i, 1535 + random_bits() % 512, (uint32_t)(191 + random_bits() % 64));
        put(&set->y64, &set->y32, i, 1 + random_bits() % 511, (uint32_t)(1 + random_bits() % 63));
        set = &sets[TO_SUBNORMAL];
        put_subnormal(&set->y64, &set->y32, i);
        put_scale_to_subnormal(set, i);
        /* From 2^-4 to 2^12. */
        set = &sets[TO_NORMAL];
        put_subnormal(&set->x64, &set->x32, i);
        put_scale(set, i, (int)(1070 + random_bits() % 16), (int)(145 + random_bits() % 16));
        set = &sets[TOP_HEAVY];
        put(&set->x64, &set->x32, i, 0, 0);
        put(&set->y64, &set->y32, i, 0, 0);
        set = &sets[SMALLER];
        put_between(&set->x64, &set->x32, i, -set->y64.values[i], set->y64.values[i]);
        set = &sets[ANY_ORDER];
        set->x64.bits[i] = random_mixed();
        set->y64.bits[i] = random_mixed();
        /* Products from 2^-1020 to 2^-120. */
        set = &sets[FACTOR];
        put_subnormal(&set->x64, &set->x32, i);
        set->y64.bits[i] = double_about(-1020 + (int)(random_bits() % 900) - ilogb(set->x64.values[i]));
        set = &sets[LOW];
        set->x64.bits[i] = double_about(-60 - (int)(random_bits() % 900));
        set->y64.bits[i] = double_about((int)(random_bits() % 51) - 1074 - ilogb(set->x64.values[i]));
    }
    /* Floats from 2^-14 to 2^15, and from 2^-24 to 2^-14. */
    for (i = 0; i < COUNT; i++) {
        put_half(&sets[HALF_NORMAL], i, half_of(1 + random_bits() % 30), float_of(113 + random_bits() % 29));
        put_half(&sets[HALF_SUBNORMAL], i, (uint16_t)((random_bits() & 0x8000) | (1 + random_bits() % 1023)), float_of(103 + random_bits() % 10));
        put_half(&sets[HALF_ANY], i, (uint16_t)random_bits(), (uint32_t)random_bits());
    }
}

/* ---- loops ---- */

typedef void anything(void);
typedef uint64_t loop(anything *, const data_set *);

#define ALONE __attribute__((noinline, noipa))

/* Folds what `statement` makes of the i-th operands into `sum`. */
#define LOOP(name, statement)                                           \
    static ALONE uint64_t name(anything *function, const data_set *set) \
    {                                                                   \
        uint64_t sum = 0;                                               \
        int i;                                                          \
        (void)function;                                                 \
        for (i = 0; i < COUNT; i++) {                                   \
            statement;                                                  \
        }                                                               \
        return sum;                                                     \
    }

#define CALL(type) ((type *)function)

/* A shape's loops: over patterns and over values, through a pointer, at both widths. */
typedef uint64_t word64(uint64_t);
typedef uint32_t word32(uint32_t);
typedef double real64(double);
typedef float real32(float);
LOOP(word_patterns64, sum ^= CALL(word64)(set->x64.bits[i]))
LOOP(word_patterns32, sum ^= CALL(word32)(set->x32.bits[i]))
LOOP(word_values64, sum ^= ew_bits_f64(CALL(real64)(set->x64.values[i])))
LOOP(word_values32, sum ^= ew_bits_f32(CALL(real32)(set->x32.values[i])))

typedef ew_whole whole64(uint64_t);
typedef ew_whole whole32(uint32_t);
typedef long long64(double);
typedef long long32(float);
static inline uint64_t of_whole(ew_whole r) { return (uint64_t)r.value ^ r.refusal; }
LOOP(whole_patterns64, sum ^= of_whole(CALL(whole64)(set->x64.bits[i])))
LOOP(whole_patterns32, sum ^= of_whole(CALL(whole32)(set->x32.bits[i])))
LOOP(whole_values64, sum ^= (uint64_t)CALL(long64)(set->x64.values[i]))
LOOP(whole_values32, sum ^= (uint64_t)CALL(long32)(set->x32.values[i]))

typedef ew_parts64 parts64(uint64_t);
typedef ew_parts32 parts32(uint32_t);
typedef double modf64(double, double *);
typedef float modf32(float, float *);
LOOP(parts_patterns64, ew_parts64 r = CALL(parts64)(set->x64.bits[i]); sum ^= r.whole ^ r.fraction)
LOOP(parts_patterns32, ew_parts32 r = CALL(parts32)(set->x32.bits[i]); sum ^= r.whole ^ r.fraction)
LOOP(parts_values64, double w; sum ^= ew_bits_f64(CALL(modf64)(set->x64.values[i], &w)); sum ^= ew_bits_f64(w))
LOOP(parts_values32, float w; sum ^= ew_bits_f32(CALL(modf32)(set->x32.values[i], &w)); sum ^= ew_bits_f32(w))

typedef ew_frexp64 split64(uint64_t);
typedef ew_frexp32 split32(uint32_t);
typedef double frexp64(double, int *);
typedef float frexp32(float, int *);
LOOP(frexp_patterns64, ew_frexp64 r = CALL(split64)(set->x64.bits[i]); sum ^= r.fraction ^ (uint64_t)r.exponent)
LOOP(frexp_patterns32, ew_frexp32 r = CALL(split32)(set->x32.bits[i]); sum ^= r.fraction ^ (uint64_t)r.exponent)
LOOP(frexp_values64, int e; sum ^= ew_bits_f64(CALL(frexp64)(set->x64.values[i], &e)); sum ^= (uint64_t)e)
LOOP(frexp_values32, int e; sum ^= ew_bits_f32(CALL(frexp32)(set->x32.values[i], &e)); sum ^= (uint64_t)e)

typedef ew_word64 scale64(uint64_t, int64_t);
typedef ew_word32 scale32(uint32_t, int64_t);
typedef double ldexp64(double, int);
typedef float ldexp32(float, int);
LOOP(scale_patterns64, ew_word64 r = CALL(scale64)(set->x64.bits[i], set->n64[i]); sum ^= r.word ^ r.refusal)
LOOP(scale_patterns32, ew_word32 r = CALL(scale32)(set->x32.bits[i], set->n32[i]); sum ^= r.word ^ r.refusal)
LOOP(scale_values64, sum ^= ew_bits_f64(CALL(ldexp64)(set->x64.values[i], set->n64[i])))
LOOP(scale_values32, sum ^= ew_bits_f32(CALL(ldexp32)(set->x32.values[i], set->n32[i])))

typedef ew_word64 pair64(uint64_t, uint64_t);
typedef ew_word32 pair32(uint32_t, uint32_t);
typedef double reals64(double, double);
typedef float reals32(float, float);
LOOP(pair_patterns64, ew_word64 r = CALL(pair64)(set->x64.bits[i], set->y64.bits[i]); sum ^= r.word ^ r.refusal)
LOOP(pair_patterns32, ew_word32 r = CALL(pair32)(set->x32.bits[i], set->y32.bits[i]); sum ^= r.word ^ r.refusal)
LOOP(pair_values64, sum ^= ew_bits_f64(CALL(reals64)(set->x64.values[i], set->y64.values[i])))
LOOP(pair_values32, sum ^= ew_bits_f32(CALL(reals32)(set->x32.values[i], set->y32.values[i])))

/* Where a library gives a NaN it may leave the quotient as it was. */
typedef ew_remquo64 quotient64(uint64_t, uint64_t);
typedef ew_remquo32 quotient32(uint32_t, uint32_t);
typedef double remquo64(double, double, int *);
typedef float remquo32(float, float, int *);
LOOP(remquo_patterns64, ew_remquo64 r = CALL(quotient64)(set->x64.bits[i], set->y64.bits[i]); sum ^= r.word ^ (uint64_t)r.quotient ^ r.refusal)
LOOP(remquo_patterns32, ew_remquo32 r = CALL(quotient32)(set->x32.bits[i], set->y32.bits[i]); sum ^= r.word ^ (uint64_t)r.quotient ^ r.refusal)
LOOP(remquo_values64, int q = 0; sum ^= ew_bits_f64(CALL(remquo64)(set->x64.values[i], set->y64.values[i], &q)); sum ^= (uint64_t)q)
LOOP(remquo_values32, int q = 0; sum ^= ew_bits_f32(CALL(remquo32)(set->x32.values[i], set->y32.values[i], &q)); sum ^= (uint64_t)q)

typedef uint64_t choice64(uint64_t, uint64_t);
typedef uint32_t choice32(uint32_t, uint32_t);
LOOP(choice_patterns64, sum ^= CALL(choice64)(set->x64.bits[i], set->y64.bits[i]))
LOOP(choice_patterns32, sum ^= CALL(choice32)(set->x32.bits[i], set->y32.bits[i]))
#define choice_values64 pair_values64
#define choice_values32 pair_values32

static ALONE uint64_t identity(uint64_t x) { return x; }

/* The header's forms on values. Operands and value answers are held in floating-point registers, as they are in a program. */
#define HOLD(x) __asm__("" : "+x"(x))
#define GIVEN1(type, width) type x = set->x##width.values[i]; HOLD(x)
#define GIVEN2(type, width) GIVEN1(type, width); type y = set->y##width.values[i]; HOLD(y)
#define TAKEN(width, value) HOLD(value); sum ^= ew_bits_f##width(value)

#define HEADER(name, width, type, suffix, given, answer, call, taken) \
    LOOP(header##width##_##name, given(type, width); answer r = ew_##name##suffix call; taken)
#define WORD(name, ...)                                                                        \
    HEADER(name, 64, double, , GIVEN1, double, (x), TAKEN(64, r))                               \
    HEADER(name, 32, float, f, GIVEN1, float, (x), TAKEN(32, r))
#define WHOLE(name, ...)                                                                       \
    HEADER(name, 64, double, , GIVEN1, ew_whole, (x), sum ^= of_whole(r))                       \
    HEADER(name, 32, float, f, GIVEN1, ew_whole, (x), sum ^= of_whole(r))
#define PARTS(name, ...)                                                                                              \
    HEADER(name, 64, double, , GIVEN1, ew_double_parts, (x), TAKEN(64, r.whole); TAKEN(64, r.fraction))                \
    HEADER(name, 32, float, f, GIVEN1, ew_float_parts, (x), TAKEN(32, r.whole); TAKEN(32, r.fraction))
#define FREXP(name, ...)                                                                                              \
    HEADER(name, 64, double, , GIVEN1, ew_double_frexp, (x), TAKEN(64, r.fraction); sum ^= (uint64_t)r.exponent)       \
    HEADER(name, 32, float, f, GIVEN1, ew_float_frexp, (x), TAKEN(32, r.fraction); sum ^= (uint64_t)r.exponent)
#define SCALE(name, ...)                                                                                              \
    HEADER(name, 64, double, , GIVEN1, ew_double, (x, set->n64[i]), TAKEN(64, r.value); sum ^= r.refusal)              \
    HEADER(name, 32, float, f, GIVEN1, ew_float, (x, set->n32[i]), TAKEN(32, r.value); sum ^= r.refusal)
#define REMAINDER(name, ...)                                                                                          \
    HEADER(name, 64, double, , GIVEN2, ew_double, (x, y), TAKEN(64, r.value); sum ^= r.refusal)                        \
    HEADER(name, 32, float, f, GIVEN2, ew_float, (x, y), TAKEN(32, r.value); sum ^= r.refusal)
#define STEP REMAINDER
#define REMQUO(name, ...)                                                                                                                  \
    HEADER(name, 64, double, , GIVEN2, ew_double_remquo, (x, y), TAKEN(64, r.value); sum ^= (uint64_t)r.quotient ^ r.refusal)              \
    HEADER(name, 32, float, f, GIVEN2, ew_float_remquo, (x, y), TAKEN(32, r.value); sum ^= (uint64_t)r.quotient ^ r.refusal)
#define CHOICE(name, ...)                                                                      \
    HEADER(name, 64, double, , GIVEN2, double, (x, y), TAKEN(64, r))                            \
    HEADER(name, 32, float, f, GIVEN2, float, (x, y), TAKEN(32, r))
FUNCTIONS
#undef WORD
#undef WHOLE
#undef PARTS
#undef FREXP
#undef SCALE
#undef REMAINDER
#undef REMQUO
#undef STEP
#undef CHOICE

/* ---- what is compared ---- */

/* A library that is not installed leaves its weak names at 0, and its column empty. (The header's loops name their functions
   themselves; identity only stands in their place.) */
#define REFERENCES(name)                                \
    extern __attribute__((weak)) anything musl_##name;    \
    extern __attribute__((weak)) anything musl_##name##f; \
    extern __attribute__((weak)) anything newlib_##name;  \
    extern __attribute__((weak)) anything newlib_##name##f;
#define WORD(name, ...) REFERENCES(name)
#define WHOLE(name, ...) REFERENCES(name)
#define PARTS(name, ...) REFERENCES(name)
#define FREXP(name, ...) REFERENCES(name)
#define SCALE(name, ...) REFERENCES(name)
#define REMAINDER(name, ...) REFERENCES(name)
#define REMQUO(name, ...) REFERENCES(name)
#define STEP(name, ...) REFERENCES(name)
#define CHOICE(name, ...) REFERENCES(name)
FUNCTIONS
#undef WORD
#undef WHOLE
#undef PARTS
#undef FREXP
#undef SCALE
#undef REMAINDER
#undef REMQUO
#undef STEP
#undef CHOICE

enum { OURS, HEADERS, GLIBC, MUSL, NEWLIB, COLUMNS };

/* Rows stand in tables: functions of doubles, of floats and of halves, and sums and products, which are doubles too. */
enum { F64 = 64, F32 = 32, F16 = 16, ARITHMETIC = 0 };

#include "arithmetic.h"
#include "halves.h"

typedef struct {
    loop *run;
    anything *function;
    int counts[SETS];
    double samples[SETS][SAMPLES];
} measure;

/* What is asked: at most `limit` times glibc's time on texture-like data, `mixed` times each library's on mixed data, `far` times
   glibc's where exponents lie far apart, and musl's time at least `lead` times ours. 0 asks nothing. */
static struct {
    const char *name;
    int table;
    double limit, lead, mixed, far;
    measure measures[COLUMNS];
} rows[] = {
#define ROW(name, suffix, width, kind, limit, lead, mixed, far)                      \
    {#name, width, limit, lead, mixed, far,                                          \
     {{.run = kind##_patterns##width, .function = (anything *)ew_##name##_f##width}, \
      {.run = header##width##_##name, .function = (anything *)identity},             \
      {.run = kind##_values##width, .function = (anything *)name##suffix},           \
      {.run = kind##_values##width, .function = musl_##name##suffix},                \
      {.run = kind##_values##width, .function = newlib_##name##suffix}}},
#define BOTH(name, kind, limit, lead, mixed, far) \
    ROW(name, , 64, kind, limit, lead, mixed, far) ROW(name, f, 32, kind, limit, lead, mixed, (far) == 0 ? 0 : limit)
#define WORD(name, limit, lead) BOTH(name, word, limit, lead, limit + MIXED_ALLOWANCE, 0)
#define WHOLE(name, limit, lead) BOTH(name, whole, limit, lead, limit + MIXED_ALLOWANCE, 0)
#define PARTS(name, limit) BOTH(name, parts, limit, 0, 0, 0)
#define FREXP(name, limit) BOTH(name, frexp, limit, 0, 0, 0)
#define SCALE(name, limit) BOTH(name, scale, limit, 0, 0, 0)
#define REMAINDER(name, limit, far) BOTH(name, pair, limit, 0, 0, far)
#define REMQUO(name, limit, far) BOTH(name, remquo, limit, 0, 0, far)
#define STEP(name, limit) BOTH(name, pair, limit, 0, 0, 0)
#define CHOICE(name, limit) BOTH(name, choice, limit, 0, 0, 0)
    FUNCTIONS
    HALVES
    OPERATIONS
};

enum { ROWS = sizeof rows / sizeof rows[0] };

/* What is asked on subnormal numbers and where |x| < |y|, at both widths: at most `limit` times glibc's time, and at most `normal`
   times our own on texture-like data (0: nothing). From a subnormal divisor the exponents of texture-like numbers lie far apart: of
   remainder and remquo the same is asked there as on FAR, and in the other cases that they are no slower than glibc's. */
static const struct {
    const char *name, *what;
    int set;
    double limit, normal;
} cases[] = {
    {"frexp", "subnormal", SUBNORMAL, 0.7, 1.6},
    {"ldexp", "subnormal in", TO_NORMAL, 0.6, 1.6},
    {"ldexp", "subnormal out", TO_SUBNORMAL, 0.6, 1.6},
    {"ldexp", "both subnormal", SUBNORMAL, 0.6, 1.6},
    {"fmod", "subnormal divisor", TO_SUBNORMAL, 0.15, 0},
    {"fmod", "both subnormal", SUBNORMAL, 0.15, 0},
    {"fmod", "both, near the top", TOP_HEAVY, 0.15, 0},
    {"remainder", "subnormal divisor", TO_SUBNORMAL, 0.2, 0},
    {"remainder", "both subnormal", SUBNORMAL, 1.0, 0},
    {"remainder", "both, near the top", TOP_HEAVY, 1.0, 0},
    {"remainder", "|x| < |y|", SMALLER, 1.0, 0},
    {"remquo", "subnormal divisor", TO_SUBNORMAL, 0.2, 0},
    {"remquo", "both subnormal", SUBNORMAL, 1.0, 0},
    {"remquo", "both, near the top", TOP_HEAVY, 1.0, 0},
    {"remquo", "|x| < |y|", SMALLER, 1.0, 0},
};

enum { CASES = sizeof cases / sizeof cases[0] };

/* Sums, differences and products take numbers of two sorts, and those of arithmetic_cases what stands there. */
static int takes_arithmetic(int row, int set)
{
    int s;
    for (s = 0; s < ARITHMETIC_CASES; s++)
        if (arithmetic_cases[s].set == set && strcmp(arithmetic_cases[s].name, rows[row].name) == 0)
            return 1;
    return set == TEXTURE || set == ANY_ORDER;
}

/* Every function takes the sets up to SPECIAL, a remainder FAR, those of `cases` what stands there; the last three are for halves. */
static int takes(int row, int set)
{
    int s;
    if (rows[row].table == ARITHMETIC)
        return takes_arithmetic(row, set);
    if (rows[row].table == F16 || set >= HALF_NORMAL)
        return rows[row].table == F16 && set >= HALF_NORMAL;
    if (set <= SPECIAL || (set == FAR && rows[row].far != 0))
        return 1;
    for (s = 0; s < CASES; s++)
        if (cases[s].set == set && strcmp(cases[s].name, rows[row].name) == 0)
            return 1;
    return 0;
}

/* ---- measuring ---- */

static volatile uint64_t consumed;
static double fastest = 1e9; /* ns of an identity call, the least seen */
static long dropped;

static double now(void)
{
    struct timespec t;
    clock_gettime(CLOCK_MONOTONIC, &t);
    return (double)t.tv_sec * 1e9 + (double)t.tv_nsec;
}

/* ns a call. The first turn brings code, data and branch history back, after the others' turns. */
static double time_of(loop *run, anything *function, const data_set *set)
{
    double start;
    consumed = run(function, set);
    start = now();
    consumed = run(function, set);
    return (now() - start) / COUNT;
}

static double time_of_identity(void)
{
    const double t = time_of(word_patterns64, (anything *)identity, &sets[TEXTURE]);
    if (t < fastest) {
        /* The machine is faster than it seemed: what was taken for quiet was not. */
        if (t < fastest * 0.97) {
            int r, c, s;
            for (r = 0; r < ROWS; r++)
                for (c = 0; c < COLUMNS; c++)
                    for (s = 0; s < SETS; s++)
                        rows[r].measures[c].counts[s] = 0;
        }
        fastest = t;
    }
    return t;
}

/* One repetition: every implementation of every function, in turn, on every data set. Answers whether anything was left to do. */
static int repeat(void)
{
    double before = time_of_identity();
    int s, r, c, left = 0;
    for (s = 0; s < SETS; s++)
        for (r = 0; r < ROWS; r++)
            for (c = 0; c < COLUMNS; c++) {
                measure *m = &rows[r].measures[c];
                double t, after;
                if (m->function == NULL || m->counts[s] == SAMPLES || !takes(r, s))
                    continue;
                left = 1;
                t = time_of(m->run, m->function, &sets[s]);
                after = time_of_identity();
                if (before <= fastest * QUIET && after <= fastest * QUIET)
                    m->samples[s][m->counts[s]++] = t;
                else
                    dropped++;
                before = after;
            }
    return left;
}

static int by_size(const void *a, const void *b)
{
    const double x = *(const double *)a, y = *(const double *)b;
    return (x > y) - (x < y);
}

static double median(double *values, int n)
{
    qsort(values, (size_t)n, sizeof *values, by_size);
    return n == 0 ? NAN : (values[(n - 1) / 2] + values[n / 2]) / 2;
}

typedef struct {
    double medians[COLUMNS], least[COLUMNS];
} figures;

static figures figures_of(int row, int set)
{
    figures f;
    int c;
    for (c = 0; c < COLUMNS; c++) {
        measure *m = &rows[row].measures[c];
        f.medians[c] = median(m->samples[set], m->counts[set]);
        f.least[c] = m->counts[set] == 0 ? NAN : m->samples[set][0];
    }
    return f;
}

/* ---- report ---- */

static void print_machine(void)
{
    char line[256];
    FILE *cpu = fopen("/proc/cpuinfo", "r");
    while (cpu != NULL && fgets(line, sizeof line, cpu) != NULL)
        if (strncmp(line, "model name", 10) == 0) {
            printf("machine  %s", strchr(line, ':') + 2);
            break;
        }
    if (cpu != NULL)
        fclose(cpu);
    printf("glibc    %s%s\n", gnu_get_libc_version(), __builtin_cpu_supports("sse4.1") ? ", SSE4.1 chosen at run time" : "");
    printf("musl     %s\nnewlib   %s\nImath    %s\ngcc      %s\n", MUSL_VERSION, NEWLIB_VERSION, IMATH_VERSION, __VERSION__);
    printf("F16C     %s\n", has_f16c() ? "yes" : "this processor has none");
    printf("identity call %.2f ns; medians (and least) of at most %d repetitions; %ld times dropped for a disturbance\n", fastest,
           SAMPLES, dropped);
}

static void print_pair(double value, double least)
{
    if (isnan(value))
        printf("  %13s", "-");
    else
        printf("  %5.2f (%5.2f)", value, least);
}

static void print_ratio(double ratio)
{
    if (isnan(ratio))
        printf(" %7s", "-");
    else
        printf(" %7.2f", ratio);
}

static void print_heading(int table, const char *set)
{
    if (table == ARITHMETIC)
        printf("\nsums and products, %s\n%-10s  %13s  %13s  %13s %7s %7s\n", set, "ns a call", "Estrenwind", "on floats", "processor", "/floats",
               "/proc.");
    else if (table == F16)
        printf("\nf16, %s\n%-10s  %13s  %13s  %13s  %13s  %13s %7s %7s %7s %7s\n", set, "ns a call", "Estrenwind", "same in f32", "gcc _Float16",
               "F16C", "Imath", "/f32", "/gcc", "/F16C", "/Imath");
    else
        printf("\nf%d, %s\n%-10s  %13s  %13s  %13s  %13s  %13s %7s %7s %7s\n", table, set, "ns a call", "Estrenwind", "header form", "glibc", "musl",
               "newlib", "/glibc", "/musl", "/newlib");
}

/* The rows of a table that take a set, if there are any. */
static void print_set(int set, int table)
{
    const int columns = table == ARITHMETIC ? ARITHMETIC_COLUMNS : COLUMNS;
    int r, c, printed = 0;
    for (r = 0; r < ROWS; r++) {
        figures f;
        if (rows[r].table != table || !takes(r, set))
            continue;
        if (printed++ == 0)
            print_heading(table, sets[set].name);
        f = figures_of(r, set);
        printf("%-10s", rows[r].name);
        for (c = 0; c < columns; c++)
            print_pair(f.medians[c], f.least[c]);
        for (c = table == F64 || table == F32 ? GLIBC : HEADERS; c < columns; c++)
            print_ratio(f.medians[OURS] / f.medians[c]);
        putchar('\n');
    }
}

/* A figure beside what is asked of it, with a '!' where it misses. A figure that could not be measured misses nothing. */
static int hold(double figure, const char *relation, double asked)
{
    const int missed = relation[0] == '<' ? figure > asked : figure < asked;
    if (isnan(figure))
        printf("  %14s", "-");
    else
        printf("  %5.2f %s %4.2f%c", figure, relation, asked, missed ? '!' : ' ');
    return missed && !isnan(figure);
}

static double ratio(int row, int set, int column)
{
    const figures f = figures_of(row, set);
    return f.medians[OURS] / f.medians[column];
}

/* A ratio that is asked for, or a dash. */
static int hold_ratio(int row, int set, int column, double most)
{
    return hold(most == 0 ? NAN : ratio(row, set, column), "<=", most);
}

static int print_targets(void)
{
    int r, missed_rows = 0;
    printf("\ntargets, medians in this run\n");
    printf("%-14s  %14s  %14s  %14s  %14s  %14s  %14s\n", "", "texture/glibc", "musl/texture", "mixed/glibc", "mixed/musl",
           "mixed/newlib", "far/glibc");
    for (r = 0; r < ROWS; r++) {
        const double musl = figures_of(r, TEXTURE).medians[MUSL];
        int missed = 0;
        if (rows[r].table != F64 && rows[r].table != F32)
            continue;
        printf("f%d %-10s", rows[r].table, rows[r].name);
        missed |= hold_ratio(r, TEXTURE, GLIBC, rows[r].limit);
        missed |= hold(rows[r].lead == 0 ? NAN : 1 / ratio(r, TEXTURE, MUSL), ">=", rows[r].lead);
        missed |= hold_ratio(r, MIXED, GLIBC, rows[r].mixed);
        missed |= hold_ratio(r, MIXED, MUSL, rows[r].mixed);
        missed |= hold_ratio(r, MIXED, NEWLIB, rows[r].mixed);
        missed |= hold_ratio(r, FAR, GLIBC, rows[r].far);
        printf("  %s", missed ? "MISSED" : "target met");
        if (musl < fastest * rows[r].lead)
            printf(" (musl's %.2f ns: even the identity call is not %g times as fast)", musl, rows[r].lead);
        putchar('\n');
        missed_rows += missed;
    }
    return missed_rows;
}

static int print_case_targets(void)
{
    int s, r, missed_rows = 0;
    printf("\n%-32s  %14s  %14s\n", "", "/glibc", "/texture");
    for (s = 0; s < CASES; s++)
        for (r = 0; r < ROWS; r++) {
            const int set = cases[s].set;
            int missed;
            if ((rows[r].table != F64 && rows[r].table != F32) || strcmp(rows[r].name, cases[s].name) != 0)
                continue;
            printf("f%d %-9s %-18s", rows[r].table, rows[r].name, cases[s].what);
            missed = hold_ratio(r, set, GLIBC, cases[s].limit);
            missed |= hold(cases[s].normal == 0 ? NAN : figures_of(r, set).medians[OURS] / figures_of(r, TEXTURE).medians[OURS], "<=",
                           cases[s].normal);
            printf("  %s\n", missed ? "MISSED" : "target met");
            missed_rows += missed;
        }
    return missed_rows;
}

/* A ratio of a function of halves on each of the three sets, where it has such a column. */
static int hold_halves(int row, int column, double most)
{
    int s, missed = 0;
    for (s = HALF_NORMAL; s <= HALF_ANY; s++)
        missed |= hold_ratio(row, s, column, most);
    return missed;
}

static int print_half_targets(void)
{
    int r, missed_rows = 0;
    printf("\n%-14s  %14s  %14s  %14s  %14s  %14s  %14s  %14s\n", "", "subn./normal", "normal/gcc", "subnormal/gcc", "any/gcc", "normal/f32",
           "subnormal/f32", "any/f32");
    for (r = 0; r < ROWS; r++) {
        const double subnormal = figures_of(r, HALF_SUBNORMAL).medians[OURS] / figures_of(r, HALF_NORMAL).medians[OURS];
        int missed = 0;
        if (rows[r].table != F16)
            continue;
        printf("f16 %-10s", rows[r].name);
        missed |= hold(strcmp(rows[r].name, "import") == 0 ? subnormal : NAN, "<=", SUBNORMAL_IMPORT);
        missed |= hold_halves(r, GCC, BESIDE_GCC);
        missed |= hold_halves(r, FLOATS, BESIDE_FLOATS);
        printf("  %s\n", missed ? "MISSED" : "target met");
        missed_rows += missed;
    }
    return missed_rows;
}

/* The processor's column is never empty: what could not be measured is missed. */
static int hold_host(int row, int set, double most) { return hold_ratio(row, set, HOST, most) | isnan(ratio(row, set, HOST)); }

static int print_arithmetic_targets(void)
{
    int r, s, missed_rows = 0;
    printf("\n%-28s  %14s  %14s\n", "", "texture/proc.", "mixed/proc.");
    for (r = 0; r < ROWS; r++) {
        int missed = 0;
        if (rows[r].table != ARITHMETIC)
            continue;
        printf("%-28s", rows[r].name);
        missed |= hold_host(r, TEXTURE, BESIDE_HOST);
        missed |= hold_host(r, ANY_ORDER, BESIDE_HOST);
        printf("  %s\n", missed ? "MISSED" : "target met");
        missed_rows += missed;
    }
    printf("\n%-28s  %14s\n", "", "/proc.");
    for (s = 0; s < ARITHMETIC_CASES; s++)
        for (r = 0; r < ROWS; r++) {
            int missed;
            if (rows[r].table != ARITHMETIC || strcmp(rows[r].name, arithmetic_cases[s].name) != 0)
                continue;
            printf("%-10s %-17s", rows[r].name, arithmetic_cases[s].what);
            missed = hold_host(r, arithmetic_cases[s].set, arithmetic_cases[s].limit);
            printf("  %s\n", missed ? "MISSED" : "target met");
            missed_rows += missed;
        }
    return missed_rows;
}

static int too_few(void)
{
    int r, c, s;
    for (r = 0; r < ROWS; r++)
        for (c = 0; c < COLUMNS; c++)
            for (s = 0; s < SETS; s++)
                if (rows[r].measures[c].function != NULL && takes(r, s) && rows[r].measures[c].counts[s] < ENOUGH)
                    return 1;
    return 0;
}

int main(void)
{
    double end;
    int i, missed;
    fill();
    for (i = 0; i < ROWS; i++)
        if (rows[i].table == F16 && !has_f16c())
            rows[i].measures[F16C].function = NULL;
    for (i = 0; i < 2000; i++)
        time_of_identity();
    end = now() + SECONDS * 1e9;
    while (repeat() && now() < end)
        ;
    print_machine();
    for (i = 0; i < SETS; i++) {
        print_set(i, F64);
        print_set(i, F32);
        print_set(i, F16);
    }
    for (i = 0; i < SETS; i++)
        print_set(i, ARITHMETIC);
    missed = print_targets();
    missed += print_case_targets();
    missed += print_half_targets();
    missed += print_arithmetic_targets();
    if (too_few())
        printf("\nThe machine was too busy: some figures stand on fewer than %d quiet repetitions. Run again when it is quiet.\n",
               ENOUGH);
    printf("\n%d of %d rows meet their targets\n", ROWS + 2 * CASES + ARITHMETIC_CASES - missed, ROWS + 2 * CASES + ARITHMETIC_CASES);
    return 0;
}
