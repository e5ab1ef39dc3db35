/*
 * Halves, which bench.c times beside floats and beside others' conversions: the compiler's _Float16 (what gcc calls for it where the
 * processor need not have F16C, two functions of its own library), the processor's F16C where it has one, and Imath's half.
 *
 * The compiler's two are called by their own names: what a program writes as a conversion compiles to the same call. F16C and Imath stand
 * in functions of their own; a program would have them in place.
 */
#include <cpuid.h>
#include <immintrin.h>

/* ---- others ---- */

#ifdef __FLT16_MANT_DIG__
extern float __extendhfsf2(half);
extern half __truncsfhf2(float);
#define GCC_IMPORT (anything *)__extendhfsf2
#define GCC_EXPORT (anything *)__truncsfhf2
#else
#define GCC_IMPORT NULL
#define GCC_EXPORT NULL
#endif

#define F16C_ALONE __attribute__((noinline, noipa, target("f16c")))
static F16C_ALONE float f16c_import(uint16_t x) { return _cvtsh_ss(x); }
static F16C_ALONE uint16_t f16c_export(float x) { return _cvtss_sh(x, _MM_FROUND_TO_NEAREST_INT); }

/* The instructions need AVX's registers, which the system has to keep. */
static int has_f16c(void)
{
    unsigned a, b, c, d;
    return __builtin_cpu_supports("avx") && __get_cpuid(1, &a, &b, &c, &d) && (c & bit_F16C) != 0;
}

extern __attribute__((weak)) anything imath_import, imath_export;

/* ---- loops ---- */

typedef uint32_t import_word(uint16_t);
typedef float import_half(half);
typedef float import_bits(uint16_t);
LOOP(import_patterns, sum ^= CALL(import_word)(set->halves.bits[i]))
LOOP(import_halves, sum ^= ew_bits_f32(CALL(import_half)(set->halves.values[i])))
LOOP(import_others, sum ^= ew_bits_f32(CALL(import_bits)(set->halves.bits[i])))

typedef ew_word16 export_word(uint32_t);
typedef half export_half(float);
typedef uint16_t export_bits(float);
static inline uint64_t of_half(half h) { uint16_t bits; memcpy(&bits, &h, sizeof bits); return bits; }
LOOP(export_patterns, ew_word16 r = CALL(export_word)(set->wide.bits[i]); sum ^= r.word ^ r.refusal)
LOOP(export_halves, sum ^= of_half(CALL(export_half)(set->wide.values[i])))
LOOP(export_others, sum ^= CALL(export_bits)(set->wide.values[i]))

typedef uint16_t word16(uint16_t);
LOOP(word_patterns16, sum ^= CALL(word16)(set->halves.bits[i]))
LOOP(word_floats16, sum ^= CALL(word32)(set->floats.bits[i]))

/* ---- rows ---- */

/* What stands in the columns of a row of halves. */
enum { FLOATS = HEADERS, GCC = GLIBC, F16C = MUSL, IMATH = NEWLIB };

/*
 * What is asked: that a subnormal import takes at most 4 times as long as a normal one; that import and export take no longer than the
 * compiler's, on each set; that a rounding takes no longer than that of the same numbers as floats, but for noise.
 */
static const double SUBNORMAL_IMPORT = 4.0, BESIDE_GCC = 1.0, BESIDE_FLOATS = 1.05;

#define HALF_ROUNDING(name)                                                      \
    {#name, F16, 0, 0, 0, 0,                                                     \
     {[OURS] = {.run = word_patterns16, .function = (anything *)ew_##name##_f16}, \
      [FLOATS] = {.run = word_floats16, .function = (anything *)ew_##name##_f32}}},
#define CONVERSION(name, symbol, gcc)                                     \
    {#name, F16, 0, 0, 0, 0,                                              \
     {[OURS] = {.run = name##_patterns, .function = (anything *)symbol},   \
      [GCC] = {.run = name##_halves, .function = gcc},                     \
      [F16C] = {.run = name##_others, .function = (anything *)f16c_##name}, \
      [IMATH] = {.run = name##_others, .function = imath_##name}}},
#define HALVES                                      \
    CONVERSION(import, ew_f16_to_f32, GCC_IMPORT)   \
    CONVERSION(export, ew_f32_to_f16, GCC_EXPORT)   \
    HALF_ROUNDING(floor)                            \
    HALF_ROUNDING(ceil)                             \
    HALF_ROUNDING(trunc)                            \
    HALF_ROUNDING(round)                            \
    HALF_ROUNDING(nearbyint)
