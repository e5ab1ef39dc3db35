/*
 * Halves beside others' conversions: the processor's own (F16C), where it has one, and the compiler's _Float16, where it has that. Both
 * keep W-201's rules, NaNs included, but for the refusal. All 65,536 halves go through the seven functions, floats through export: one
 * of 256, or all of them.
 *
 *     halves        every half; of the floats one of 256, and every one at or beside a half or what is halfway between two
 *     halves all    every half and every float
 *
 * A rounding of halves is held beside the C library's rounding of floats, between the others' two conversions.
 */
#include <cpuid.h>
#include <immintrin.h>
#include <math.h>
#include <stdio.h>
#include <string.h>

#include "estrenwind.h"

/* ---- The others ---- */

#define TARGET __attribute__((target("f16c")))
TARGET static float processor_import(uint16_t x) { return _mm_cvtss_f32(_mm_cvtph_ps(_mm_cvtsi32_si128(x))); }
TARGET static uint16_t processor_export(float x) { return (uint16_t)_mm_extract_epi16(_mm_cvtps_ph(_mm_set_ss(x), _MM_FROUND_TO_NEAREST_INT), 0); }

/* The instructions need AVX's registers, which the system has to keep. */
static int processor_has_f16c(void)
{
    unsigned a, b, c, d;
    return __builtin_cpu_supports("avx") && __get_cpuid(1, &a, &b, &c, &d) && (c & bit_F16C) != 0;
}

#ifdef __FLT16_MANT_DIG__
__extension__ typedef _Float16 half;
static float compiler_import(uint16_t x) { half h; memcpy(&h, &x, sizeof h); return (float)h; }
static uint16_t compiler_export(float x) { const half h = (half)x; uint16_t bits; memcpy(&bits, &h, sizeof bits); return bits; }
#endif

typedef struct {
    const char *name;
    float (*import)(uint16_t);
    uint16_t (*export)(float);
} other;

/* ---- Comparison ---- */

static unsigned long long compared, differences;

static void check(const other *o, const char *function, uint32_t x, uint32_t answer, uint32_t expected)
{
    compared++;
    if (answer != expected && differences++ < 20)
        printf("%s of %x gave %x, %s %x\n", function, (unsigned)x, (unsigned)answer, o->name, (unsigned)expected);
}

static const struct {
    const char *name;
    uint16_t (*ours)(uint16_t);
    float (*theirs)(float);
} roundings[] = {
    {"floor_f16", ew_floor_f16, floorf}, {"ceil_f16", ew_ceil_f16, ceilf},
    {"trunc_f16", ew_trunc_f16, truncf}, {"round_f16", ew_round_f16, roundf},
    {"nearbyint_f16", ew_nearbyint_f16, nearbyintf},
};

/* W-201 refuses a finite number of magnitude 65,520 or more, where the others give the same infinity without a word. */
static void check_export(const other *o, uint32_t x)
{
    const float value = ew_value_f32(x), magnitude = fabsf(value);
    const ew_word16 answer = ew_f32_to_f16(x);
    check(o, "f32_to_f16", x, answer.word, o->export(value));
    if (answer.refusal != (magnitude >= 65520.0f && magnitude < INFINITY ? EW_REFUSED_RANGE : EW_ACCEPTED)) {
        printf("f32_to_f16 of %x gave refusal %llu\n", (unsigned)x, (unsigned long long)answer.refusal);
        differences++;
    }
}

static void check_half(const other *o, uint16_t x)
{
    const float value = o->import(x);
    size_t r;
    check(o, "f16_to_f32", x, ew_f16_to_f32(x), ew_bits_f32(value));
    check_export(o, ew_bits_f32(value));
    for (r = 0; r < sizeof roundings / sizeof roundings[0]; r++)
        check(o, roundings[r].name, x, roundings[r].ours(x), o->export(roundings[r].theirs(value)));
}

/* A pattern and its neighbours, of both signs. */
static void check_about(const other *o, uint32_t x)
{
    uint32_t beside;
    for (beside = x == 0 ? 0 : x - 1; beside <= x + 1; beside++) {
        check_export(o, beside);
        check_export(o, beside | 0x80000000);
    }
}

/* At every half and halfway to the next one, the one that would come after the largest too. Both are floats, and so is their sum. */
static void check_boundaries(const other *o)
{
    uint16_t x;
    for (x = 0; x < 0x7c00; x++) {
        const float value = o->import(x), next = x == 0x7bff ? 65536.0f : o->import((uint16_t)(x + 1));
        check_about(o, ew_bits_f32(value));
        check_about(o, ew_bits_f32((value + next) / 2));
    }
}

/* Of each `stride` floats in a row one, at a place that changes from row to row. */
static void check_floats(const other *o, uint64_t stride)
{
    uint64_t row;
    for (row = 0; row < (UINT64_C(1) << 32) / stride; row++)
        check_export(o, (uint32_t)(row * stride + (row * UINT64_C(0x9e3779b97f4a7c15) >> 32) % stride));
}

static void check_all(const other *o, uint64_t stride)
{
    uint32_t x;
    compared = 0;
    for (x = 0; x < 65536; x++)
        check_half(o, (uint16_t)x);
    check_boundaries(o);
    check_floats(o, stride);
    printf("%s: 65536 halves through 7 functions, %s through export: %llu answers\n", o->name,
           stride == 1 ? "all floats" : "a 256th of all floats and those about every half", compared);
}

int main(int count, char **words)
{
    static const other processor = {"F16C", processor_import, processor_export};
    const uint64_t stride = count == 2 && strcmp(words[1], "all") == 0 ? 1 : 256;
    if (processor_has_f16c())
        check_all(&processor, stride);
    else
        printf("F16C: this processor has none, and is left out\n");
#ifdef __FLT16_MANT_DIG__
    {
        static const other compiler = {"_Float16", compiler_import, compiler_export};
        check_all(&compiler, stride);
    }
#else
    printf("_Float16: this compiler has none, and is left out\n");
#endif
    printf("%llu differences\n", differences);
    return differences != 0;
}
