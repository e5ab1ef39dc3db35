/*
 * The same answers on every processor: a million patterns through every function at both widths, every half through those that take
 * one, a million pairs through sums, differences and products of doubles, and recipes through ew_run, ew_run_lines, ew_sheet and ew_explain, to be run on processors that differ (tests/c/processors.sh) and compared. Linked
 * statically, so that an emulator needs nothing else.
 *
 *     processors cpu                             what the processor says of itself
 *     processors functions                       a checksum a function and width (64, 32, 16; 0 where there is none), and one over all of them
 *     processors libm                            a checksum for each of the C library's functions, on the same patterns
 *     processors values NAME                     all answers of one of the C library's functions, 8 bytes each
 *     processors runs FILE FIRST STRIDE          the answers to calls of a file, a line each: of buckets FIRST, FIRST + STRIDE, ..
 *     processors lines FILE FIRST STRIDE         the same of frame lines
 *     processors sheets FILE FIRST STRIDE        of sheets
 *     processors explanations FILE FIRST STRIDE  and of explanations
 *
 * A bucket is 64 calls. A file's call is two 32-bit lengths, a text and a frame of these lengths.
 */
#include <cpuid.h>
#include <math.h>
#include <stdio.h>
#include <stdlib.h>
#include <string.h>

#include "cross_check.h"
#include "estrenwind.h"

enum { PATTERNS = 1000000, HALVES = 65536 };

/* ---- Patterns ---- */

static uint64_t state;

/* A word, each equally likely: splitmix64. */
static uint64_t word(void)
{
    uint64_t z = state += UINT64_C(0x9e3779b97f4a7c15);
    z = (z ^ z >> 30) * UINT64_C(0xbf58476d1ce4e5b9);
    z = (z ^ z >> 27) * UINT64_C(0x94d049bb133111eb);
    return z ^ z >> 31;
}

/*
 * A pattern of a format with these field sizes: any; where rounding happens, two of three at a half or beside one; small; special. A
 * uniform one is almost never a half.
 */
static uint64_t pattern(unsigned fraction_bits, unsigned exponent_bits)
{
    const uint64_t uniform = word() >> (63 - fraction_bits - exponent_bits);
    const uint64_t one = (UINT64_C(1) << (exponent_bits - 1)) - 1, fraction = uniform & ((UINT64_C(1) << fraction_bits) - 1);
    const uint64_t sign = uniform >> (fraction_bits + exponent_bits) << (fraction_bits + exponent_bits);
    const uint64_t infinity = ((UINT64_C(1) << exponent_bits) - 1) << fraction_bits;
    const uint64_t choice = word() % 16;
    if (choice < 5)
        return uniform;
    if (choice < 13) {
        const uint64_t scale = word() % (fraction_bits + 4); /* from 1/4 to past the first numbers that are all integers */
        const uint64_t below_half = scale < 2 ? fraction_bits : scale - 1 > fraction_bits ? 0 : fraction_bits - (scale - 1);
        const uint64_t x = ((one - 2 + scale) << fraction_bits) | fraction;
        const uint64_t half = x >> below_half << below_half;
        return sign | (choice < 7 ? x : choice < 10 ? half : choice < 11 ? half - 1 : half + 1);
    }
    if (choice < 15)
        return sign | fraction >> word() % fraction_bits;
    switch (word() % 4) {
    case 0: return sign;
    case 1: return sign | infinity;
    case 2: return sign | infinity | (fraction | 1);
    default: return sign | (infinity - 1);
    }
}

typedef struct { uint64_t x, y; int64_t n; } operands;

/* The operands of the next call. Half of the second ones are of about the first one's size. */
static operands next(unsigned fraction_bits, unsigned exponent_bits)
{
    operands o;
    const uint64_t finite = ((UINT64_C(1) << exponent_bits) - 1) << fraction_bits;
    o.x = pattern(fraction_bits, exponent_bits);
    o.y = pattern(fraction_bits, exponent_bits);
    if (word() % 2 == 0 && (o.x & finite) != finite) {
        const uint64_t near = o.x ^ (word() & ((UINT64_C(1) << (fraction_bits + 2)) - 1));
        o.y = word() % 4 == 0 ? o.x : near;
    }
    o.n = word() % 8 == 0 ? (int64_t)word() : (int64_t)(word() % 4400) - 2200;
    return o;
}

/* ---- The library ---- */

/* A multiplication a word, and its high half brought back to the low one: every bit of every answer tells. */
static uint64_t hashed(uint64_t hash, uint64_t answer)
{
    hash = (hash ^ answer) * UINT64_C(0x9fb21c651e98df25);
    return hash ^ hash >> 32;
}

#define ONE(name) \
    static uint64_t name##64(operands o, uint64_t h) { return hashed(h, ew_##name##_f64(o.x)); } \
    static uint64_t name##32(operands o, uint64_t h) { return hashed(h, ew_##name##_f32((uint32_t)o.x)); }
ONE(classify)
ONE(fabs)
ONE(negate)
ONE(floor)
ONE(ceil)
ONE(trunc)
ONE(round)
ONE(nearbyint)

#define HALF(name) \
    static uint64_t name##16(operands o, uint64_t h) { return hashed(h, ew_##name##_f16((uint16_t)o.x)); }
HALF(floor)
HALF(ceil)
HALF(trunc)
HALF(round)
HALF(nearbyint)

static uint64_t f16_to_f32(operands o, uint64_t h) { return hashed(h, ew_f16_to_f32((uint16_t)o.x)); }

/*
 * Of half of the floats the exponent is that of a half, or little less or more, and half of these are halfway between two halves, or right
 * beside that, or a half.
 */
static uint64_t f32_to_f16(operands o, uint64_t h)
{
    ew_word16 r;
    if (word() % 2 == 0) {
        const uint64_t scale = word() % 46; /* from 2^-27 to 2^18 */
        const uint64_t below_halfway = scale < 2 ? 23 : scale < 13 ? 25 - scale : 12;
        const uint64_t x = (o.x & 0x807fffff) | (127 - 27 + scale) << 23, multiple = x >> below_halfway << below_halfway;
        const uint64_t choice = word() % 6;
        o.x = choice < 3 ? x : choice < 4 ? multiple - 1 : choice < 5 ? multiple : multiple + 1;
    }
    r = ew_f32_to_f16((uint32_t)o.x);
    return hashed(hashed(h, r.word), r.refusal);
}

#define TWO(name) \
    static uint64_t name##64(operands o, uint64_t h) { return hashed(h, ew_##name##_f64(o.x, o.y)); } \
    static uint64_t name##32(operands o, uint64_t h) { return hashed(h, ew_##name##_f32((uint32_t)o.x, (uint32_t)o.y)); }
TWO(fmin)
TWO(fmax)

#define PAIR(name, first, second, ...) \
    static uint64_t name##64(operands o, uint64_t h) \
    { \
        const uint64_t x = o.x, y = o.y; \
        const int64_t n = o.n; \
        const ew_answer64_##name r = ew_##name##_f64(__VA_ARGS__); \
        (void)y, (void)n; \
        return hashed(hashed(h, (uint64_t)r.first), (uint64_t)r.second); \
    } \
    static uint64_t name##32(operands o, uint64_t h) \
    { \
        const uint32_t x = (uint32_t)o.x, y = (uint32_t)o.y; \
        const int64_t n = o.n; \
        const ew_answer32_##name r = ew_##name##_f32(__VA_ARGS__); \
        (void)y, (void)n; \
        return hashed(hashed(h, (uint64_t)r.first), (uint64_t)r.second); \
    }
typedef ew_whole ew_answer64_lround, ew_answer32_lround;
typedef ew_parts64 ew_answer64_modf;
typedef ew_parts32 ew_answer32_modf;
typedef ew_frexp64 ew_answer64_frexp;
typedef ew_frexp32 ew_answer32_frexp;
typedef ew_word64 ew_answer64_ldexp, ew_answer64_fmod, ew_answer64_remainder, ew_answer64_nextafter;
typedef ew_word32 ew_answer32_ldexp, ew_answer32_fmod, ew_answer32_remainder, ew_answer32_nextafter;
PAIR(lround, value, refusal, x)
PAIR(modf, whole, fraction, x)
PAIR(frexp, fraction, exponent, x)
PAIR(ldexp, word, refusal, x, n)
PAIR(fmod, word, refusal, x, y)
PAIR(remainder, word, refusal, x, y)
PAIR(nextafter, word, refusal, x, y)

#define REMQUO(width) \
    static uint64_t remquo##width(operands o, uint64_t h) \
    { \
        const ew_remquo##width r = ew_remquo_f##width((uint##width##_t)o.x, (uint##width##_t)o.y); \
        return hashed(hashed(hashed(h, r.word), (uint64_t)r.quotient), r.refusal); \
    }
REMQUO(64)
REMQUO(32)

/* Of finite numbers alone: others lose the first place of their exponent. */
static uint64_t made_finite(uint64_t x) { return (x >> 52 & 2047) == 2047 ? x ^ UINT64_C(1) << 62 : x; }

#define SUM(name) \
    static uint64_t name##64(operands o, uint64_t h) { return hashed(h, ew_check_##name(made_finite(o.x), made_finite(o.y))); }
SUM(sum)
SUM(difference)
SUM(product)

static const struct {
    const char *name;
    uint64_t (*f64)(operands, uint64_t), (*f32)(operands, uint64_t), (*f16)(operands, uint64_t); /* NULL where there is none */
} functions[] = {
#define ROW(name) {#name, name##64, name##32, NULL}
#define ROW3(name) {#name, name##64, name##32, name##16}
    ROW(classify), ROW(fabs), ROW(negate), ROW3(floor), ROW3(ceil), ROW3(trunc), ROW3(round), ROW3(nearbyint), ROW(lround), ROW(modf), ROW(frexp),
    ROW(ldexp), ROW(fmod), ROW(remainder), ROW(remquo), ROW(nextafter), ROW(fmin), ROW(fmax), {"f16_to_f32", NULL, NULL, f16_to_f32},
    {"f32_to_f16", NULL, f32_to_f16, NULL}, {"sum", sum64, NULL, NULL}, {"difference", difference64, NULL, NULL}, {"product", product64, NULL, NULL},
};

static void all_functions(void)
{
    uint64_t all = 0;
    size_t f;
    for (f = 0; f < sizeof functions / sizeof functions[0]; f++) {
        uint64_t hash64 = 0, hash32 = 0, hash16 = 0;
        int i;
        state = 1;
        for (i = 0; i < PATTERNS && functions[f].f64 != NULL; i++)
            hash64 = functions[f].f64(next(52, 11), hash64);
        for (i = 0; i < PATTERNS && functions[f].f32 != NULL; i++)
            hash32 = functions[f].f32(next(23, 8), hash32);
        for (i = 0; i < HALVES && functions[f].f16 != NULL; i++)
            hash16 = functions[f].f16((operands){(uint64_t)i, 0, 0}, hash16);
        printf("%-12s %016llx %016llx %016llx\n", functions[f].name, (unsigned long long)hash64, (unsigned long long)hash32,
               (unsigned long long)hash16);
        all = hashed(hashed(hashed(all, hash64), hash32), hash16);
    }
    printf("all %016llx\n", (unsigned long long)all);
}

/* ---- The C library ---- */

static double libm_ldexp(double x, double n) { return ldexp(x, (int)n); }
static double libm_frexp(double x, double n) { int e; double f = frexp(x, &e); (void)n; return f + e; }
static double libm_modf(double x, double y) { double whole, f = modf(x, &whole); (void)y; return f; }

/* The three digits of the quotient that C promises, in the last of the remainder. Of a NaN there are none. */
static double libm_remquo(double x, double y)
{
    int quotient = 0;
    const double left = remquo(x, y, &quotient);
    return ew_value_f64(ew_bits_f64(left) ^ (uint64_t)(quotient & 7));
}

/*
 * Those of our names, then rint, and then some whose code depends on the processor. The compiler may not put its own in their place: it
 * is told -fno-builtin. lround is left out: what it gives where it refuses is not defined.
 */
#define LIBM1(f) {#f, f, NULL}
#define LIBM2(f) {#f, NULL, f}
static const struct {
    const char *name;
    double (*one)(double), (*two)(double, double);
} libm[] = {
    LIBM1(floor), LIBM1(ceil), LIBM1(trunc), LIBM1(round), LIBM1(nearbyint), LIBM1(rint), {"modf", NULL, libm_modf}, {"frexp", NULL, libm_frexp},
    {"ldexp", NULL, libm_ldexp}, LIBM2(fmod), LIBM2(remainder), {"remquo", NULL, libm_remquo}, LIBM2(nextafter), LIBM2(fmin), LIBM2(fmax), LIBM1(fabs),
    LIBM1(sin), LIBM1(cos), LIBM1(tan), LIBM1(atan), LIBM1(exp), LIBM1(log), LIBM2(pow), LIBM2(atan2),
};

static uint64_t libm_answer(size_t f)
{
    const operands o = next(52, 11);
    const double x = ew_value_f64(o.x), y = libm[f].two == libm_ldexp ? (double)(o.n % 4400) : ew_value_f64(o.y);
    return ew_bits_f64(libm[f].one != NULL ? libm[f].one(x) : libm[f].two(x, y));
}

static void all_libm(void)
{
    size_t f;
    for (f = 0; f < sizeof libm / sizeof libm[0]; f++) {
        uint64_t hash = 0;
        int i;
        state = 1;
        for (i = 0; i < PATTERNS; i++)
            hash = hashed(hash, libm_answer(f));
        printf("%-12s %016llx\n", libm[f].name, (unsigned long long)hash);
    }
}

static int libm_values(const char *name)
{
    size_t f;
    int i;
    for (f = 0; f < sizeof libm / sizeof libm[0]; f++)
        if (strcmp(libm[f].name, name) == 0) {
            state = 1;
            for (i = 0; i < PATTERNS; i++) {
                const uint64_t answer = libm_answer(f);
                fwrite(&answer, sizeof answer, 1, stdout);
            }
            return 0;
        }
    return 1;
}

/* ---- Recipes ---- */

enum { BUCKET = 64, MOST = 1 << 16 };

static uint8_t text[MOST], frame[MOST];

/* The next call of a file; 0 at its end. */
static int read_call(FILE *file, uint32_t lengths[2])
{
    if (fread(lengths, sizeof lengths[0], 2, file) != 2)
        return 0;
    if (lengths[0] > MOST || lengths[1] > MOST || fread(text, 1, lengths[0], file) != lengths[0] || fread(frame, 1, lengths[1], file) != lengths[1]) {
        fprintf(stderr, "not a file of calls\n");
        exit(1);
    }
    return 1;
}

static void print_run(unsigned long number, const uint32_t lengths[2])
{
    static uint64_t words[EW_MOST_STEPS];
    uint64_t hash = 0;
    int i;
    ew_run_answer r;
    memset(words, 0xa5, sizeof words);
    r = ew_run(text, lengths[0], frame, lengths[1], words, EW_MOST_STEPS);
    for (i = 0; i < EW_MOST_STEPS; i++)
        hash = hashed(hash, words[i]);
    printf("%08lu %llu %llu %llu %016llx %016llx\n", number, (unsigned long long)r.refusal, (unsigned long long)r.place,
           (unsigned long long)r.kind, (unsigned long long)r.word, (unsigned long long)hash);
}

/* Its frame as a line, after an empty one. */
static void print_lines(unsigned long number, const uint32_t lengths[2])
{
    static uint8_t lines[MOST + 2], answers[3 * EW_ANSWER_LINE];
    uint64_t hash = 0;
    size_t i;
    ew_lines_answer r;
    memset(answers, 0xa5, sizeof answers);
    lines[0] = '\n';
    memcpy(lines + 1, frame, lengths[1]);
    lines[1 + lengths[1]] = '\n';
    r = ew_run_lines(text, lengths[0], lines, (size_t)lengths[1] + 2, answers, sizeof answers);
    for (i = 0; i < sizeof answers; i++)
        hash = hashed(hash, answers[i]);
    printf("%08lu %llu %llu %llu %llu %016llx\n", number, (unsigned long long)r.refusal, (unsigned long long)r.place, (unsigned long long)r.read,
           (unsigned long long)r.written, (unsigned long long)hash);
}

static void print_sheet(unsigned long number, const uint32_t lengths[2])
{
    static uint8_t sheet[EW_MOST_SHEET];
    uint64_t hash = 0;
    size_t i;
    ew_sheet_answer r;
    memset(sheet, 0xa5, sizeof sheet);
    r = ew_sheet(text, lengths[0], sheet, sizeof sheet);
    for (i = 0; i < sizeof sheet; i++)
        hash = hashed(hash, sheet[i]);
    printf("%08lu %llu %llu %llu %016llx\n", number, (unsigned long long)r.refusal, (unsigned long long)r.place, (unsigned long long)r.steps,
           (unsigned long long)hash);
}

static void print_explanation(unsigned long number, const uint32_t lengths[2])
{
    const ew_explain_answer r = ew_explain(text, lengths[0]);
    printf("%08lu %llu %llu %llu %llu %llu\n", number, (unsigned long long)r.refusal, (unsigned long long)r.place, (unsigned long long)r.step,
           (unsigned long long)r.operand, (unsigned long long)r.reason);
}

static int calls(const char *name, unsigned long first, unsigned long stride, void (*print)(unsigned long, const uint32_t *))
{
    FILE *file = fopen(name, "rb");
    uint32_t lengths[2];
    unsigned long number;
    if (file == NULL) {
        perror(name);
        return 1;
    }
    for (number = 0; read_call(file, lengths); number++)
        if (number / BUCKET % stride == first)
            print(number, lengths);
    fclose(file);
    return 0;
}

/* ---- The processor ---- */

static void cpu(void)
{
    unsigned a, b = 0, c = 0, d, unused, brand[12];
    char name[sizeof brand + 1];
    int sse4_1, fma, f16c, avx2;
    __get_cpuid(1, &a, &unused, &c, &d);
    sse4_1 = (c & bit_SSE4_1) != 0;
    fma = (c & bit_FMA) != 0;
    f16c = (c & bit_F16C) != 0;
    avx2 = __get_cpuid_count(7, 0, &a, &b, &c, &d) && (b & bit_AVX2) != 0;
    memset(brand, 0, sizeof brand);
    for (a = 0; a < 3; a++)
        __get_cpuid(0x80000002 + a, &brand[4 * a], &brand[4 * a + 1], &brand[4 * a + 2], &brand[4 * a + 3]);
    memcpy(name, brand, sizeof brand);
    name[sizeof brand] = 0;
    printf("SSE4.1 %s, AVX2 %s, FMA %s, F16C %s (%s)\n", sse4_1 ? "yes" : "no", avx2 ? "yes" : "no", fma ? "yes" : "no",
           f16c ? "yes" : "no", name);
}

int main(int count, char **words)
{
    if (count == 2 && strcmp(words[1], "cpu") == 0)
        cpu();
    else if (count == 2 && strcmp(words[1], "functions") == 0)
        all_functions();
    else if (count == 2 && strcmp(words[1], "libm") == 0)
        all_libm();
    else if (count == 3 && strcmp(words[1], "values") == 0)
        return libm_values(words[2]);
    else if (count == 5 && strcmp(words[1], "runs") == 0)
        return calls(words[2], strtoul(words[3], NULL, 10), strtoul(words[4], NULL, 10), print_run);
    else if (count == 5 && strcmp(words[1], "lines") == 0)
        return calls(words[2], strtoul(words[3], NULL, 10), strtoul(words[4], NULL, 10), print_lines);
    else if (count == 5 && strcmp(words[1], "sheets") == 0)
        return calls(words[2], strtoul(words[3], NULL, 10), strtoul(words[4], NULL, 10), print_sheet);
    else if (count == 5 && strcmp(words[1], "explanations") == 0)
        return calls(words[2], strtoul(words[3], NULL, 10), strtoul(words[4], NULL, 10), print_explanation);
    else
        return 2;
    return 0;
}
