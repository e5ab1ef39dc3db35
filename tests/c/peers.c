/*
 * fmin and fmax beside others' functions of two numbers, on patterns of both widths:
 *
 *     fminimum_num, fmaximum_num   glibc's, of C23 (from glibc 2.35 on). They take -0 as below +0 too: every number and every pair of a
 *                                  number and a NaN must give the same bits
 *     fmin, fmax                   glibc's. C leaves the sign of a zero open there: as numbers the answers must be the same, so bit for
 *                                  bit but where both operands are zeros. A signaling NaN is left out: glibc's gives a NaN for it
 *     minsd, maxsd                 the processor's own. They compare as numbers, and have no rule for NaNs that is C's: numbers alone
 *
 * Two NaNs must give a NaN. Pairs are all squares of some hundred edges, and ten million random ones for each.
 */
/* glibc declares C23's functions under this name. */
#define _GNU_SOURCE
#include <emmintrin.h>
#include <math.h>
#include <stdio.h>

#include "estrenwind.h"
#include "random.h"

/* ---- The others ---- */

typedef uint64_t choice(uint64_t, uint64_t);

#define OURS(name)                                                                                                   \
    static uint64_t ours_##name##_64(uint64_t x, uint64_t y) { return ew_##name##_f64(x, y); }                       \
    static uint64_t ours_##name##_32(uint64_t x, uint64_t y) { return ew_##name##_f32((uint32_t)x, (uint32_t)y); }
OURS(fmin)
OURS(fmax)

#define LIBM(name)                                                                                                                   \
    static uint64_t name##_64(uint64_t x, uint64_t y) { return ew_bits_f64(name(ew_value_f64(x), ew_value_f64(y))); }                \
    static uint64_t name##_32(uint64_t x, uint64_t y) { return ew_bits_f32(name##f(ew_value_f32((uint32_t)x), ew_value_f32((uint32_t)y))); }
LIBM(fmin)
LIBM(fmax)

#if defined __GLIBC__ && defined __GLIBC_PREREQ
#if __GLIBC_PREREQ(2, 35)
#define HAS_NUM
LIBM(fminimum_num)
LIBM(fmaximum_num)
#endif
#endif

#define PROCESSOR(name)                                                                                                                  \
    static uint64_t processor_##name##_64(uint64_t x, uint64_t y)                                                                        \
    {                                                                                                                                    \
        return ew_bits_f64(_mm_cvtsd_f64(_mm_##name##_sd(_mm_set_sd(ew_value_f64(x)), _mm_set_sd(ew_value_f64(y)))));                    \
    }                                                                                                                                    \
    static uint64_t processor_##name##_32(uint64_t x, uint64_t y)                                                                        \
    {                                                                                                                                    \
        return ew_bits_f32(_mm_cvtss_f32(_mm_##name##_ss(_mm_set_ss(ew_value_f32((uint32_t)x)), _mm_set_ss(ew_value_f32((uint32_t)y))))); \
    }
PROCESSOR(min)
PROCESSOR(max)

/* ---- Widths ---- */

typedef struct {
    int bits, fraction;
} width;

enum { WIDTHS = 2 };
static const width widths[WIDTHS] = {{64, 52}, {32, 23}};

static uint64_t sign_of(const width *w) { return UINT64_C(1) << (w->bits - 1); }
static uint64_t unit_of(const width *w) { return UINT64_C(1) << w->fraction; }
static uint64_t infinity_of(const width *w) { return sign_of(w) - unit_of(w); }
static uint64_t rest_of(const width *w, uint64_t x) { return x & (sign_of(w) - 1); }
static int is_nan(const width *w, uint64_t x) { return rest_of(w, x) > infinity_of(w); }
static int is_signaling(const width *w, uint64_t x) { return is_nan(w, x) && (x & unit_of(w) / 2) == 0; }
static int is_zero(const width *w, uint64_t x) { return rest_of(w, x) == 0; }

/* ---- Comparison ---- */

/* What is asked of a pair: the same bits; the same number, signaling NaNs left out; the same number, NaNs left out. */
typedef enum { BITS, NUMBERS, NUMBERS_ALONE } demand;

/* The names and functions at each width. */
typedef struct {
    const char *names[WIDTHS];
    choice *ours[WIDTHS], *theirs[WIDTHS];
    demand asked;
} peer;

#define BOTH(name) {name##_64, name##_32}
static const peer peers[] = {
#ifdef HAS_NUM
    {{"fminimum_num", "fminimum_numf"}, BOTH(ours_fmin), BOTH(fminimum_num), BITS},
    {{"fmaximum_num", "fmaximum_numf"}, BOTH(ours_fmax), BOTH(fmaximum_num), BITS},
#endif
    {{"fmin", "fminf"}, BOTH(ours_fmin), BOTH(fmin), NUMBERS},
    {{"fmax", "fmaxf"}, BOTH(ours_fmax), BOTH(fmax), NUMBERS},
    {{"minsd", "minss"}, BOTH(ours_fmin), BOTH(processor_min), NUMBERS_ALONE},
    {{"maxsd", "maxss"}, BOTH(ours_fmax), BOTH(processor_max), NUMBERS_ALONE},
};

static unsigned long long compared, other_zeros, differences;

/* Whether two answers are one number, x and y being its operands: numbers other than zeros have one pattern each. */
static int same_number(const width *w, uint64_t x, uint64_t y, uint64_t a, uint64_t b)
{
    return a == b || (is_zero(w, x) && is_zero(w, y) && is_zero(w, a) && is_zero(w, b));
}

static void check(int at, const peer *p, uint64_t x, uint64_t y)
{
    const width *w = &widths[at];
    const int nans = is_nan(w, x) + is_nan(w, y);
    uint64_t a, b;
    int good;
    if ((p->asked == NUMBERS_ALONE && nans != 0) || (p->asked == NUMBERS && (is_signaling(w, x) || is_signaling(w, y))))
        return;
    a = p->ours[at](x, y);
    b = p->theirs[at](x, y);
    if (nans == 2)
        good = is_nan(w, a) && is_nan(w, b);
    else
        good = p->asked == BITS ? a == b : same_number(w, x, y, a, b);
    compared++;
    other_zeros += nans != 2 && good && a != b;
    if (!good && differences++ < 20)
        printf("%s of %llx and %llx gave %llx, ours %llx\n", p->names[at], (unsigned long long)x, (unsigned long long)y, (unsigned long long)b,
               (unsigned long long)a);
}

/* ---- Pairs ---- */

enum { MOST_EDGES = 512, RANDOM = 10000000 };

static uint64_t edges[MOST_EDGES];
static size_t edge_count;

static void edge(const width *w, uint64_t rest)
{
    edges[edge_count++] = rest;
    edges[edge_count++] = sign_of(w) | rest;
}

/* Zeros, subnormal numbers, every 2^n-th exponent field with fractions at its ends, infinities and NaNs of both sorts; both signs. */
static void find_edges(const width *w)
{
    const uint64_t unit = unit_of(w), top = infinity_of(w) / unit, stride = (top + 1) / 64;
    uint64_t field;
    edge_count = 0;
    edge(w, 0);
    edge(w, 1);
    edge(w, 2);
    edge(w, unit / 2);
    edge(w, unit - 1);
    for (field = 1; field < top; field += stride) {
        edge(w, field * unit);
        edge(w, field * unit + 1);
        edge(w, field * unit + unit - 1);
    }
    edge(w, infinity_of(w) - 1);
    edge(w, infinity_of(w));
    edge(w, infinity_of(w) + 1);
    edge(w, infinity_of(w) + unit / 2 - 1);
    edge(w, infinity_of(w) + unit / 2);
    edge(w, infinity_of(w) + unit - 1);
}

static uint64_t random_pattern(const width *w) { return random_bits() >> (64 - w->bits); }

/* The same, one of them negated or not; two zeros; neighbours; one exponent field; a zero and any; two edges; any two. */
static void check_random(int at, const peer *p)
{
    const width *w = &widths[at];
    const uint64_t x = random_pattern(w), y = random_pattern(w), zero = y & sign_of(w);
    switch (random_bits() >> 61) {
    case 0: check(at, p, x, x ^ zero); break;
    case 1: check(at, p, x & sign_of(w), zero); break;
    case 2: check(at, p, x, x ^ (y & 3)); break;
    case 3: check(at, p, x, x ^ (y & (unit_of(w) - 1))); break;
    case 4: check(at, p, x, zero); break;
    case 5: check(at, p, zero, x); break;
    case 6: check(at, p, edges[x % edge_count], edges[y % edge_count]); break;
    default: check(at, p, x, y); break;
    }
}

static void check_all(int at, const peer *p)
{
    size_t i, j;
    long n;
    compared = other_zeros = 0;
    for (i = 0; i < edge_count; i++)
        for (j = 0; j < edge_count; j++)
            check(at, p, edges[i], edges[j]);
    for (n = 0; n < RANDOM; n++)
        check_random(at, p);
    printf("%-13s %9llu pairs, %s; %7llu of two zeros with the other sign\n", p->names[at], compared,
           p->asked == BITS ? "to the bit" : "as numbers", other_zeros);
}

int main(void)
{
    size_t p;
    int at;
#ifndef HAS_NUM
    printf("fminimum_num: this C library has none, and is left out\n");
#endif
    for (at = 0; at < WIDTHS; at++) {
        find_edges(&widths[at]);
        for (p = 0; p < sizeof peers / sizeof peers[0]; p++)
            check_all(at, &peers[p]);
    }
    printf("%llu differences\n", differences);
    return differences != 0;
}
