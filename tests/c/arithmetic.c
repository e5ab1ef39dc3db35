/*
 * Sums, differences and products in whole numbers, which steps 40 to 42 call, beside the processor's own addsd, subsd and mulsd, bit for bit:
 *
 *     on 105 million pairs of finite numbers, drawn to be hard. What a pair is, is told from its exact sum or product in 128 bits and not
 *     from how it was drawn: each sort below is counted, and one that came up less than LEAST times fails the test
 *     on all squares of 760 edges, infinities and NaNs among them, of which the language's operations on floats alone say anything
 *     under 16 settings of the processor: four directions of rounding, with flush-to-zero and denormals-are-zero or without. Whole numbers give
 *     the same and raise no flag; the processor's own answers change, under each setting but the usual one
 *
 * On the edges and under the settings the language's operations on floats go beside the processor's too.
 */
#include <emmintrin.h>
#include <stdio.h>
#include <string.h>

#include "cross_check.h"
#include "random.h"
#include "estrenwind.h"

enum { PAIRS = 35000000, LEAST = 10000 };

static const uint64_t SIGN = UINT64_C(1) << 63, UNIT = UINT64_C(1) << 52, INFINITE = UINT64_C(2047) << 52, DEFAULT_NAN = UINT64_C(4095) << 51;

static uint64_t rest_of(uint64_t x) { return x & ~SIGN; }
static int is_finite(uint64_t x) { return rest_of(x) < INFINITE; }

/* ---- Operations ---- */

/* The compiler may not look into these, nor move them to where the processor is set otherwise. */
#define PROCESSOR(name, instruction)                                                                                        \
    static __attribute__((noinline, noipa)) uint64_t processor_##name(uint64_t x, uint64_t y)                               \
    {                                                                                                                       \
        return ew_bits_f64(_mm_cvtsd_f64(instruction(_mm_set_sd(ew_value_f64(x)), _mm_set_sd(ew_value_f64(y)))));           \
    }
PROCESSOR(sum, _mm_add_sd)
PROCESSOR(difference, _mm_sub_sd)
PROCESSOR(product, _mm_mul_sd)

typedef uint64_t operation(uint64_t, uint64_t);
enum { SUM, DIFFERENCE, PRODUCT, OPERATIONS };
static const struct {
    const char *name;
    operation *ours, *on_floats, *processor;
} operations[OPERATIONS] = {
    {"sum", ew_check_sum, ew_check_float_sum, processor_sum},
    {"difference", ew_check_difference, ew_check_float_difference, processor_difference},
    {"product", ew_check_product, ew_check_float_product, processor_product},
};

static unsigned long long differences;

static void check(int o, const char *what, uint64_t x, uint64_t y, uint64_t answer, uint64_t expected)
{
    if (answer != expected && differences++ < 20)
        printf("%s of %016llx and %016llx %s gave %016llx, not %016llx\n", operations[o].name, (unsigned long long)x, (unsigned long long)y, what,
               (unsigned long long)answer, (unsigned long long)expected);
}

static void compare(int o, uint64_t x, uint64_t y) { check(o, "in whole numbers", x, y, operations[o].ours(x, y), operations[o].processor(x, y)); }

static void check_floats(int o, uint64_t x, uint64_t y, uint64_t expected) { check(o, "on floats", x, y, operations[o].on_floats(x, y), expected); }

/* ---- Sorts of pairs ---- */

__extension__ typedef unsigned __int128 wide;

static int length_of(wide w)
{
    const uint64_t high = (uint64_t)(w >> 64), low = (uint64_t)w;
    return high != 0 ? 128 - __builtin_clzll(high) : low != 0 ? 64 - __builtin_clzll(low) : 0;
}

/* A finite number's magnitude: m times 2^scale, counted in the least subnormal number. */
typedef struct {
    uint64_t m;
    int scale;
} magnitude;

static magnitude magnitude_of(uint64_t x)
{
    const uint64_t rest = rest_of(x), field = rest / UNIT;
    return (magnitude){field == 0 ? rest : UNIT + rest % UNIT, field == 0 ? 0 : (int)field - 1};
}

/* What is cut off of an exact answer, beside a half of the last place that stays. */
enum cut_off { NOTHING, LESS, HALF_DOWN, HALF_UP, MORE };
enum size { ZERO, SUBNORMAL, NORMAL, OVERFLOWS };
typedef struct {
    enum cut_off cut_off;
    enum size size; /* rounded */
    int carries;    /* rounded up to a power of two */
} fate;

/* Of w times 2^scale of the least subnormal number, where w is not 0. */
static fate fate_of(wide w, int scale)
{
    const int length = length_of(w), cut = length - 53 > -scale ? length - 53 : -scale;
    wide kept = w;
    fate f = {NOTHING, ZERO, 0};
    if (cut > length) {
        f.cut_off = LESS;
        return f;
    }
    if (cut > 0) {
        const wide left = w & (((wide)1 << cut) - 1), half = (wide)1 << (cut - 1);
        kept = w >> cut;
        f.cut_off = left == 0 ? NOTHING : left < half ? LESS : left > half ? MORE : kept % 2 == 0 ? HALF_DOWN : HALF_UP;
        if (f.cut_off == HALF_UP || f.cut_off == MORE) {
            f.carries = (kept & (kept + 1)) == 0;
            kept++;
        }
    }
    if (kept != 0) {
        const int places = length_of(kept) + (cut > 0 ? cut : 0) + scale;
        f.size = places <= 52 ? SUBNORMAL : places <= 1074 + 1024 ? NORMAL : OVERFLOWS;
    }
    return f;
}

/* Where a sort has two or more in a row, the others are counted right behind it. */
#define SUM_SORTS(SORT)                                                                             \
    SORT(TWO_ZEROS, "+0 and +0") SORT(TWO_ZEROS_1, "+0 and -0") SORT(TWO_ZEROS_2, "-0 and +0")      \
    SORT(TWO_ZEROS_3, "-0 and -0")                                                                  \
    SORT(ONE_ZERO, "a number and +0 or -0")                                                         \
    SORT(OPPOSITES, "x and -x")                                                                     \
    SORT(SHORTER, "one leading place cancels") SORT(SHORTER_1, "2 to 50 places cancel")             \
    SORT(SHORTER_2, "51 places or more cancel")                                                     \
    SORT(APART, "exponents 50 apart, one sign") SORT(APART_1, "50 apart, two signs")                \
    SORT(APART_2, "51 apart, one sign") SORT(APART_3, "51 apart, two signs")                        \
    SORT(APART_4, "52 apart, one sign") SORT(APART_5, "52 apart, two signs")                        \
    SORT(APART_6, "53 apart, one sign") SORT(APART_7, "53 apart, two signs")                        \
    SORT(APART_8, "54 apart, one sign") SORT(APART_9, "54 apart, two signs")                        \
    SORT(APART_10, "55 apart, one sign") SORT(APART_11, "55 apart, two signs")                      \
    SORT(APART_12, "56 apart, one sign") SORT(APART_13, "56 apart, two signs")                      \
    SORT(APART_14, "57 apart, one sign") SORT(APART_15, "57 apart, two signs")                      \
    SORT(FARTHER, "58 apart or more, one sign") SORT(FARTHER_1, "58 apart or more, two signs")      \
    SORT(ADDED, "one sign: exact") SORT(ADDED_1, "less than a half cut off")                        \
    SORT(ADDED_2, "a half, down to even") SORT(ADDED_3, "a half, up to even")                       \
    SORT(ADDED_4, "more than a half")                                                               \
    SORT(TAKEN, "two signs: exact") SORT(TAKEN_1, "less than a half cut off")                       \
    SORT(TAKEN_2, "a half, down to even") SORT(TAKEN_3, "a half, up to even")                       \
    SORT(TAKEN_4, "more than a half")                                                               \
    SORT(CARRIES, "rounded up to a power of two, one sign") SORT(CARRIES_1, "two signs")            \
    SORT(NORMAL_TO_SUBNORMAL, "normal numbers, subnormal answer")                                   \
    SORT(SUBNORMAL_TO_SUBNORMAL, "two subnormal numbers, subnormal answer")                         \
    SORT(SUBNORMAL_TO_NORMAL, "two subnormal numbers, normal answer")                               \
    SORT(ONE_SUBNORMAL, "a normal and a subnormal number")                                          \
    SORT(SUM_OVERFLOWS, "infinite answer") SORT(SUM_ROUNDS_OVER, "infinite by rounding alone")      \
    SORT(SUM_ROUNDS_DOWN, "rounded down to the largest number")

#define PRODUCT_SORTS(SORT)                                                                         \
    SORT(ZERO_PRODUCT, "a number and a zero: +0") SORT(ZERO_PRODUCT_1, "a number and a zero: -0")   \
    SORT(ZEROS_PRODUCT, "two zeros: +0") SORT(ZEROS_PRODUCT_1, "two zeros: -0")                     \
    SORT(NORMALS, "normal numbers and answer: exact") SORT(NORMALS_1, "less than a half cut off")   \
    SORT(NORMALS_2, "a half, down to even") SORT(NORMALS_3, "a half, up to even")                   \
    SORT(NORMALS_4, "more than a half")                                                             \
    SORT(PRODUCT_CARRIES, "rounded up to a power of two")                                           \
    SORT(LOW, "normal numbers, subnormal answer: exact") SORT(LOW_1, "less than a half cut off")    \
    SORT(LOW_2, "a half, down to even") SORT(LOW_3, "a half, up to even")                           \
    SORT(LOW_4, "more than a half")                                                                 \
    SORT(TO_LEAST_NORMAL, "rounded up to the least normal number")                                  \
    SORT(TO_ZERO, "normal numbers, rounded to zero") SORT(HALF_TO_ZERO, "half of the least, to 0")  \
    SORT(TO_LEAST, "less than the least, rounded up to it")                                         \
    SORT(FACTOR_TO_ZERO, "a subnormal number and a normal one: zero")                               \
    SORT(FACTOR_TO_SUBNORMAL, "subnormal answer, exact") SORT(FACTOR_ROUNDED, "subnormal, rounded") \
    SORT(FACTOR_TO_NORMAL, "normal answer")                                                         \
    SORT(TWO_SUBNORMALS, "two subnormal numbers")                                                   \
    SORT(PRODUCT_OVERFLOWS, "infinite answer") SORT(PRODUCT_ROUNDS_OVER, "infinite by rounding")    \
    SORT(PRODUCT_LARGEST, "the largest power of two or more, finite")

#define ENUMERATOR(sort, name) sort,
#define NAME(sort, name) name,
enum { SUM_SORTS(ENUMERATOR) SUM_SORT_COUNT };
enum { PRODUCT_SORTS(ENUMERATOR) PRODUCT_SORT_COUNT };
static const char *const sum_names[] = {SUM_SORTS(NAME)}, *const product_names[] = {PRODUCT_SORTS(NAME)};

static unsigned long long counts[OPERATIONS][SUM_SORT_COUNT + PRODUCT_SORT_COUNT];

/* Of x + y. */
static void count_sum(unsigned long long *count, uint64_t x, uint64_t y)
{
    const uint64_t a = rest_of(x), b = rest_of(y), larger = a < b ? b : a, smaller = a < b ? a : b;
    const int opposite = (int)((x ^ y) >> 63);
    const magnitude p = magnitude_of(larger), q = magnitude_of(smaller);
    const int apart = p.scale - q.scale;
    if (larger == 0) {
        count[TWO_ZEROS + 2 * (int)(x >> 63) + (int)(y >> 63)]++;
    } else if (smaller == 0) {
        count[ONE_ZERO]++;
    } else if (a == b && opposite) {
        count[OPPOSITES]++;
    } else if (apart > 57) {
        count[FARTHER + opposite]++;
    } else {
        const wide w = opposite ? ((wide)p.m << apart) - q.m : ((wide)p.m << apart) + q.m;
        const fate f = fate_of(w, q.scale);
        const int cancelled = length_of((wide)p.m << apart) - length_of(w), subnormals = (larger < UNIT) + (smaller < UNIT);
        if (cancelled > 0)
            count[SHORTER + (cancelled > 1) + (cancelled > 50)]++;
        if (apart >= 50)
            count[APART + 2 * (apart - 50) + opposite]++;
        count[(opposite ? TAKEN : ADDED) + (int)f.cut_off]++;
        if (f.carries)
            count[CARRIES + opposite]++;
        if (subnormals == 1)
            count[ONE_SUBNORMAL]++;
        else if (subnormals == 2)
            count[f.size == SUBNORMAL ? SUBNORMAL_TO_SUBNORMAL : SUBNORMAL_TO_NORMAL]++;
        else if (f.size == SUBNORMAL)
            count[NORMAL_TO_SUBNORMAL]++;
        if (f.size == OVERFLOWS)
            count[f.carries ? SUM_ROUNDS_OVER : SUM_OVERFLOWS]++;
        else if (larger == INFINITE - 1 && !opposite && f.cut_off == LESS)
            count[SUM_ROUNDS_DOWN]++;
    }
}

static void count_product(unsigned long long *count, uint64_t x, uint64_t y)
{
    const uint64_t a = rest_of(x), b = rest_of(y);
    const int negative = (int)((x ^ y) >> 63), subnormals = (a < UNIT) + (b < UNIT);
    const magnitude p = magnitude_of(x), q = magnitude_of(y);
    if (a == 0 || b == 0) {
        count[(a == b ? ZEROS_PRODUCT : ZERO_PRODUCT) + negative]++;
    } else if (subnormals == 2) {
        count[TWO_SUBNORMALS]++;
    } else {
        const wide w = (wide)p.m * q.m;
        const int scale = p.scale + q.scale - 1074;
        const fate f = fate_of(w, scale);
        if (subnormals == 1) {
            count[f.size == ZERO ? FACTOR_TO_ZERO : f.size == NORMAL ? FACTOR_TO_NORMAL : f.cut_off == NOTHING ? FACTOR_TO_SUBNORMAL : FACTOR_ROUNDED]++;
        } else if (f.size == ZERO) {
            count[f.cut_off == LESS ? TO_ZERO : HALF_TO_ZERO]++;
        } else if (f.size == OVERFLOWS) {
            count[f.carries && length_of(w) + scale == 1074 + 1024 ? PRODUCT_ROUNDS_OVER : PRODUCT_OVERFLOWS]++;
        } else if (f.size == SUBNORMAL || length_of(w) + scale <= 52) {
            count[length_of(w) + scale <= 0 ? TO_LEAST : f.size == NORMAL ? TO_LEAST_NORMAL : LOW + (int)f.cut_off]++;
        } else {
            count[NORMALS + (int)f.cut_off]++;
            if (f.carries)
                count[PRODUCT_CARRIES]++;
            if (length_of(w) + scale == 1074 + 1024)
                count[PRODUCT_LARGEST]++;
        }
    }
}

static void count_sorts(int o, uint64_t x, uint64_t y)
{
    if (o == PRODUCT)
        count_product(counts[o], x, y);
    else
        count_sum(counts[o], x, o == DIFFERENCE ? y ^ SIGN : y);
}

/* ---- Pairs ---- */

static uint64_t below(uint64_t limit) { return (random_bits() >> 32) * limit >> 32; }

/* A fraction: none, all ones, one place, only its first places, only its last ones, or any. A branch would cost more than the test itself. */
static uint64_t fraction(void)
{
    const uint64_t r = random_bits(), low = (UINT64_C(1) << (r >> 52) % 52) - 1, all = UNIT - 1;
    const uint64_t kept[8] = {0, 0, 0, all & ~low, 0, low, all, all}, set[8] = {0, all, low + 1, 0, all & ~low, 0, 0, 0};
    const uint64_t kind = random_bits() >> 61;
    return (r & kept[kind]) | set[kind];
}

/* Of either sign. The field is that of a finite number. */
static uint64_t pattern(uint64_t field) { return (random_bits() & SIGN) | field << 52 | fraction(); }
static uint64_t any_finite(void) { return pattern(below(2047)); }
static uint64_t subnormal(void) { return (random_bits() & SIGN) | fraction() >> below(52); }

/* m times 2^scale of the least subnormal number, of either sign, where it is a normal number and m has at most 53 places. */
static uint64_t normal(uint64_t m, int scale)
{
    const int shift = 53 - length_of(m);
    return (random_bits() & SIGN) | (uint64_t)(scale - shift + 1) << 52 | ((m << shift) - UNIT);
}

/* An odd number of so many places. */
static uint64_t odd(int places) { return (UINT64_C(1) << (places - 1)) | (random_bits() & ((UINT64_C(1) << (places - 1)) - 1)) | 1; }

typedef struct {
    uint64_t x, y;
} pair;

static pair swapped_or_not(uint64_t x, uint64_t y) { return random_bits() >> 63 == 0 ? (pair){x, y} : (pair){y, x}; }

/* Terms of a sum: the n-th pair. */
static pair terms(long n)
{
    const uint64_t s = random_bits() & SIGN;
    uint64_t x, y, apart;
    switch (n % 12) {
    case 0: /* all but the last places cancel */
        x = any_finite();
        return (pair){x, x ^ SIGN ^ (random_bits() & ((UINT64_C(1) << below(53)) - 1))};
    case 1: /* a few do */
        y = below(2044);
        return swapped_or_not(pattern(y), pattern(y + below(3)));
    case 2: /* where the smaller one's last place is half of the larger one's */
    case 3:
        apart = 1 + below(53);
        x = pattern(apart + 1 + below(2046 - apart));
        y = (fraction() >> (apart - 1) | 1) << (apart - 1);
        return swapped_or_not(x, s | ((rest_of(x) / UNIT - apart) << 52) | (y & (UNIT - 1)));
    case 4: /* 50 to 57 apart */
    case 5:
    case 6:
        y = below(1989);
        return swapped_or_not(pattern(y), pattern(y + 50 + below(9)));
    case 7: /* subnormal ones and the least normal ones */
        return swapped_or_not(below(2) == 0 ? subnormal() : pattern(below(3)), below(2) == 0 ? subnormal() : pattern(below(60)));
    case 8: /* near the largest numbers; and at half of the last place of the very largest */
        if (below(2) == 0)
            return swapped_or_not(pattern(2046 - below(3)), pattern(2046 - below(56)));
        x = INFINITE - 1 - (below(4) == 0 ? below(3) : 0);
        return swapped_or_not(s | x, s | ((UINT64_C(1993) << 52) + below(3) - 1));
    case 9: /* zeros */
        return swapped_or_not(below(2) == 0 ? random_bits() & SIGN : any_finite(), random_bits() & SIGN);
    case 10: /* a power of two, or right below one, and what is just enough to reach it or not */
        x = 60 + below(1980);
        y = (x - 52 - below(4)) << 52;
        return swapped_or_not((random_bits() & SIGN) | ((x << 52) + below(3) - 1), (random_bits() & SIGN) | (y + below(3) - 1));
    default: return (pair){any_finite(), any_finite()};
    }
}

/* Factors whose product's field would be this, or one more, the fields of both being those of normal numbers. */
static pair factors_to(int field, uint64_t f, uint64_t g)
{
    const int least = field + 1023 - 2046 > 1 ? field + 1023 - 2046 : 1, most = field + 1023 - 1 < 2046 ? field + 1023 - 1 : 2046;
    const uint64_t x = (uint64_t)least + below((uint64_t)(most - least + 1)), y = (uint64_t)(field + 1023) - x;
    return (pair){(random_bits() & SIGN) | x << 52 | f, (random_bits() & SIGN) | y << 52 | g};
}

static pair factors(long n)
{
    uint64_t m;
    int places, scale;
    switch (n % 12) {
    case 0: return factors_to(1 + (int)below(2045), fraction(), fraction());
    case 1: /* 54 places or one more: a half is cut off, or one or three quarters */
        places = 2 + (int)below(51);
        scale = 537 + (int)below(1000);
        return (pair){normal(odd(places), scale), normal(odd(55 - places), 2148 - scale)};
    case 2: /* the first such that would pass a power of two, and the last that does not: rounding often reaches it; at times it overflows */
        m = UNIT + fraction();
        m = m == UNIT ? m + 1 : m;
        return factors_to(below(4) == 0 ? 2046 : below(4) == 0 ? 0 : (int)below(2045), m - UNIT,
                          (uint64_t)(((wide)1 << 105) / m) + below(2) - UNIT);
    case 3: /* near the subnormal numbers, from far below the least to above all */
    case 4: return factors_to(-56 + (int)below(60), fraction(), fraction());
    case 5: /* a half of the last subnormal place, or a quarter of it, is cut off */
    case 6:
        places = 1 + (int)below(52);
        m = odd(places);
        scale = 60 + (int)below(950);
        return (pair){normal(m, scale), normal(odd(1 + (int)below((uint64_t)(53 - places))), 1074 - 1 - (int)below(2) - scale)};
    case 7: /* the least subnormal number, its half, its quarter, and a little more or less */
        return factors_to(-50 - (int)below(4), below(2) == 0 ? below(2) : fraction(), 0);
    case 8: return factors_to(2043 + (int)below(6), fraction(), fraction());
    case 9: /* zeros */
        return swapped_or_not(below(2) == 0 ? random_bits() & SIGN : any_finite(), random_bits() & SIGN);
    case 10: return swapped_or_not(subnormal(), below(2) == 0 ? any_finite() : below(4) == 0 ? subnormal() : pattern(963 + below(120)));
    default: return (pair){any_finite(), any_finite()};
    }
}

/* The second term of a difference is subtracted. */
static pair drawn(int o, long n)
{
    pair p = o == PRODUCT ? factors(n) : terms(n);
    p.y ^= o == DIFFERENCE ? SIGN : 0;
    return p;
}

static void check_pairs(int o)
{
    long n;
    for (n = 0; n < PAIRS; n++) {
        const pair p = drawn(o, n);
        compare(o, p.x, p.y);
        count_sorts(o, p.x, p.y);
    }
}

/* Answers how many sorts came up too seldom. */
static int check_counts(void)
{
    int o, s, seldom = 0;
    for (o = 0; o < OPERATIONS; o++) {
        const int sorts = o == PRODUCT ? PRODUCT_SORT_COUNT : SUM_SORT_COUNT;
        unsigned long long least = PAIRS;
        for (s = 0; s < sorts; s++) {
            least = counts[o][s] < least ? counts[o][s] : least;
            if (counts[o][s] < LEAST) {
                printf("%s: \"%s\" came up only %llu times\n", operations[o].name, (o == PRODUCT ? product_names : sum_names)[s], counts[o][s]);
                seldom++;
            }
        }
        printf("%s: %d pairs of %d sorts, each %llu times or more\n", operations[o].name, PAIRS, sorts, least);
    }
    return seldom;
}

static void print_counts(void)
{
    int o, s;
    for (o = 0; o < OPERATIONS; o++)
        for (s = 0; s < (o == PRODUCT ? PRODUCT_SORT_COUNT : SUM_SORT_COUNT); s++)
            printf("%-10s  %9llu  %s\n", operations[o].name, counts[o][s], (o == PRODUCT ? product_names : sum_names)[s]);
}

/* ---- Edges ---- */

/* Zeros, subnormal numbers, exponent fields with fractions at their ends, infinities and NaNs. */
static void check_edges(void)
{
    static uint64_t edges[1024];
    unsigned long long finite = 0, others = 0;
    size_t count = 0, i, j;
    uint64_t field;
    int o;
    for (field = 0; field <= 2047; field++) {
        if (field % 32 != 0 && field > 2 && field < 2044 && (field < 1020 || field > 1026))
            continue;
        edges[count++] = field << 52;
        edges[count++] = field << 52 | 1;
        edges[count++] = field << 52 | (UNIT / 2 - 1);
        edges[count++] = field << 52 | UNIT / 2;
        edges[count++] = field << 52 | (UNIT - 1);
    }
    for (i = 0; i < count; i++)
        edges[count + i] = edges[i] | SIGN;
    count *= 2;
    for (o = 0; o < OPERATIONS; o++)
        for (i = 0; i < count; i++)
            for (j = 0; j < count; j++)
                if (is_finite(edges[i]) && is_finite(edges[j])) {
                    compare(o, edges[i], edges[j]);
                    check_floats(o, edges[i], edges[j], operations[o].processor(edges[i], edges[j]));
                    finite++;
                } else {
                    check_floats(o, edges[i], edges[j], DEFAULT_NAN);
                    others++;
                }
    printf("edges: %llu pairs of finite numbers, %llu of others\n", finite, others);
}

/* ---- Settings of the processor ---- */

enum { SETTINGS = 16, BATCH = 100000, FLAGS = 0x3f, DENORMALS_ARE_ZERO = 0x40, DIRECTIONS = 0x6000, FLUSH_TO_ZERO = 0x8000 };

/* What is wrong under one setting, or NULL; and how many of the processor's answers changed. */
static const char *check_setting(int o, int number, unsigned setting, long *changed)
{
    static pair pairs[BATCH];
    static uint64_t usual[BATCH], ours[BATCH], on_floats[BATCH], processor[BATCH];
    const unsigned before = _mm_getcsr();
    unsigned after_ours, after_processor;
    int i;
    for (i = 0; i < BATCH; i++) {
        pairs[i] = drawn(o, i);
        usual[i] = operations[o].processor(pairs[i].x, pairs[i].y);
    }
    _mm_setcsr(setting);
    for (i = 0; i < BATCH; i++)
        ours[i] = operations[o].ours(pairs[i].x, pairs[i].y);
    after_ours = _mm_getcsr();
    for (i = 0; i < BATCH; i++)
        processor[i] = operations[o].processor(pairs[i].x, pairs[i].y);
    after_processor = _mm_getcsr();
    for (i = 0; i < BATCH; i++)
        on_floats[i] = operations[o].on_floats(pairs[i].x, pairs[i].y);
    _mm_setcsr(before);
    for (i = 0; i < BATCH; i++) {
        check(o, "in whole numbers, with the processor set,", pairs[i].x, pairs[i].y, ours[i], usual[i]);
        check(o, "on floats, with the processor set,", pairs[i].x, pairs[i].y, on_floats[i], processor[i]);
        *changed += processor[i] != usual[i];
    }
    if (after_ours != setting)
        return "whole numbers raised a flag";
    if (after_processor == setting)
        return "the processor raised no flag";
    if (number == 0 && *changed != 0)
        return "the processor's answers changed though it is set as before";
    if (number != 0 && *changed == 0)
        return "the processor's answers did not change, so that nothing is shown";
    return NULL;
}

/* Answers how many settings were not as they should be. */
static int check_settings(void)
{
    const unsigned usual = _mm_getcsr() & ~(unsigned)(FLAGS | DENORMALS_ARE_ZERO | DIRECTIONS | FLUSH_TO_ZERO);
    int o, n, wrong = 0;
    for (o = 0; o < OPERATIONS; o++) {
        long all = 0, least = BATCH;
        for (n = 0; n < SETTINGS; n++) {
            const unsigned setting = usual | (unsigned)(n & 3) << 13 | ((n & 4) != 0 ? FLUSH_TO_ZERO : 0u) | ((n & 8) != 0 ? DENORMALS_ARE_ZERO : 0u);
            long changed = 0;
            const char *const fault = check_setting(o, n, setting, &changed);
            if (fault != NULL) {
                printf("%s with MXCSR %04x: %s\n", operations[o].name, setting, fault);
                wrong++;
            }
            all += changed;
            least = n != 0 && changed < least ? changed : least;
        }
        printf("%s: %d settings, %d pairs each: the processor's answers changed %ld times, under each but the usual %ld times or more\n",
               operations[o].name, SETTINGS, BATCH, all, least);
    }
    return wrong;
}

/* With the word counts it prints how often each sort came up. */
int main(int count, char **words)
{
    int o, wrong = 0;
    for (o = 0; o < OPERATIONS; o++)
        check_pairs(o);
    wrong += check_counts();
    if (count == 2 && strcmp(words[1], "counts") == 0)
        print_counts();
    check_edges();
    wrong += check_settings();
    printf("%llu differences\n", differences);
    return wrong != 0 || differences != 0;
}
