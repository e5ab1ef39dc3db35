/*
 * Sums, differences and products of doubles, which bench.c times beside the processor's own operation, one instruction in a function that is called
 * (host.c), and beside the language's own operation on floats, refusal of what is not finite included. The library has them as steps of recipes
 * alone: what the steps call is in the archive for cross checks.
 */
#include "../tests/c/cross_check.h"
#include "host.h"

/* ---- rows ---- */

/* What stands in the columns of such a row; there are no others. */
enum { ON_FLOATS = HEADERS, HOST = GLIBC, ARITHMETIC_COLUMNS };

/* What is asked: at most so many times the processor's time on normal numbers, texture-like and of mixed magnitudes. */
static const double BESIDE_HOST = 6.0;

#define OPERATION(name)                                                                           \
    {#name, ARITHMETIC, 0, 0, 0, 0,                                                               \
     {[OURS] = {.run = choice_patterns64, .function = (anything *)ew_check_##name},               \
      [ON_FLOATS] = {.run = choice_patterns64, .function = (anything *)ew_check_float_##name},    \
      [HOST] = {.run = pair_values64, .function = (anything *)host_##name}}},
#define OPERATIONS        \
    OPERATION(sum)        \
    OPERATION(difference) \
    OPERATION(product)

/* And with subnormal numbers. A product with one takes many processors long: there it may not take longer. Of two the product is a zero, which
 * need not take long: there the limit is that of normal numbers. */
static const struct {
    const char *name, *what;
    int set;
    double limit;
} arithmetic_cases[] = {
    {"sum", "two subnormal", SUBNORMAL, 6.0},
    {"sum", "one subnormal", TO_SUBNORMAL, 6.0},
    {"difference", "two subnormal", SUBNORMAL, 6.0},
    {"difference", "one subnormal", TO_SUBNORMAL, 6.0},
    {"product", "subnormal factor", FACTOR, 1.0},
    {"product", "subnormal answer", LOW, 1.0},
    {"product", "both", TO_SUBNORMAL, 1.0},
    {"product", "two subnormal", SUBNORMAL, 6.0},
};

enum { ARITHMETIC_CASES = sizeof arithmetic_cases / sizeof arithmetic_cases[0] };
