/*
 * Shows what each rounding makes of a dozen texture indices, the ones that renderers disagree about among them.
 * Build and run: make roundings
 */
#include <math.h>
#include <stdio.h>

#include "estrenwind.h"

static const struct {
    double x;
    const char *why;
} indices[] = {
    {127.25, "between two texels"},
    {0.5, "exactly one half"},
    {-0.5, "exactly one half, negative"},
    {1.5, "a half: round and nearbyint agree"},
    {2.5, "a half: they differ"},
    {-2.5, "a half, negative"},
    {0x1.fffffffffffffp-2, "one bit below a half: floor(x + 0.5) is 1"},
    {-0.0, "negative zero keeps its sign"},
    {-0x1p-1074, "the nearest to zero; DAZ would lose it"},
    {-1023.0, "whole already"},
    {INFINITY, "no index at all"},
    {NAN, "not a number"},
};

int main(void)
{
    size_t i;
    printf("%-16s  %24s  %6s %6s %6s %6s %9s  %-9s\n", "bits", "index", "floor", "ceil", "trunc", "round", "nearbyint", "lround");
    for (i = 0; i < sizeof indices / sizeof indices[0]; i++) {
        const double x = indices[i].x;
        const ew_whole whole = ew_lround(x);
        printf("%016llx  %24.17g  %6g %6g %6g %6g %9g  ", (unsigned long long)ew_bits_f64(x), x, ew_floor(x), ew_ceil(x),
               ew_trunc(x), ew_round(x), ew_nearbyint(x));
        if (whole.refusal == EW_ACCEPTED)
            printf("%-9lld", (long long)whole.value);
        else
            printf("refuses %llu", (unsigned long long)whole.refusal);
        printf("  %s\n", indices[i].why);
    }
    return 0;
}
