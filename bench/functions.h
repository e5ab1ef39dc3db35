/*
 * The functions that are timed, one row each: its shape, its name, and the most that it may take as a multiple of glibc's time on
 * texture-like data. Then, of a rounding, the least factor by which it must be faster than musl's (0: nothing is asked), and, of
 * a remainder, the multiple allowed where the exponents lie far apart, in f64. bench.c says what is asked on subnormal numbers and
 * where |x| < |y|.
 *
 * The shapes, which bench.c has loops for: WORD, a pattern to a pattern; WHOLE, to a whole number; PARTS, to two patterns; FREXP, to a
 * pattern and an exponent; SCALE, a pattern and a number to a pattern that may be refused; REMAINDER and STEP, two patterns to such a
 * one; REMQUO, two patterns to such a one and a quotient; CHOICE, two patterns to a pattern. references.sh reads the names from these
 * rows.
 */
#define FUNCTIONS                  \
    WORD(floor, 2.2, 2.0)          \
    WORD(ceil, 2.2, 2.0)           \
    WORD(trunc, 2.0, 0)            \
    WORD(round, 0.95, 2.0)         \
    WORD(nearbyint, 2.4, 2.0)      \
    WHOLE(lround, 1.0, 0)          \
    PARTS(modf, 1.0)               \
    FREXP(frexp, 0.8)              \
    SCALE(ldexp, 0.6)              \
    REMAINDER(fmod, 0.4, 0.3)      \
    REMAINDER(remainder, 0.4, 0.2) \
    REMQUO(remquo, 0.4, 0.2)       \
    STEP(nextafter, 0.5)           \
    CHOICE(fmin, 1.3)              \
    CHOICE(fmax, 1.3)

/* A rounding may take the same multiple and one half more on data of mixed magnitudes, of each library. */
#define MIXED_ALLOWANCE 0.5
