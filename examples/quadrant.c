/*
 * Shows on which side face of a cube map a heading falls, and where on it. remquo takes the nearest quarter turns off, exactly: the low
 * two bits of their number name the face, and what is left, from -45 to 45 degrees, is the angle from its middle.
 * Build and run: make quadrant
 */
#include <math.h>
#include <stdio.h>

#include "estrenwind.h"

static const char *const faces[] = {"front", "right", "back", "left"};

static const struct {
    double heading;
    const char *why;
} headings[] = {
    {10.0, "right of the front's middle"},
    {350.0, "left of it"},
    {-100.0, "one quarter back is three on"},
    {45.0, "on an edge: no quarter, since 0 is even"},
    {135.0, "on the next: two quarters, not one"},
    {3690.25, "ten turns and a quarter"},
    {-0.0, "a zero keeps its sign"},
    {INFINITY, "no heading at all"},
};

int main(void)
{
    size_t i;
    printf("%8s  %8s  %-5s  %7s\n", "heading", "quotient", "face", "angle");
    for (i = 0; i < sizeof headings / sizeof headings[0]; i++) {
        const ew_double_remquo answer = ew_remquo(headings[i].heading, 90);
        if (answer.refusal != EW_ACCEPTED) {
            printf("%8g  refuses %u  %s\n", headings[i].heading, (unsigned)answer.refusal, headings[i].why);
            continue;
        }
        /* The quotient is that of whole quarters modulo 8, so that its low two bits are right below zero too. */
        printf("%8g  %8d  %-5s  %7g  %s\n", headings[i].heading, (int)answer.quotient, faces[(uint32_t)answer.quotient & 3], answer.value,
               headings[i].why);
    }
    return 0;
}
