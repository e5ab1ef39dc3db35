/*
 * Uses an installed Estrenwind as a stranger would: flags from pkg-config, the header by its name alone. Document 01's example; prints the
 * version where it is right.
 */
#include <estrenwind.h>
#include <stdio.h>
#include <string.h>

static const char recipe[] = "010000c004000000000000401d000000000000\n"
                             "10000000000000000000000000000000000000\n"
                             "18010000000000000000000000000000000000\n";
static const char expected[] = "000100c004000000000000401d000000000000\n"
                               "010101c008000000000000401c000000000000\n"
                               "020201fffffffffffffffd0000000000000007\n";

int main(void)
{
    uint64_t words[3];
    uint8_t sheet[sizeof expected - 1];
    const ew_sheet_answer shown = ew_sheet((const uint8_t *)recipe, sizeof recipe - 1, sheet, sizeof sheet);
    const ew_run_answer ran = ew_run((const uint8_t *)recipe, sizeof recipe - 1, (const uint8_t *)"bfe0000000000000", 16, words, 3);
    const ew_double angle = ew_fmod(-7.5, 2), nearest = ew_remainder(-7.5, 2);
    const ew_double_remquo turns = ew_remquo(-7.5, 2);
    if (ew_nearbyint(2.5) != 2 || ew_round(2.5) != 3 || angle.refusal != EW_ACCEPTED || angle.value != -1.5) {
        printf("a rounding is wrong\n");
        return 1;
    }
    if (nearest.refusal != EW_ACCEPTED || nearest.value != 0.5 || turns.refusal != EW_ACCEPTED || turns.value != 0.5 || turns.quotient != -4) {
        printf("a nearest remainder is wrong\n");
        return 1;
    }
    if (ran.refusal != EW_ACCEPTED || ran.kind != EW_WHOLE || ran.word != UINT64_MAX) {
        printf("the run is wrong\n");
        return 1;
    }
    if (shown.refusal != EW_ACCEPTED || shown.steps != 3 || memcmp(sheet, expected, sizeof sheet) != 0) {
        printf("the sheet is wrong\n");
        return 1;
    }
    printf("%s\n", EW_VERSION);
    return 0;
}
