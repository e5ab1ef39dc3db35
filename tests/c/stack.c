/*
 * Measures the deepest stack of ew_run, ew_run_lines, ew_sheet and ew_explain: each call runs on a stack of its own that was filled with a pattern, on a recipe of
 * EW_MOST_STEPS steps with EW_MOST_INPUTS inputs and every opcode, and what no longer holds the pattern was used. Fails above what the
 * header says is enough.
 */
#include <pthread.h>
#include <stdio.h>
#include <stdlib.h>
#include <string.h>

#include "estrenwind.h"

enum { STACK = 1 << 20, LIMIT = 12 * 1024, PATTERN = 0xa5 };

static char text[EW_MOST_TEXT + 1], frame[EW_MOST_FRAME + 1];
static char lines[EW_MOST_FRAME + 3]; /* the frame, and an empty line, which is refused */
static uint64_t words[EW_MOST_STEPS];
static uint8_t answers[2 * EW_ANSWER_LINE];
static uint8_t sheet[EW_MOST_SHEET];
static ew_run_answer answer;
static ew_lines_answer answered;
static ew_sheet_answer shown;
static ew_explain_answer explained;
static unsigned char *top; /* where a caller's stack ends and the call's begins */

/* Fifteen double inputs and a whole one, two constants, then every other opcode in turn. */
static void write_recipe(void)
{
    enum { WHOLE_INPUT = EW_MOST_INPUTS - 1, CONSTANT = EW_MOST_INPUTS, WHOLE_CONSTANT, FIRST };
    static const struct {
        unsigned opcode, a, b;
    } steps[] = {
        {0x10, 0, 0}, {0x11, 1, 0}, {0x12, 2, 0}, {0x13, 3, 0}, {0x14, 4, 0}, {0x15, 5, 0}, {0x16, 6, 0}, {0x17, 7, 0}, {0x18, 8, 0},
        {0x20, 9, 10}, {0x21, 11, 12}, {0x22, 13, CONSTANT}, {0x23, 14, WHOLE_CONSTANT}, {0x24, 12, CONSTANT},
        {0x30, WHOLE_INPUT, WHOLE_CONSTANT}, {0x31, WHOLE_INPUT, WHOLE_CONSTANT}, {0x32, WHOLE_INPUT, 0},
        {0x40, 0, 1}, {0x41, 2, CONSTANT}, {0x42, 3, 4},
    };
    int i;
    for (i = 0; i < WHOLE_INPUT; i++) {
        sprintf(text + i * EW_RECIPE_LINE, "010000c0b0000000000000%s\n", "40b0000000000000");
        sprintf(frame + i * EW_FRAME_INPUT, "%016llx", (unsigned long long)ew_bits_f64(i * 1.25 - 8));
    }
    sprintf(text + WHOLE_INPUT * EW_RECIPE_LINE, "020000%016x%016x\n", 0u, 64u);
    sprintf(frame + WHOLE_INPUT * EW_FRAME_INPUT, "%016x", 5u);
    sprintf(text + CONSTANT * EW_RECIPE_LINE, "030000%016llx%016x\n", (unsigned long long)ew_bits_f64(1e-300), 0u);
    sprintf(text + WHOLE_CONSTANT * EW_RECIPE_LINE, "040000%016llx%016x\n", (unsigned long long)-1070, 0u);
    for (i = FIRST; i < EW_MOST_STEPS; i++) {
        const size_t k = (size_t)(i - FIRST) % (sizeof steps / sizeof steps[0]);
        sprintf(text + i * EW_RECIPE_LINE, "%02x%02x%02x%032x\n", steps[k].opcode, steps[k].a, steps[k].b, 0u);
    }
}

static void *run(void *unused)
{
    top = __builtin_frame_address(0);
    answer = ew_run((const uint8_t *)text, EW_MOST_TEXT, (const uint8_t *)frame, EW_MOST_FRAME, words, EW_MOST_STEPS);
    return unused;
}

static void *run_lines(void *unused)
{
    top = __builtin_frame_address(0);
    answered = ew_run_lines((const uint8_t *)text, EW_MOST_TEXT, (const uint8_t *)lines, EW_MOST_FRAME + 2, answers, sizeof answers);
    return unused;
}

static void *show(void *unused)
{
    top = __builtin_frame_address(0);
    shown = ew_sheet((const uint8_t *)text, EW_MOST_TEXT, sheet, EW_MOST_SHEET);
    return unused;
}

static void *explain(void *unused)
{
    top = __builtin_frame_address(0);
    explained = ew_explain((const uint8_t *)text, EW_MOST_TEXT);
    return unused;
}

/* The bytes of a painted stack that a call used. */
static long used_by(void *(*body)(void *))
{
    pthread_attr_t attributes;
    pthread_t thread;
    unsigned char *stack = aligned_alloc(4096, STACK);
    long used, untouched = 0;
    if (stack == NULL)
        exit(1);
    memset(stack, PATTERN, STACK);
    pthread_attr_init(&attributes);
    if (pthread_attr_setstack(&attributes, stack, STACK) != 0 || pthread_create(&thread, &attributes, body, NULL) != 0) {
        fprintf(stderr, "no thread on a stack of our own\n");
        exit(1);
    }
    pthread_join(thread, NULL);
    while (untouched < STACK && stack[untouched] == PATTERN)
        untouched++;
    used = top - (stack + untouched);
    free(stack);
    return used;
}

/* Last steps that are turned down: the remainder of an input by itself, whose range holds zero; 1e300, which the step before is, by itself. */
static const struct {
    const char *step;
    uint64_t reason;
} last_steps[] = {{"220000", EW_REASON_DIVISOR_HOLDS_ZERO}, {"427e7e", EW_REASON_ANSWER_LOW_OVERFLOWS}};

int main(void)
{
    long bytes, lines_bytes, sheet_bytes, explain_bytes;
    size_t i;
    write_recipe();
    sprintf(lines, "%s\n\n", frame);
    /* Once before they count: at its first call the dynamic linker binds memcpy, and takes some 3 KiB of the caller's stack for that. */
    run(NULL);
    run_lines(NULL);
    show(NULL);
    explain(NULL);
    if (answer.refusal != EW_ACCEPTED || shown.refusal != EW_ACCEPTED || explained.reason != EW_REASON_NONE) {
        printf("the recipe was refused: %llu at %llu by the run, %llu at %llu by the sheet\n", (unsigned long long)answer.refusal,
               (unsigned long long)answer.place, (unsigned long long)shown.refusal, (unsigned long long)shown.place);
        return 1;
    }
    if (answered.refusal != EW_ACCEPTED || answered.written != EW_ANSWER_LINE + 7) {
        printf("the lines were refused: %llu at %llu\n", (unsigned long long)answered.refusal, (unsigned long long)answered.place);
        return 1;
    }
    bytes = used_by(run);
    lines_bytes = used_by(run_lines);
    sheet_bytes = used_by(show);
    explain_bytes = used_by(explain);
    /* And where a reason is told of the last step. */
    for (i = 0; i < sizeof last_steps / sizeof last_steps[0]; i++) {
        long last_bytes;
        sprintf(text + (EW_MOST_STEPS - 2) * EW_RECIPE_LINE, "030000%016llx%016x\n%s%032x\n", (unsigned long long)ew_bits_f64(1e300), 0u,
                last_steps[i].step, 0u);
        last_bytes = used_by(explain);
        if (explained.reason != last_steps[i].reason || explained.step != EW_MOST_STEPS - 1) {
            printf("the last step was not explained\n");
            return 1;
        }
        if (last_bytes > explain_bytes)
            explain_bytes = last_bytes;
    }
    printf("on %d steps ew_run used %ld bytes of stack, ew_run_lines %ld, ew_sheet %ld and ew_explain %ld\n", EW_MOST_STEPS, bytes, lines_bytes,
           sheet_bytes, explain_bytes);
    if (bytes > LIMIT || lines_bytes > LIMIT || sheet_bytes > LIMIT || explain_bytes > LIMIT) {
        printf("more than %d\n", LIMIT);
        return 1;
    }
    return 0;
}
