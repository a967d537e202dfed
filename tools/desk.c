/* The desk program in C, over the header's calls, for comparing.
 *
 *     desk SHEET < EVENTS
 *
 * Prints the lines of runs of a few records. The same events go to a second state one by one, with decision and remaining asked after each: all
 * have to agree, or it says what does not and ends with 1. */
#include "saplingloft.h"

#include <stdio.h>
#include <stdlib.h>
#include <string.h>

enum { FEW = 7 };

static uint32_t history[2][SAPLINGLOFT_HISTORY];

static void agree(int fine, const char *what)
{
    if (!fine) {
        printf("desk: %s\n", what);
        exit(1);
    }
}

static void text(struct saplingloft_answer answer, char line[SAPLINGLOFT_RECORD + 1])
{
    sprintf(line, "%02u %u %02u %03u\n", answer.refusal % 100u, answer.mode % 10u, answer.partition % 100u, answer.thread);
}

/* One event, and what the doors that only look say after it. */
static void single(struct saplingloft_state *state, const uint8_t *event, size_t length, const uint8_t *wanted)
{
    char line[SAPLINGLOFT_RECORD + 1];
    struct saplingloft_answer answer = saplingloft_event(state, history[1], SAPLINGLOFT_HISTORY, event, length);
    text(answer, line);
    agree(memcmp(line, wanted, SAPLINGLOFT_RECORD) == 0, "event and run differ");
    if (answer.refusal == SAPLINGLOFT_ACCEPTED) {
        text(saplingloft_decision(state, history[1], SAPLINGLOFT_HISTORY), line);
        agree(memcmp(line, wanted, SAPLINGLOFT_RECORD) == 0, "decision and event differ");
    }
    for (uint32_t p = 0; p < state->settings.count; p++) {
        const struct saplingloft_settings *s = &state->settings;
        int32_t budget = (int32_t)(s->shares[p] * s->window * (s->tick / 100));
        struct saplingloft_balance balance = saplingloft_remaining(state, history[1], SAPLINGLOFT_HISTORY, p);
        agree(balance.refusal == SAPLINGLOFT_ACCEPTED && balance.remaining == budget - (int32_t)state->used[p], "remaining is wrong");
    }
}

int main(int count, char **words)
{
    uint8_t sheet[SAPLINGLOFT_SHEET + 1], events[FEW * SAPLINGLOFT_RECORD], lines[sizeof events]; /* a longer sheet is refused too */
    struct saplingloft_state states[2];
    FILE *file = count == 2 ? fopen(words[1], "rb") : NULL;
    agree(file != NULL, "the sheet cannot be read");
    size_t length = fread(sheet, 1, sizeof sheet, file);
    fclose(file);
    for (int i = 0; i < 2; i++) {
        enum saplingloft_refusal refusal = saplingloft_start(&states[i], history[i], SAPLINGLOFT_HISTORY, sheet, length);
        if (refusal != SAPLINGLOFT_ACCEPTED) {
            printf("%02u 0 00 000\n", refusal % 100u);
            return 0;
        }
    }
    while ((length = fread(events, 1, sizeof events, stdin)) > 0) {
        struct saplingloft_progress done =
            saplingloft_run(&states[0], history[0], SAPLINGLOFT_HISTORY, events, length, lines, sizeof lines);
        agree(done.refusal == SAPLINGLOFT_ACCEPTED && done.taken == (length + 11) / 12, "a run's answer");
        fwrite(lines, SAPLINGLOFT_RECORD, done.taken, stdout);
        for (size_t at = 0; at < length; at += SAPLINGLOFT_RECORD)
            single(&states[1], events + at, length - at < SAPLINGLOFT_RECORD ? length - at : SAPLINGLOFT_RECORD, lines + at);
        agree(memcmp(&states[0], &states[1], sizeof states[0]) == 0 && memcmp(history[0], history[1], sizeof history[0]) == 0, "the states differ");
    }
    return 0;
}
