/* The stack that each call takes at most, measured by running: bytes below the caller's frame, with the call's arguments and its return address.
 *
 * A call is made on a stack of its own that was painted before, and what is no longer painted afterwards was used; what an empty function uses
 * there is taken off. The states are a small one and one of the largest sheet, under both policies of a sheet, whose edition is not stated or is 2,
 * with threads of both policies; the events are of every kind, accepted and refused. Each call is made once before it is measured, because the first
 * one may have the system's linker look for a function. */
#define _XOPEN_SOURCE 700 /* ucontext.h */
#include "saplingloft.h"

#include <stdio.h>
#include <stdlib.h>
#include <string.h>
#include <ucontext.h>

static uint8_t stack[1 << 16];
static struct saplingloft_state state;
static struct saplingloft_settings settings;
static uint32_t history[SAPLINGLOFT_HISTORY];
static size_t history_length;
static uint8_t sheet[SAPLINGLOFT_SHEET], events[3 * SAPLINGLOFT_RECORD], lines[sizeof events];
static size_t sheet_length, event_length;

/* ---- the calls, each on what stands above */

static void empty(void) {}
static void start(void) { saplingloft_start(&state, history, history_length, sheet, sheet_length); }
static void event(void) { saplingloft_event(&state, history, history_length, events, event_length); }
static void run(void) { saplingloft_run(&state, history, history_length, events, sizeof events, lines, sizeof lines); }
static void decision(void) { saplingloft_decision(&state, history, history_length); }
static void remaining(void) { saplingloft_remaining(&state, history, history_length, 0); }
static void read_sheet(void) { saplingloft_read_sheet(&settings, sheet, sheet_length); }
static void write_sheet(void) { saplingloft_write_sheet(&settings, sheet, sheet_length); }

enum { START, EVENT, RUN, DECISION, REMAINING, READ_SHEET, WRITE_SHEET, CALLS };

static struct {
    const char *name;
    void (*call)(void);
    size_t most;
} calls[CALLS] = {
    { "start", start, 0 },           { "event", event, 0 },           { "run", run, 0 },
    { "decision", decision, 0 },     { "remaining", remaining, 0 },   { "read_sheet", read_sheet, 0 },
    { "write_sheet", write_sheet, 0 },
};

/* ---- painted and measured */

static size_t used_by(void (*call)(void), int paint)
{
    static ucontext_t here, there;
    memset(stack, paint, sizeof stack);
    if (getcontext(&there) != 0)
        exit(1);
    there.uc_stack.ss_sp = stack;
    there.uc_stack.ss_size = sizeof stack;
    there.uc_link = &here;
    makecontext(&there, call, 0);
    if (swapcontext(&here, &there) != 0)
        exit(1);
    size_t untouched = 0;
    while (untouched < sizeof stack && stack[untouched] == paint)
        untouched++;
    return sizeof stack - untouched;
}

/* Makes a call and keeps its figure if it is the largest. The call is repeated on what it was given, with two paints, in case one of them is a byte
 * that it writes. */
static void measure(int number)
{
    static uint32_t rows[SAPLINGLOFT_HISTORY];
    struct saplingloft_state given = state;
    memcpy(rows, history, sizeof rows);
    calls[number].call();
    for (int i = 0; i < 2; i++) {
        int paint = i == 0 ? 0xA5 : 0x5A;
        state = given;
        memcpy(history, rows, sizeof rows);
        size_t used = used_by(calls[number].call, paint) - used_by(empty, paint);
        if (used > calls[number].most)
            calls[number].most = used;
    }
}

/* ---- what is measured */

/* An event as it comes, and in a run before two cut records; then the doors that only look. Three of four threads are created round robin. */
static void tell(enum saplingloft_kind kind, int thread, int partition, int priority, uint32_t stamp, int mask)
{
    int policy = kind == SAPLINGLOFT_KIND_CREATE && thread % 4 != 1 ? SAPLINGLOFT_POLICY_ROUND_ROBIN : SAPLINGLOFT_POLICY_FIRST_IN_FIRST_OUT;
    struct saplingloft_record record = { kind, thread, partition, priority, stamp, mask, policy };
    memset(events, 0, sizeof events);
    saplingloft_encode(&record, events);
    event_length = SAPLINGLOFT_RECORD;
    struct saplingloft_state given = state;
    static uint32_t rows[SAPLINGLOFT_HISTORY];
    memcpy(rows, history, sizeof rows);
    measure(RUN);
    state = given;
    memcpy(history, rows, sizeof rows);
    measure(EVENT);
    measure(DECISION);
    measure(REMAINING);
}

static void damaged(uint8_t *byte)
{
    *byte ^= 128;
    tell(SAPLINGLOFT_KIND_TICK, 0, 0, 0, state.stamp, 0);
    *byte ^= 128;
}

static void scenario(int partitions, int threads, int window, int policy, const char *edition)
{
    char text[SAPLINGLOFT_SHEET + 1];
    sheet_length = (size_t)sprintf(text, "W 00 %06d\nC 00 001000\nP 00 %06d\nM 00 000000\n%s", window, policy, edition);
    for (int p = 0; p < partitions; p++)
        sheet_length += (size_t)sprintf(text + sheet_length, "S %02d %06d\n", p, p == 0 ? 100 - 6 * (partitions - 1) : 6);
    memcpy(sheet, text, sheet_length);
    history_length = (size_t)partitions * (size_t)window;
    measure(READ_SHEET);
    measure(WRITE_SHEET);
    measure(START);

    uint32_t stamp = 0;
    for (int t = 0; t < threads; t++) {
        tell(SAPLINGLOFT_KIND_CREATE, t, t % partitions, 10 + t % 5, stamp, 1);
        tell(SAPLINGLOFT_KIND_READY, t, 0, 0, stamp, 0);
    }
    for (int i = 0; i < 2 * threads; i++) {
        int t = i % threads;
        tell(SAPLINGLOFT_KIND_TICK, 0, 0, 0, stamp += 500, 0);
        tell(SAPLINGLOFT_KIND_BLOCK, t, 0, 0, stamp += 100, 0);
        tell(SAPLINGLOFT_KIND_READY, t, 0, 0, stamp += 100, 0);
        tell(SAPLINGLOFT_KIND_SET_PRIORITY, t, 0, i % 256, stamp += 100, 0);
        tell(SAPLINGLOFT_KIND_READY, t, 0, 0, stamp, 0);        /* 13 */
        tell(SAPLINGLOFT_KIND_CREATE, t, 0, 0, stamp, 1);       /* 11 */
        tell(SAPLINGLOFT_KIND_TICK, 0, 0, 0, stamp + 3000, 0);  /* 10 */
        tell(SAPLINGLOFT_KIND_TICK, 1, 0, 0, stamp, 0);         /* 9 */
    }
    for (int i = 0; i < SAPLINGLOFT_SLICE; i++)                 /* a slice ends */
        tell(SAPLINGLOFT_KIND_TICK, 0, 0, 0, stamp += 500, 0);
    for (size_t at = 0; at < sizeof state; at += 4)
        damaged((uint8_t *)&state + at);
    for (size_t at = 0; at < history_length; at += history_length / 16 + 1)
        damaged((uint8_t *)&history[at]);
    for (int t = 0; t < threads; t++)
        tell(SAPLINGLOFT_KIND_END, t, 0, 0, stamp, 0);
    tell(SAPLINGLOFT_KIND_CREATE, 0, partitions, 0, stamp, 1);  /* 12 */
    tell(SAPLINGLOFT_KIND_RESUME, 0, 0, 0, stamp, 0);
    history_length--;                                           /* 7 */
    measure(START);
    measure(EVENT);
    sheet[sheet_length - 1] = 0;                                /* 2 */
    measure(START);
    measure(READ_SHEET);
}

int main(void)
{
    for (int policy = 0; policy < 2; policy++)
        for (int stated = 0; stated < 2; stated++) {
            const char *edition = stated ? "E 00 000002\n" : "";
            scenario(1, 1, 2, policy, edition);
            scenario(16, 64, 400, policy, edition);
        }
    int wrong = 0;
    for (int i = 0; i < CALLS; i++) {
        printf("%-12s %5zu\n", calls[i].name, calls[i].most);
        if (calls[i].most > SAPLINGLOFT_STACK) {
            printf("the header says at most %d\n", SAPLINGLOFT_STACK);
            wrong = 1;
        }
    }
    return wrong;
}
