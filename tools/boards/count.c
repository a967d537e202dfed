/* Counts instructions and stack of the library's calls on an emulated Cortex-M4, for tools/board-bench.
 *
 * The emulator gives each instruction a nanosecond (-icount shift=0), and SysTick counts 25 million times in a second: 40 instructions are one count.
 * Means are of a stream that goes round through a block, a ready, a new priority and a tick, a quarter of a tick apart; every event of it is
 * accepted. Every other thread is round robin. The largest numbers are of it and of what else can happen: creating, making ready and ending one
 * thread after the other, a new priority that takes the first thread to the tail or the last one to the head, ticks that end a slice, a refusal;
 * under both policies of a sheet. A resume, which clears all rows, is counted apart.
 *
 * Prints a line for each size: partitions, threads, window; instructions of event, mean and most, of an event of a run, mean and most, of the test of
 * a state, mean and most, and of a resume; bytes of stack of start, event, run, decision and remaining. */
#include "../../examples/board/board.h"
#include "saplingloft.h"

void *memcpy(void *to, const void *from, size_t length);
void *memset(void *to, int byte, size_t length);

enum { STREAM = 400, PER_COUNT = 40, TICK = 1000, PAINT = 0x5AA5C33C };

static struct saplingloft_state state;
static uint32_t history[SAPLINGLOFT_HISTORY];
static size_t length;
static uint8_t events[STREAM * SAPLINGLOFT_RECORD], lines[sizeof events], sheet[SAPLINGLOFT_SHEET];
static size_t sheet_length;
extern uint32_t stack_top[], cleared[], cleared_end[];

/* ---- Numbers out */

static void print_number(uint32_t number)
{
    char text[12] = "          ";
    int at = 10;
    do {
        text[--at] = (char)('0' + number % 10);
        number /= 10;
    } while (number != 0);
    print(text + at);
}

static void stop(const char *why)
{
    print(why);
    print("\n");
    leave(0);
}

/* ---- What is counted: each call on what stands above */

static size_t place; /* the event among the events */

static void nothing(void) {}
static void start(void)
{
    if (saplingloft_start(&state, history, length, sheet, sheet_length) != SAPLINGLOFT_ACCEPTED)
        stop("start is refused");
}
static enum saplingloft_refusal answered;
static void event(void) { answered = saplingloft_event(&state, history, length, events + place, SAPLINGLOFT_RECORD).refusal; }
static void run(void) { answered = saplingloft_run(&state, history, length, events, sizeof events, lines, sizeof lines).refusal; }
static void run_one(void) { answered = saplingloft_run(&state, history, length, events + place, SAPLINGLOFT_RECORD, lines, sizeof lines).refusal; }
static void run_none(void) { answered = saplingloft_run(&state, history, length, events, 0, lines, 0).refusal; }
static void decision(void) { answered = saplingloft_decision(&state, history, length).refusal; }
static void remaining(void) { answered = saplingloft_remaining(&state, history, length, 0).refusal; }

/* Instructions of a call, in counts of the clock, with the way to it; an empty one has less than one. */
static uint32_t timed(void (*call)(void))
{
    uint32_t before = SYSTICK_CURRENT;
    call();
    return (before - SYSTICK_CURRENT) & 0xFFFFFF;
}

/* Bytes of stack that a call uses: what lies below this frame is painted, and what is no longer painted afterwards was used. */
static __attribute__((noinline)) uint32_t used_by(void (*call)(void))
{
    uint32_t *here;
    __asm__ volatile("mov %0, sp" : "=r"(here));
    for (volatile uint32_t *word = cleared_end; word < here; word++)
        *word = PAINT;
    call();
    volatile uint32_t *word = cleared_end;
    while (*word == PAINT)
        word++;
    return (uint32_t)(here - word) * 4;
}

/* In counts of the clock, and in bytes. */
struct figures {
    uint32_t events, event_sum, event_most, run_sum, run_most, test_sum, test_most, resume;
    uint32_t stack_start, stack_event, stack_run, stack_decision, stack_remaining;
};
static struct figures now;

static void most(uint32_t *kept, uint32_t figure)
{
    if (figure > *kept)
        *kept = figure;
}

/* ---- The sheet and the stream */

static void add_record(char letter, uint32_t number, uint32_t value)
{
    uint8_t *record = sheet + sheet_length;
    record[0] = (uint8_t)letter, record[1] = record[4] = ' ', record[11] = '\n';
    record[2] = (uint8_t)('0' + number / 10), record[3] = (uint8_t)('0' + number % 10);
    for (int at = 10; at > 4; at--, value /= 10)
        record[at] = (uint8_t)('0' + value % 10);
    sheet_length += SAPLINGLOFT_RECORD;
}

static void make_sheet(uint32_t partitions, uint32_t window, uint32_t policy)
{
    sheet_length = 0;
    add_record('W', 0, window);
    add_record('C', 0, TICK);
    add_record('P', 0, policy);
    add_record('M', 0, 0);
    for (uint32_t p = 0; p < partitions; p++)
        add_record('S', p, p == 0 ? 100 - 100 / partitions * (partitions - 1) : 100 / partitions);
    length = partitions * window;
}

static uint32_t stamp, phase;

static void put(size_t at, enum saplingloft_kind kind, uint32_t thread, uint32_t partition, uint32_t priority, uint32_t mask)
{
    uint8_t policy = kind == SAPLINGLOFT_KIND_CREATE && thread % 2 == 0 ? SAPLINGLOFT_POLICY_ROUND_ROBIN : SAPLINGLOFT_POLICY_FIRST_IN_FIRST_OUT;
    struct saplingloft_record record = { kind, (uint8_t)thread, (uint8_t)partition, (uint8_t)priority, stamp, (uint8_t)mask, policy };
    saplingloft_encode(&record, events + at * SAPLINGLOFT_RECORD);
}

static void make_stream(uint32_t threads)
{
    for (size_t at = 0; at < STREAM; at++, phase++) {
        uint32_t thread = phase / 4 * 7 % threads;
        stamp += TICK / 4;
        switch (phase % 4) {
        case 0: put(at, SAPLINGLOFT_KIND_BLOCK, thread, 0, 0, 0); break;
        case 1: put(at, SAPLINGLOFT_KIND_READY, thread, 0, 0, 0); break;
        case 2: put(at, SAPLINGLOFT_KIND_SET_PRIORITY, thread, 0, phase * 37 % 200 + 1, 0); break;
        default: put(at, SAPLINGLOFT_KIND_TICK, 0, 0, 0, 0);
        }
    }
}

/* The state and the history as they were before a call that is repeated. */
static struct saplingloft_state given;
static uint32_t rows[SAPLINGLOFT_HISTORY];

static void keep(void)
{
    given = state;
    memcpy(rows, history, length * sizeof *rows);
}

static void put_back(void)
{
    state = given;
    memcpy(history, rows, length * sizeof *rows);
}

enum part { STREAM_EVENT, OTHER_EVENT, RESUME_EVENT };

/* The event at the place: in a run, beside a run of none; painted, twice; and at last by itself. What is asked afterwards leaves all as it is. */
static void tell(enum saplingloft_refusal wanted, enum part part)
{
    keep();
    uint32_t none = timed(run_none), in_run = timed(run_one) - none;
    put_back();
    most(&now.stack_run, used_by(run_one));
    put_back();
    most(&now.stack_event, used_by(event));
    put_back();
    uint32_t alone = timed(event);
    if (answered != wanted)
        stop("an event has another answer than it should");
    uint32_t test = timed(remaining);
    most(&now.stack_decision, used_by(decision));
    most(&now.stack_remaining, used_by(remaining));
    if (part == RESUME_EVENT) {
        most(&now.resume, alone);
        return;
    }
    most(&now.event_most, alone);
    most(&now.run_most, in_run);
    most(&now.test_most, test);
    if (part == STREAM_EVENT)
        now.events++, now.event_sum += alone, now.test_sum += test;
}

static void tell_of(enum saplingloft_kind kind, uint32_t thread, uint32_t partition, uint32_t priority, uint32_t mask,
                    enum saplingloft_refusal wanted)
{
    place = 0;
    put(0, kind, thread, partition, priority, mask);
    tell(wanted, kind == SAPLINGLOFT_KIND_RESUME ? RESUME_EVENT : OTHER_EVENT);
}

/* Thread 0 stands first in the ready queue. Raised above all others it goes to the tail, and lowered a little to the head. It still has the highest
 * priority: after a slice of ticks it goes to the tail, and lowered below all others to the head, where it was. The ticks have no length, so that
 * nobody's budget is used. */
static void move_about(uint32_t threads)
{
    tell_of(SAPLINGLOFT_KIND_SET_PRIORITY, 0, 0, 255, 0, SAPLINGLOFT_ACCEPTED);
    if (state.queue[threads - 1] != 0)
        stop("a raised thread is not at the tail");
    tell_of(SAPLINGLOFT_KIND_SET_PRIORITY, 0, 0, 254, 0, SAPLINGLOFT_ACCEPTED);
    if (state.queue[0] != 0)
        stop("a lowered thread is not at the head");
    for (uint32_t i = 0; i < SAPLINGLOFT_SLICE; i++)
        tell_of(SAPLINGLOFT_KIND_TICK, 0, 0, 0, 0, SAPLINGLOFT_ACCEPTED);
    if (state.queue[threads - 1] != 0)
        stop("a slice did not end");
    tell_of(SAPLINGLOFT_KIND_SET_PRIORITY, 0, 0, 1, 0, SAPLINGLOFT_ACCEPTED);
}

static void size(uint32_t partitions, uint32_t threads, uint32_t window, uint32_t policy)
{
    stamp = phase = 0;
    make_sheet(partitions, window, policy);
    most(&now.stack_start, used_by(start));
    for (uint32_t t = 0; t < threads; t++) {
        tell_of(SAPLINGLOFT_KIND_CREATE, t, t % partitions, t * 13 % 200 + 1, 255, SAPLINGLOFT_ACCEPTED);
        tell_of(SAPLINGLOFT_KIND_READY, t, 0, 0, 0, SAPLINGLOFT_ACCEPTED);
        tell_of(SAPLINGLOFT_KIND_READY, t, 0, 0, 0, SAPLINGLOFT_REFUSED_READINESS);
    }
    move_about(threads);
    make_stream(threads);
    run();
    make_stream(threads);
    for (place = 0; place < 80 * SAPLINGLOFT_RECORD; place += SAPLINGLOFT_RECORD)
        tell(SAPLINGLOFT_ACCEPTED, STREAM_EVENT);
    stamp -= 320 * (TICK / 4), phase -= 320; /* eighty of four hundred were told */
    make_stream(threads);
    now.run_sum += timed(run);
    for (size_t at = 0; at < sizeof lines; at += SAPLINGLOFT_RECORD)
        if (lines[at] != '0' || lines[at + 1] != '0')
            stop("an event of the run is refused");
    now.run_sum -= timed(run_none);
    tell_of(SAPLINGLOFT_KIND_RESUME, 0, 0, 0, 0, SAPLINGLOFT_ACCEPTED);
    for (uint32_t t = 0; t < threads; t++)
        tell_of(SAPLINGLOFT_KIND_END, t, 0, 0, 0, SAPLINGLOFT_ACCEPTED);
}

static void measure(uint32_t partitions, uint32_t threads, uint32_t window)
{
    memset(&now, 0, sizeof now);
    for (uint32_t policy = 0; policy < 2; policy++)
        size(partitions, threads, window, policy);
    const uint32_t figures[] = {
        partitions, threads, window,
        PER_COUNT * now.event_sum / now.events, PER_COUNT * now.event_most,
        PER_COUNT * now.run_sum / (2 * STREAM), PER_COUNT * now.run_most,
        PER_COUNT * now.test_sum / now.events, PER_COUNT * now.test_most,
        PER_COUNT * now.resume,
        now.stack_start, now.stack_event, now.stack_run, now.stack_decision, now.stack_remaining,
    };
    for (size_t i = 0; i < sizeof figures / sizeof *figures; i++) {
        print_number(figures[i]);
        print(" ");
    }
    print("\n");
}

int main(void)
{
    SYSTICK_RELOAD = 0xFFFFFF;
    SYSTICK_CURRENT = 0;
    SYSTICK_CONTROL = 5; /* no interrupts */
    while (SYSTICK_CURRENT == 0) {}
    if (timed(nothing) > 1 || used_by(nothing) != 0)
        stop("an empty call is not empty");
    measure(1, 1, 4);
    measure(4, 8, 10);
    measure(4, 8, 100);
    measure(16, 64, 400);
    leave(1);
}

static void reset(void)
{
    for (uint32_t *word = cleared; word != cleared_end; word++)
        *word = 0;
    main();
}

static void fault(void) { stop("a fault"); }

__attribute__((section(".vectors"), used)) static const void *const vectors[7] = { stack_top, reset, fault, fault, fault, fault, fault };
