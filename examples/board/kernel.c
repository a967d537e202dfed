/* A small kernel around the proved scheduler. The library decides; what a kernel has to do for it is all in this file:
 *
 * - tell:     an event goes to the scheduler, on the state where it lies, and the thread that the answer names is switched to;
 * - refused:  what to do where the scheduler refuses an event;
 * - now:      stamps, the wrap of the counter, and why a tick that waits is told first;
 * - take_up:  after a reset the saved state is taken up again, if it is of one piece.
 *
 * Everything here runs in the clock's interrupt or in a job's call of the kernel. Both have one priority, so neither interrupts the other, and
 * nothing has to be locked. Both run on the main stack: so the 1.5 KB that a call of the library may take are there once, and not for each thread. */
#include "board.h"
#include "kernel.h"
#include "saplingloft.h"

enum { HISTORY = JOBS * WINDOW, STACK = 128, IDLE = THREADS };

/* What the scheduler keeps. It lies in memory that start.c does not clear, so that it is still there after a reset. Beside it stands what it does not
 * tell itself. A kit that may lose its power writes a copy of this to flash, with a checksum. */
static __attribute__((section(".noinit"))) struct {
    uint32_t version;
    uint32_t size;
    struct saplingloft_state state;
    uint32_t history[HISTORY];
} kept;

/* A thread that does not run: its stack, with its registers on top. The switch below knows that `top` comes first. */
struct thread {
    uint32_t *top;
    uint32_t stack[STACK] __attribute__((aligned(8)));
};
static struct thread threads[THREADS + 1]; /* the last one idles */
struct thread *running, *chosen;           /* the one that runs, and the one that the scheduler has chosen */

static volatile uint32_t ticks;    /* since the start */
static uint32_t tick_stamp;        /* the counter's reading at the last tick */
static uint32_t due[THREADS];      /* the tick that a sleeping thread waits for */
static uint8_t asleep[THREADS];
static uint32_t day, lines;        /* the files that events and answers go to */

extern const uint8_t sheet[], sheet_end[]; /* shares.txt, in start.c */

/* ---- Events */

static void stop(const char *why)
{
    print(why);
    print("\n");
    leave(0);
}

/* A record as tools/day reads it, and its answer as the desk prints it. */
static void send(const uint8_t *event, struct saplingloft_answer answer)
{
    char line[SAPLINGLOFT_RECORD] = "00 0 00 000\n";
    line[0] += answer.refusal / 10, line[1] += answer.refusal % 10;
    line[3] += answer.mode;
    line[5] += answer.partition / 10, line[6] += answer.partition % 10;
    line[8] += answer.thread / 100, line[9] += answer.thread / 10 % 10, line[10] += answer.thread % 10;
    write_file(day, event, SAPLINGLOFT_RECORD);
    write_file(lines, line, sizeof line);
}

static void refused(const struct saplingloft_record *record, enum saplingloft_refusal refusal);

/* Something happened. The state is changed where it lies, and the answer says who runs from now on. */
static void tell(const struct saplingloft_record *record)
{
    uint8_t event[SAPLINGLOFT_RECORD];
    saplingloft_encode(record, event);
    struct saplingloft_answer answer = saplingloft_event(&kept.state, kept.history, HISTORY, event, sizeof event);
    send(event, answer);
    if (answer.refusal != SAPLINGLOFT_ACCEPTED) {
        refused(record, answer.refusal);
        return;
    }
    chosen = &threads[answer.thread == SAPLINGLOFT_IDLE ? IDLE : answer.thread];
    if (chosen != running)
        INTERRUPTS = ASK_FOR_SWITCH; /* it comes when this interrupt is over */
}

static void tell_of(enum saplingloft_kind kind, uint32_t thread, uint32_t stamp)
{
    struct saplingloft_record record = { .kind = kind, .thread = (uint8_t)thread, .stamp = stamp };
    tell(&record);
}

/* A refused event has changed nothing: the thread that ran is still the running one. What that means depends on why. */
static void refused(const struct saplingloft_record *record, enum saplingloft_refusal refusal)
{
    switch (refusal) {
    case SAPLINGLOFT_REFUSED_READINESS: /* a thread was woken that is awake: so be it */
        return;
    case SAPLINGLOFT_REFUSED_ELAPSED: /* the clock jumped: forget what was used before, and tell it again */
        tell_of(SAPLINGLOFT_KIND_RESUME, 0, record->stamp);
        tell(record);
        return;
    case SAPLINGLOFT_REFUSED_STATE: /* the memory is damaged, and every further call will say so: start from the sheet */
        print("the state is not sound: it is given up\n");
        kept.version = 0;
        restart();
        return;
    default: /* all others are faults of this kernel */
        stop(saplingloft_sentence(refusal));
    }
}

/* ---- Time */

/* Cycles in a tick, as the sheet says. */
static uint32_t period(void) { return kept.state.settings.tick; }

/* A tick period is over. Its stamp is where it ended, however late the interrupt came, so that all periods are equally long. */
static void tick(void)
{
    ticks++;
    tick_stamp += period();
    tell_of(SAPLINGLOFT_KIND_TICK, 0, tick_stamp);
    for (uint32_t thread = 0; thread < THREADS; thread++) {
        if (asleep[thread] && ticks - due[thread] <= UINT32_MAX / 2) { /* it is past: asked of the difference, as this count wraps too */
            asleep[thread] = 0;
            tell_of(SAPLINGLOFT_KIND_READY, thread, tick_stamp);
        }
    }
}

/* The counter of cycles: 32 bits, and after 2^32 - 1 comes 0. The scheduler takes the difference of two stamps in the same 32 bits, so the wrap needs
 * nothing here. What it does need is that stamps do not go back: a tick that waits, because this call was before it, is told first. */
static uint32_t now(void)
{
    for (;;) {
        uint32_t left = SYSTICK_CURRENT; /* read before the question whether a tick waits: if one came after the answer, this is still from before */
        if (!(INTERRUPTS & TICK_WAITS))
            return tick_stamp + (left == 0 ? 0 : period() - left);
        INTERRUPTS = DROP_TICK;
        tick();
    }
}

void clock_interrupt(void) { tick(); }

/* ---- The jobs' calls. They come by the instruction SVC, with the number of the call and its argument in the first two registers. */

enum { SLEEP, WAIT, WAKE, ERASE };

static void call(uint32_t number, uint32_t argument)
{
    register uint32_t r0 __asm__("r0") = number;
    register uint32_t r1 __asm__("r1") = argument;
    __asm__ volatile("svc 0" : "+r"(r0), "+r"(r1) : : "memory");
}

uint32_t uptime(void) { return ticks; }
void sleep_for(uint32_t length) { call(SLEEP, length); }
void wait(void) { call(WAIT, 0); }
void wake(uint32_t thread) { call(WAKE, thread); }
void erase_flash(void) { call(ERASE, 0); }

/* A call arrives, with the caller's registers. */
void kernel_call(const uint32_t registers[2])
{
    uint32_t argument = registers[1], caller = (uint32_t)(running - threads), stamp = now();
    switch (registers[0]) {
    case SLEEP:
        asleep[caller] = 1;
        due[caller] = ticks + argument;
        tell_of(SAPLINGLOFT_KIND_BLOCK, caller, stamp);
        return;
    case WAIT:
        tell_of(SAPLINGLOFT_KIND_BLOCK, caller, stamp);
        return;
    case WAKE:
        tell_of(SAPLINGLOFT_KIND_READY, argument, stamp);
        return;
    case ERASE: /* SysTick stands still meanwhile; a clock that does not says how long it was. The next event is refused with 10. */
        tick_stamp += 3 * period();
        return;
    }
}

/* ---- Threads */

/* The way of a call into C. */
__attribute__((naked)) void call_interrupt(void)
{
    __asm__ volatile("push {r4, lr}\n mrs r0, psp\n bl kernel_call\n pop {r4, pc}");
}

/* The switch. Half of the registers the processor puts onto a thread's stack itself. The other half goes to the stack of the thread that ran, and
 * comes from the stack of the one that was chosen. Jobs that compute with floating point need those registers kept too; the library has none. */
__attribute__((naked)) void switch_interrupt(void)
{
    __asm__ volatile(".syntax unified\n"
                     "ldr r3, =running\n ldr r2, =chosen\n ldr r1, [r3]\n ldr r2, [r2]\n str r2, [r3]\n" /* r1 ran, r2 runs from now on */
                     "mrs r0, psp\n subs r0, #32\n str r0, [r1]\n stmia r0!, {r4-r7}\n"
                     "mov r4, r8\n mov r5, r9\n mov r6, r10\n mov r7, r11\n stmia r0!, {r4-r7}\n"
                     "ldr r0, [r2]\n adds r0, #16\n ldmia r0!, {r4-r7}\n mov r8, r4\n mov r9, r5\n mov r10, r6\n mov r11, r7\n"
                     "msr psp, r0\n subs r0, #32\n ldmia r0!, {r4-r7}\n bx lr\n .ltorg");
}

/* A thread that has not run yet: sixteen registers, among them where it begins, and a bit that says Thumb. */
static void prepare(struct thread *thread, void (*body)(void))
{
    thread->top = thread->stack + STACK - 16;
    thread->top[14] = (uint32_t)body & ~1u;
    thread->top[15] = 1u << 24;
}

static void idle(void)
{
    for (;;)
        __asm__ volatile("wfi");
}

/* Starts the clock and goes on as the idle thread, on its stack. From here on the main stack is that of the interrupts. */
static __attribute__((noreturn)) void become_idle(void)
{
    PRIORITIES = SWITCH_LOWEST;
    SYSTICK_RELOAD = period() - 1;
    SYSTICK_CURRENT = 0;
    SYSTICK_CONTROL = 7;
    __asm__ volatile("msr psp, %0\n msr control, %1\n isb\n cpsie i\n bx %2" : : "r"(threads[IDLE].stack + STACK), "r"(2), "r"(idle) : "memory");
    __builtin_unreachable();
}

/* ---- The start */

/* Whether the state was made from the sheet that this kernel has: after it was flashed with another one, the old state is still there. */
static int of_this_sheet(void)
{
    struct saplingloft_settings wanted;
    if (saplingloft_read_sheet(&wanted, sheet, (size_t)(sheet_end - sheet)) != SAPLINGLOFT_ACCEPTED)
        return 0;
    const uint8_t *one = (const uint8_t *)&wanted, *other = (const uint8_t *)&kept.state.settings;
    for (size_t i = 0; i < sizeof wanted; i++)
        if (one[i] != other[i])
            return 0;
    return 1;
}

/* A state that is still there from before a reset. The decision door says whether it can be used. */
static int take_up(void)
{
    if (kept.version != SAPLINGLOFT_VERSION || kept.size != sizeof kept.state || !of_this_sheet())
        return 0;
    enum saplingloft_refusal refusal = saplingloft_decision(&kept.state, kept.history, HISTORY).refusal;
    if (refusal != SAPLINGLOFT_ACCEPTED) {
        print("the saved state is not taken up: ");
        print(saplingloft_sentence(refusal));
        print("\n");
        return 0;
    }
    print("the saved state is taken up\n");
    return 1;
}

static void start_anew(void)
{
    enum saplingloft_refusal refusal = saplingloft_start(&kept.state, kept.history, HISTORY, sheet, (size_t)(sheet_end - sheet));
    if (refusal != SAPLINGLOFT_ACCEPTED)
        stop(saplingloft_sentence(refusal));
    kept.version = SAPLINGLOFT_VERSION;
    kept.size = sizeof kept.state;
    print("started from the sheet\n");
}

int main(void)
{
    __asm__ volatile("cpsid i"); /* no switch before there is a thread to switch from */
    running = chosen = &threads[IDLE];
    int taken_up = take_up();
    if (!taken_up)
        start_anew();
    day = open_file("day.bin", 7, taken_up);
    lines = open_file("lines.txt", 9, taken_up);

    tick_stamp = 0u - 80 * period();                 /* any reading will do; from this one the counter wraps after eighty ticks */
    tell_of(SAPLINGLOFT_KIND_RESUME, 0, tick_stamp); /* where the counter stands now: nothing is charged for the time before */
    for (uint32_t thread = 0; thread < THREADS; thread++) { /* they begin anew after a reset, so all are ready */
        const struct work *work = &works[thread];
        struct saplingloft_record create = { SAPLINGLOFT_KIND_CREATE, (uint8_t)thread, work->job, work->priority, tick_stamp, 1, work->policy };
        prepare(&threads[thread], work->body);
        if (!kept.state.exists[thread])
            tell(&create);
        if (!kept.state.ready[thread])
            tell_of(SAPLINGLOFT_KIND_READY, thread, tick_stamp);
    }
    become_idle();
}

void restart(void)
{
    RESET_CONTROL = RESET_NOW;
    for (;;) {}
}

void finish(void) { leave(1); }
