/* Saplingloft: the scheduler for one core, for programs in C11 and C++17.
 *
 * Compile and link, with the library installed by `make install PREFIX=...`, or from the repository after `tools/archive`:
 *
 *     cc -std=c11 -O2 kernel.c $(pkg-config --cflags --libs saplingloft)
 *     cc -std=c11 -O2 -Iinclude kernel.c target/staticlib/libsaplingloft.a
 *
 * Target: the archive is for x86-64 Linux; `make board` makes archives for Cortex-M, RISC-V and AArch64. The interface is alike on every processor
 * whose low byte comes first: the library's own functions, at the end, take pointers to arrays of numbers, numbers of 32 bits and lengths of 64, and
 * answer a number of 32 bits.
 *
 * Memory: the library keeps nothing and allocates nothing. What there is, the caller keeps, and lends to each call, which works on it where it lies:
 * - the state, a struct saplingloft_state;
 * - the history, `count * window` numbers or more: partition p's row is the `window` numbers from place p * window, and what stands after the last
 *   row is never touched.
 *
 * Both together can be written to a file and read back later. Beside them a file has to hold SAPLINGLOFT_VERSION and the state's size, because the
 * state itself tells neither; examples/embed.c shows it. Numbers lie in it as the processor has them, so a file is for processors of one byte order.
 *
 * Sizes: the state has 688 bytes, the history 4 * count * window, which is at most 25,600. Of code the archive for x86-64 has 25 KB, 10 KB of them for
 * saplingloft_run alone, which a program that makes no runs does not link. A call there takes at most SAPLINGLOFT_STACK bytes of stack, as
 * tools/stack.c measures them; `make board` prints these figures for other processors.
 *
 * Refusals: no call asks anything of the numbers that it is given. Whatever the state, the history, the sheet and the event say, it does its work or
 * answers with the number of a refusal, and a refused call leaves everything that it was lent as it was. What a call does ask for is this:
 * - a pointer is not NULL, also where its length is 0; it is aligned for what it points to and valid for its length;
 * - what a call may write overlaps nothing else that it is given, and nobody else touches what it is given meanwhile. */
#ifndef SAPLINGLOFT_H
#define SAPLINGLOFT_H

#include <stddef.h>
#include <stdint.h>

/* Of the state and of the calls. Another number means that a saved state of this one cannot be used. Version 2 has time slices: `policies` and
 * `slices` in the state and in the library's own functions, and `policy` at the end of struct saplingloft_record; 0 is what version 1 did. Version 3
 * has the editions of the budget test: `edition`, `edition_stated` and `reserved` in the settings, in front of `count`; 1, not stated, is what version
 * 2 did. */
#define SAPLINGLOFT_VERSION 3

enum {
    SAPLINGLOFT_PARTITIONS = 16,
    SAPLINGLOFT_THREADS = 64,
    SAPLINGLOFT_RECORD = 12,    /* bytes of a sheet's record, of an event's record and of a line */
    SAPLINGLOFT_SHEET = 252,    /* bytes of the longest sheet */
    SAPLINGLOFT_HISTORY = 6400, /* numbers of history that suffice for every sheet: 16 partitions, a window of 400 ticks */
    SAPLINGLOFT_STACK = 1536,   /* bytes of stack that each call was seen to do with, on x86-64 */
    SAPLINGLOFT_SLICE = 4,      /* ticks of a round-robin thread's full slice */
    SAPLINGLOFT_IDLE = 255      /* the running thread where none runs */
};

/* What comes back when something cannot be done; saplingloft_sentence says what each means. */
enum saplingloft_refusal {
    SAPLINGLOFT_ACCEPTED = 0,
    SAPLINGLOFT_REFUSED_RECORDS = 1,
    SAPLINGLOFT_REFUSED_FORM = 2,
    SAPLINGLOFT_REFUSED_WINDOW = 3,
    SAPLINGLOFT_REFUSED_TICK = 4,
    SAPLINGLOFT_REFUSED_POLICY_CORE_OR_EDITION = 5,
    SAPLINGLOFT_REFUSED_SHARES = 6,
    SAPLINGLOFT_REFUSED_BUFFER = 7,
    SAPLINGLOFT_REFUSED_STATE = 8,
    SAPLINGLOFT_REFUSED_KIND = 9,
    SAPLINGLOFT_REFUSED_ELAPSED = 10,
    SAPLINGLOFT_REFUSED_THREAD = 11,
    SAPLINGLOFT_REFUSED_PARTITION = 12,
    SAPLINGLOFT_REFUSED_READINESS = 13,
    SAPLINGLOFT_REFUSED_LENGTH = 14
};

/* How a decision was made. A partition competes while one of its ready threads may run on this core; it has budget while at least a quarter of a
 * tick, or half of one in edition 2, remains of its budget. Of the partitions that are tied for best the favoured one wins, if it is one of them: the
 * one that the thread running until the event worked for when the event came, also where the event is a resume, or blocks or ends that thread.
 * Otherwise, and where the processor idled, the lowest number wins. So an event takes the processor from a partition only where another one comes
 * strictly before it, or where it no longer competes. */
enum saplingloft_mode {
    SAPLINGLOFT_MODE_IDLE = 0,      /* no partition competes */
    SAPLINGLOFT_MODE_FREE_TIME = 1, /* some partition with a share does not compete */
    SAPLINGLOFT_MODE_UNDERLOAD = 2, /* all with a share compete, and some competing partition has budget */
    SAPLINGLOFT_MODE_AT_LIMIT = 3   /* all with a share compete, and no competing partition has budget */
};

/* What an event tells. A set priority also moves a ready thread in the ready queue, before the decision, as POSIX has it for pthread_setschedprio: a
 * thread that is raised goes to the tail of the whole queue, one that is lowered to its head, and one that is set to the priority it has stays. The
 * running thread moves like any other. A thread that is not ready only gets its new priority. */
enum saplingloft_kind {
    SAPLINGLOFT_KIND_TICK = 1,
    SAPLINGLOFT_KIND_CREATE = 2,
    SAPLINGLOFT_KIND_READY = 3,
    SAPLINGLOFT_KIND_BLOCK = 4,
    SAPLINGLOFT_KIND_SET_PRIORITY = 5,
    SAPLINGLOFT_KIND_END = 6,
    SAPLINGLOFT_KIND_RESUME = 7
};

/* The policy of a thread, which its create names: whether it takes turns with threads of its partition that have its priority. (The policy of a
 * sheet, P, is another one: how partitions are compared.) A thread that is first in, first out keeps its place in the ready queue until it blocks or
 * ends, or gets another priority. A round-robin thread has a slice of SAPLINGLOFT_SLICE ticks. Each accepted tick counts down the slice of the thread
 * that ran until the tick, by one however little of the tick it ran; at 0 the slice is full again, and the thread goes to the tail of the ready
 * queue, before the decision. A create and a ready give a full slice too. A block, a new priority, wherever it moves the thread, a resume, and
 * another thread that comes in between leave the slice as it is. */
enum saplingloft_policy {
    SAPLINGLOFT_POLICY_FIRST_IN_FIRST_OUT = 0,
    SAPLINGLOFT_POLICY_ROUND_ROBIN = 1
};

/* ---- What the caller keeps. The numbers in front are offsets: there is no padding, so each byte of the structs is a byte of some number. */

/* What a sheet says. 92 bytes. */
struct saplingloft_settings {
    /*  0 */ uint32_t window;                         /* W, in ticks */
    /*  4 */ uint32_t tick;                           /* C, in cycles */
    /*  8 */ uint32_t policy;                         /* P: 0 default, 1 ratio */
    /* 12 */ uint32_t core;                           /* M */
    /* 16 */ uint32_t edition;                        /* E: 1 a quarter, 2 half of a tick must remain; 1 where it is not stated */
    /* 20 */ uint8_t edition_stated;                  /* 1 where the sheet has an E, else 0; any other value is outside the limits */
    /* 21 */ uint8_t reserved[3];                     /* 0; any other value is outside the limits */
    /* 24 */ uint32_t count;                          /* how many partitions there are */
    /* 28 */ uint32_t shares[SAPLINGLOFT_PARTITIONS]; /* S, in percent; 0 past the last partition */
};

/* The state on one core. 688 bytes, aligned to 4. Thread t is place t of the arrays; all seven are 0 there if it does not exist. */
struct saplingloft_state {
    /*   0 */ struct saplingloft_settings settings;
    /*  92 */ uint32_t used[SAPLINGLOFT_PARTITIONS];    /* cycles charged to each partition in the window; 0 past the last */
    /* 156 */ uint32_t stamp;                           /* of the last accepted event */
    /* 160 */ uint32_t slot;                            /* the history's current slot */
    /* 164 */ uint32_t since;                           /* cycles since the last tick */
    /* 168 */ uint32_t queued;                          /* how many threads are ready */
    /* 172 */ uint32_t running;                         /* the running thread, or SAPLINGLOFT_IDLE */
    /* 176 */ uint8_t exists[SAPLINGLOFT_THREADS];      /* 0 or 1 */
    /* 240 */ uint8_t ready[SAPLINGLOFT_THREADS];       /* 0 or 1 */
    /* 304 */ uint8_t partitions[SAPLINGLOFT_THREADS];
    /* 368 */ uint8_t priorities[SAPLINGLOFT_THREADS];  /* 255 is highest */
    /* 432 */ uint8_t masks[SAPLINGLOFT_THREADS];       /* bit m is set where core m may run the thread */
    /* 496 */ uint8_t policies[SAPLINGLOFT_THREADS];    /* enum saplingloft_policy: 0 or 1 */
    /* 560 */ uint8_t slices[SAPLINGLOFT_THREADS];      /* ticks that are left: 1 to SAPLINGLOFT_SLICE of a round-robin thread, 0 of any other */
    /* 624 */ uint8_t queue[SAPLINGLOFT_THREADS];       /* the ready threads, as ready, a slice's end and set priority order them; then zeros */
};

#ifdef __cplusplus
static_assert(sizeof(struct saplingloft_state) == 688, "the state has no padding");
#else
_Static_assert(sizeof(struct saplingloft_state) == 688, "the state has no padding");
#endif

/* ---- What calls answer. Beside a refusal the other numbers are 0. */

struct saplingloft_answer {
    enum saplingloft_refusal refusal;
    enum saplingloft_mode mode;
    uint8_t partition; /* the one that won, 0 while idle */
    uint8_t thread;    /* the one that runs, SAPLINGLOFT_IDLE while idle */
};

struct saplingloft_progress {
    enum saplingloft_refusal refusal;
    size_t taken; /* records */
};

struct saplingloft_balance {
    enum saplingloft_refusal refusal;
    int32_t remaining; /* cycles; below zero after an overrun */
};

struct saplingloft_written {
    enum saplingloft_refusal refusal;
    size_t length; /* bytes */
};

/* ---- The library's own functions. Programs in C and C++ have the inline functions below, which take a state's address and pass those of its parts:
 * settings: window, tick, policy, core, edition, edition_stated with the reserved bytes above it, count. clock: stamp, slot, since, queued, running.
 * remaining: one number, in two's complement. Each answers the refusal, or 0; but event and decision answer refusal + 256 * mode + 65536 * partition +
 * 16777216 * thread. */

#ifdef __cplusplus
extern "C" {
#endif

uint32_t saplingloft_lent_start(const uint8_t *sheet, uint64_t sheet_length, uint32_t *settings, uint32_t *shares, uint32_t *used, uint32_t *clock,
                                uint8_t *exists, uint8_t *ready, uint8_t *partitions, uint8_t *priorities, uint8_t *masks, uint8_t *policies,
                                uint8_t *slices, uint8_t *queue, uint32_t *history, uint64_t history_length);
uint32_t saplingloft_lent_event(const uint32_t *settings, const uint32_t *shares, uint32_t *used, uint32_t *clock, uint8_t *exists, uint8_t *ready,
                                uint8_t *partitions, uint8_t *priorities, uint8_t *masks, uint8_t *policies, uint8_t *slices, uint8_t *queue,
                                uint32_t *history, uint64_t history_length, const uint8_t *event, uint64_t event_length);
uint32_t saplingloft_lent_run(const uint32_t *settings, const uint32_t *shares, uint32_t *used, uint32_t *clock, uint8_t *exists, uint8_t *ready,
                              uint8_t *partitions, uint8_t *priorities, uint8_t *masks, uint8_t *policies, uint8_t *slices, uint8_t *queue,
                              uint32_t *history, uint64_t history_length, const uint8_t *events, uint64_t events_length, uint8_t *lines,
                              uint64_t lines_length);
uint32_t saplingloft_lent_decision(const uint32_t *settings, const uint32_t *shares, const uint32_t *used, const uint32_t *clock,
                                   const uint8_t *exists, const uint8_t *ready, const uint8_t *partitions, const uint8_t *priorities,
                                   const uint8_t *masks, const uint8_t *policies, const uint8_t *slices, const uint8_t *queue,
                                   const uint32_t *history, uint64_t history_length);
uint32_t saplingloft_lent_remaining(const uint32_t *settings, const uint32_t *shares, const uint32_t *used, const uint32_t *clock,
                                    const uint8_t *exists, const uint8_t *ready, const uint8_t *partitions, const uint8_t *priorities,
                                    const uint8_t *masks, const uint8_t *policies, const uint8_t *slices, const uint8_t *queue,
                                    const uint32_t *history, uint64_t history_length, uint32_t partition, uint32_t *remaining);
uint32_t saplingloft_lent_read_sheet(const uint8_t *sheet, uint64_t sheet_length, uint32_t *settings, uint32_t *shares);
uint32_t saplingloft_lent_write_sheet(const uint32_t *settings, const uint32_t *shares, uint8_t *sheet, uint64_t sheet_length);

#ifdef __cplusplus
}
#endif

#define SAPLINGLOFT_PARTS(state)                                                                                                               \
    &(state)->settings.window, (state)->settings.shares, (state)->used, &(state)->stamp, (state)->exists, (state)->ready, (state)->partitions, \
        (state)->priorities, (state)->masks, (state)->policies, (state)->slices, (state)->queue

/* The four numbers that a number holds. */
static inline struct saplingloft_answer saplingloft_unpack(uint32_t packed)
{
    struct saplingloft_answer answer;
    answer.refusal = (enum saplingloft_refusal)(packed & 255);
    answer.mode = (enum saplingloft_mode)(packed >> 8 & 255);
    answer.partition = (uint8_t)(packed >> 16 & 255);
    answer.thread = (uint8_t)(packed >> 24);
    return answer;
}

/* ---- The calls. Lengths are in elements: bytes of a sheet, events or lines, numbers of history. */

/* How much history the settings of a sheet want, in numbers. */
static inline size_t saplingloft_history(const struct saplingloft_settings *settings)
{
    return (size_t)settings->count * settings->window;
}

/* Reads a sheet into settings (refusals 1 to 6). */
static inline enum saplingloft_refusal saplingloft_read_sheet(struct saplingloft_settings *settings, const uint8_t *sheet, size_t sheet_length)
{
    return (enum saplingloft_refusal)saplingloft_lent_read_sheet(sheet, sheet_length, &settings->window, settings->shares);
}

/* Writes settings as a sheet, 12 * (4 + edition_stated + count) bytes, and answers how many that were (refusals 1, 3 to 7). */
static inline struct saplingloft_written saplingloft_write_sheet(const struct saplingloft_settings *settings, uint8_t *sheet, size_t sheet_length)
{
    struct saplingloft_written written;
    written.refusal = (enum saplingloft_refusal)saplingloft_lent_write_sheet(&settings->window, settings->shares, sheet, sheet_length);
    size_t records = 4 + (size_t)settings->edition_stated + settings->count;
    written.length = written.refusal == SAPLINGLOFT_ACCEPTED ? SAPLINGLOFT_RECORD * records : 0;
    return written;
}

/* A fresh start from the bytes of a sheet (refusals 1 to 7): a state without threads, and rows of zeros, whatever stood in both before. */
static inline enum saplingloft_refusal saplingloft_start(struct saplingloft_state *state, uint32_t *history, size_t history_length,
                                                         const uint8_t *sheet, size_t sheet_length)
{
    return (enum saplingloft_refusal)saplingloft_lent_start(sheet, sheet_length, SAPLINGLOFT_PARTS(state), history, history_length);
}

/* One event, and the decision after it (refusals 7 to 14). The state is tested for soundness first, which reads all rows of the history. */
static inline struct saplingloft_answer saplingloft_event(struct saplingloft_state *state, uint32_t *history, size_t history_length,
                                                          const uint8_t *event, size_t event_length)
{
    return saplingloft_unpack(saplingloft_lent_event(SAPLINGLOFT_PARTS(state), history, history_length, event, event_length));
}

/* Many events, one record after the other, each answered by a line of the desk program; a cut last record gets its line too (14). The state is tested
 * once (refusals 7 and 8). As many records are taken as there is room for lines; an event that is refused changes nothing but its line. */
static inline struct saplingloft_progress saplingloft_run(struct saplingloft_state *state, uint32_t *history, size_t history_length,
                                                          const uint8_t *events, size_t events_length, uint8_t *lines, size_t lines_length)
{
    struct saplingloft_progress progress;
    size_t records = events_length / SAPLINGLOFT_RECORD + (events_length % SAPLINGLOFT_RECORD != 0);
    size_t room = lines_length / SAPLINGLOFT_RECORD;
    progress.refusal = (enum saplingloft_refusal)saplingloft_lent_run(SAPLINGLOFT_PARTS(state), history, history_length, events, events_length,
                                                                      lines, lines_length);
    progress.taken = progress.refusal != SAPLINGLOFT_ACCEPTED ? 0 : records < room ? records : room;
    return progress;
}

/* The decision that the rules give for a state, which stays as it is (refusals 7 and 8): whether a saved state can be used, and who runs in it. The
 * favoured partition is that of the state's running thread, so that on what an accepted event left this is its answer again. */
static inline struct saplingloft_answer saplingloft_decision(const struct saplingloft_state *state, const uint32_t *history, size_t history_length)
{
    return saplingloft_unpack(saplingloft_lent_decision(SAPLINGLOFT_PARTS(state), history, history_length));
}

/* What remains of a partition's budget in the window; the state stays as it is (refusals 7, 8 and 12). */
static inline struct saplingloft_balance saplingloft_remaining(const struct saplingloft_state *state, const uint32_t *history, size_t history_length,
                                                               uint32_t partition)
{
    struct saplingloft_balance balance;
    uint32_t word = 0;
    balance.refusal =
        (enum saplingloft_refusal)saplingloft_lent_remaining(SAPLINGLOFT_PARTS(state), history, history_length, partition, &word);
    balance.remaining = word <= INT32_MAX ? (int32_t)word : -(int32_t)(UINT32_MAX - word) - 1;
    return balance;
}

#undef SAPLINGLOFT_PARTS

/* ---- Records and sentences */

/* What an event's record says. Fields that the kind does not use are 0: a tick and a resume use the stamp alone, a create uses all, the others use
 * thread and stamp, and a set priority the priority too. */
struct saplingloft_record {
    enum saplingloft_kind kind;
    uint8_t thread;
    uint8_t partition;
    uint8_t priority;
    uint32_t stamp; /* a reading of the cycle counter */
    uint8_t mask;
    uint8_t policy; /* enum saplingloft_policy; 0, first in, first out, where a create does not name it */
};

/* Writes the twelve bytes of a record. */
static inline void saplingloft_encode(const struct saplingloft_record *record, uint8_t event[SAPLINGLOFT_RECORD])
{
    event[0] = (uint8_t)record->kind;
    event[1] = record->thread;
    event[2] = record->partition;
    event[3] = record->priority;
    event[4] = (uint8_t)(record->stamp & 255);
    event[5] = (uint8_t)(record->stamp >> 8 & 255);
    event[6] = (uint8_t)(record->stamp >> 16 & 255);
    event[7] = (uint8_t)(record->stamp >> 24);
    event[8] = record->mask;
    event[9] = record->policy;
    event[10] = event[11] = 0;
}

/* What a refusal means. */
static inline const char *saplingloft_sentence(enum saplingloft_refusal refusal)
{
    switch (refusal) {
    case SAPLINGLOFT_ACCEPTED: return "accepted";
    case SAPLINGLOFT_REFUSED_RECORDS:
        return "the sheet does not have 5 to 20 whole records, or 6 to 21 where the fifth begins with E, one for each of 1 to 16 partitions among them";
    case SAPLINGLOFT_REFUSED_FORM: return "a letter, digit, space, line feed or two-digit number of the sheet is wrong, or its order";
    case SAPLINGLOFT_REFUSED_WINDOW: return "W, the window, is not 2 to 400 ticks";
    case SAPLINGLOFT_REFUSED_TICK: return "C, the cycles in a tick, is not a multiple of 100 from 100 to 999,900";
    case SAPLINGLOFT_REFUSED_POLICY_CORE_OR_EDITION:
        return "P, the policy, is not 0 or 1, M, the core, is not 0 to 7, E, the edition, is not 1 or 2, or 2 and not stated, or edition_stated is "
               "not 0 or 1, or reserved is not 0";
    case SAPLINGLOFT_REFUSED_SHARES: return "a share is above 100, or the shares do not add up to 100";
    case SAPLINGLOFT_REFUSED_BUFFER: return "the lent buffer is too short";
    case SAPLINGLOFT_REFUSED_STATE: return "the state is not sound";
    case SAPLINGLOFT_REFUSED_KIND: return "the event's kind is unknown, or a byte that it does not use is not zero";
    case SAPLINGLOFT_REFUSED_ELAPSED: return "more than two tick periods since the last tick";
    case SAPLINGLOFT_REFUSED_THREAD: return "the thread is above 63, or is created and exists, or does not exist";
    case SAPLINGLOFT_REFUSED_PARTITION: return "the partition is not below the count, or a thread is created with mask 0 or a policy above 1";
    case SAPLINGLOFT_REFUSED_READINESS: return "a ready thread is made ready, or one that is not ready is blocked";
    case SAPLINGLOFT_REFUSED_LENGTH: return "the event is not twelve bytes long";
    }
    return "no refusal of this library";
}

#endif
