/* Sheets, events and damages at random, for comparing one processor with another.
 *
 *     damage SEED SHEETS
 *
 * Prints a line for each event: what the doors answered on a state that is sound or was damaged, and a number made of every byte that they left. Two
 * processors have to print the same bytes. At the end it says how often each refusal and each mode came, so that a reader sees that none is
 * missing. */
#include "saplingloft.h"

#include <stdio.h>
#include <stdlib.h>
#include <string.h>

enum { EVENTS = 60, THREADS = 8, FEW = 3, MARGIN = 4 /* numbers of history after the last row, which nobody may touch */ };

struct memory {
    struct saplingloft_state state;
    uint32_t history[SAPLINGLOFT_HISTORY + MARGIN];
};
static struct memory sound, damaged;
static size_t length;   /* of the history that is lent */
static uint32_t quarter; /* of a tick; 0 in the sheets whose stamps may be anywhere */
static unsigned long seen[16], modes[4];

static uint64_t number;
static uint32_t below(uint32_t limit)
{
    number ^= number << 13, number ^= number >> 7, number ^= number << 17;
    return (uint32_t)(number >> 32) % limit;
}

/* A number made of all bytes of both, the margin too. */
static uint64_t digest(const struct memory *memory)
{
    uint64_t sum = 14695981039346656037u;
    const uint8_t *bytes = (const uint8_t *)&memory->state;
    for (size_t i = 0; i < sizeof memory->state; i++)
        sum = (sum ^ bytes[i]) * 1099511628211u;
    for (size_t i = 0; i < length + MARGIN; i++)
        sum = (sum ^ memory->history[i]) * 1099511628211u;
    return sum;
}

/* Shares that add up to 100, some of them 0, and an edition in two of three sheets; now and then a number that is out of its limits, a byte that is
 * wrong, or an end that is missing. */
static size_t make_sheet(uint8_t sheet[SAPLINGLOFT_SHEET + 1])
{
    uint32_t partitions = 1 + below(below(4) == 0 ? SAPLINGLOFT_PARTITIONS : 4), left = 100, wrong = below(13);
    uint32_t window = wrong == 0 ? below(2) * 401 : 2 + below(below(8) == 0 ? 399 : 5);
    uint32_t tick = wrong == 1 ? 150 : 100 * (1 + below(below(4) == 0 ? 9999 : 20));
    uint32_t policy = wrong == 2 ? 2 : below(2);
    uint32_t core = below(8);
    uint32_t edition = wrong == 6 ? 3 : below(3);
    char *text = (char *)sheet;
    int at = sprintf(text, "W 00 %06lu\nC 00 %06lu\nP 00 %06lu\nM 00 %06lu\n", (unsigned long)window, (unsigned long)tick, (unsigned long)policy,
                     (unsigned long)core);
    if (edition != 0)
        at += sprintf(text + at, "E 00 %06lu\n", (unsigned long)edition);
    for (uint32_t p = 0; p < partitions; p++) {
        uint32_t share = p + 1 == partitions ? left + (wrong == 3) : below(below(4) == 0 ? left + 1 : left / 3 + 1);
        left -= share;
        at += sprintf(text + at, "S %02lu %06lu\n", (unsigned long)p, (unsigned long)share);
    }
    uint32_t place = below((uint32_t)at), byte = below(256);
    if (wrong == 4)
        sheet[place] = (uint8_t)byte;
    return (size_t)at - (wrong == 5 ? below(13) : 0);
}

/* Any priority, or one of two, so that threads have the same one and take turns. */
static uint8_t priority(void) { return (uint8_t)below(below(2) == 0 ? 256 : 2); }

/* First all threads are created and made ready, so that all partitions compete, and then anything may happen, mostly ticks. */
static void make_event(uint8_t event[SAPLINGLOFT_RECORD], uint32_t step)
{
    static const uint8_t kinds[] = { 1, 1, 1, 1, 1, 1, 2, 3, 3, 3, 3, 4, 4, 5, 5, 6, 7 };
    uint32_t tick = sound.state.settings.tick;
    struct saplingloft_record record = { (enum saplingloft_kind)kinds[below(below(8) == 0 ? sizeof kinds : sizeof kinds - 1)], 0, 0, 0, 0, 0, 0 };
    if (step < 2 * THREADS) {
        record.kind = step < THREADS ? SAPLINGLOFT_KIND_CREATE : SAPLINGLOFT_KIND_READY;
        record.thread = (uint8_t)(step % THREADS);
        record.partition = step < THREADS ? (uint8_t)(step % sound.state.settings.count) : 0;
        record.priority = step < THREADS ? priority() : 0;
        record.stamp = sound.state.stamp;
        record.mask = step < THREADS ? 255 : 0;
        record.policy = step < THREADS ? (uint8_t)below(2) : 0;
        saplingloft_encode(&record, event);
        return;
    }
    record.stamp = sound.state.stamp + (quarter == 0 ? below(below(20) == 0 ? 3 * tick : tick / 4) : quarter * below(below(8) == 0 ? 10 : 3));
    if (record.kind >= SAPLINGLOFT_KIND_CREATE && record.kind <= SAPLINGLOFT_KIND_END)
        record.thread = (uint8_t)below(below(30) == 0 ? 256 : THREADS + 1);
    if (record.kind == SAPLINGLOFT_KIND_CREATE) {
        record.partition = (uint8_t)below(below(20) == 0 ? 256 : sound.state.settings.count);
        record.mask = (uint8_t)(below(3) == 0 ? below(256) : 255);
        record.policy = (uint8_t)below(below(20) == 0 ? 256 : 2);
    }
    if (record.kind == SAPLINGLOFT_KIND_CREATE || record.kind == SAPLINGLOFT_KIND_SET_PRIORITY)
        record.priority = priority();
    saplingloft_encode(&record, event);
    uint32_t place = below(SAPLINGLOFT_RECORD), byte = below(256);
    if (below(30) == 0)
        event[place] = (uint8_t)byte;
}

/* A policy or a slice of a thread becomes a small number, which it may have: 0 or 1, and 0 to SAPLINGLOFT_SLICE. */
static void damage_turn(void)
{
    uint8_t *bytes = below(2) == 0 ? damaged.state.policies : damaged.state.slices;
    bytes[below(THREADS)] = (uint8_t)below(SAPLINGLOFT_SLICE + 2);
}

/* The edition, or whether it is stated, becomes a small number, which it may have: 1 or 2, and 0 or 1; or a byte beside the flag, which may not. */
static void damage_edition(void)
{
    struct saplingloft_settings *settings = &damaged.state.settings;
    switch (below(3)) {
    case 0: settings->edition = below(4); break;
    case 1: settings->edition_stated = (uint8_t)below(4); break;
    default: settings->reserved[below(3)] = (uint8_t)below(256);
    }
}

/* In two of three cases one to three places, of the state or of a row: a bit, or any number; now and then a policy or a slice, or the edition. */
static void damage(void)
{
    damaged = sound;
    if (below(3) == 0)
        return;
    uint32_t which = below(6);
    if (which == 0) {
        damage_turn();
        return;
    }
    if (which == 1) {
        damage_edition();
        return;
    }
    for (uint32_t times = 1 + below(3); times > 0; times--) {
        uint8_t *bytes = below(3) == 0 ? (uint8_t *)damaged.history : (uint8_t *)&damaged.state;
        size_t most = bytes == (uint8_t *)&damaged.state ? sizeof damaged.state : sizeof(uint32_t) * length;
        uint8_t *byte = &bytes[below((uint32_t)most)];
        *byte = (uint8_t)(below(2) == 0 ? *byte ^ 1u << below(8) : below(256));
    }
}

static uint32_t packed(struct saplingloft_answer answer)
{
    seen[answer.refusal % 16]++;
    modes[answer.mode % 4] += answer.refusal == SAPLINGLOFT_ACCEPTED;
    return (uint32_t)answer.refusal + 256u * answer.mode + 65536u * answer.partition + 16777216u * answer.thread;
}

/* All doors on what may be damaged, and then the event on what is sound. */
static void step(uint32_t number_of)
{
    uint8_t events[FEW * SAPLINGLOFT_RECORD], lines[sizeof events];
    for (uint32_t i = 0; i < FEW; i++)
        make_event(events + i * SAPLINGLOFT_RECORD, number_of + i);
    size_t cut = below(30) == 0 ? below(SAPLINGLOFT_RECORD) : SAPLINGLOFT_RECORD, lent = below(40) == 0 ? below((uint32_t)length) : length;
    memset(lines, '-', sizeof lines);

    damage();
    uint32_t decision = packed(saplingloft_decision(&damaged.state, damaged.history, lent));
    struct saplingloft_balance balance = saplingloft_remaining(&damaged.state, damaged.history, lent, below(20));
    uint32_t answer = packed(saplingloft_event(&damaged.state, damaged.history, lent, events, cut));
    uint64_t after_event = digest(&damaged);
    struct saplingloft_progress run = saplingloft_run(&damaged.state, damaged.history, lent, events, sizeof events - 12 + cut, lines, sizeof lines);
    printf("%08lx %02u %ld  %08lx %016llx  %02u %u %016llx  ", (unsigned long)decision, (unsigned)balance.refusal, (long)balance.remaining,
           (unsigned long)answer, (unsigned long long)after_event, (unsigned)run.refusal, (unsigned)run.taken, (unsigned long long)digest(&damaged));
    for (size_t i = 0; i < sizeof lines; i++)
        putchar(lines[i] == '\n' ? '.' : lines[i]);

    answer = packed(saplingloft_event(&sound.state, sound.history, lent, events, cut));
    printf("  %08lx %016llx\n", (unsigned long)answer, (unsigned long long)digest(&sound));
}

static void session(void)
{
    uint8_t sheet[SAPLINGLOFT_SHEET + 1], back[SAPLINGLOFT_SHEET] = { 0 };
    struct saplingloft_settings settings;
    size_t bytes = make_sheet(sheet);
    memset(&settings, 0xA5, sizeof settings);
    memset(&sound, 0xA5, sizeof sound);
    enum saplingloft_refusal refusal = saplingloft_read_sheet(&settings, sheet, bytes);
    struct saplingloft_written written = { refusal, 0 };
    if (refusal == SAPLINGLOFT_ACCEPTED)
        written = saplingloft_write_sheet(&settings, back, sizeof back);
    length = refusal == SAPLINGLOFT_ACCEPTED ? saplingloft_history(&settings) : 0;
    refusal = saplingloft_start(&sound.state, sound.history, length, sheet, bytes);
    quarter = below(2) * sound.state.settings.tick / 4;
    seen[refusal % 16]++;
    printf("%02u %u %u %016llx\n", (unsigned)refusal, (unsigned)written.length, memcmp(back, sheet, written.length) == 0,
           (unsigned long long)digest(&sound));
    for (uint32_t i = 0; refusal == SAPLINGLOFT_ACCEPTED && i < EVENTS; i++)
        step(i);
}

int main(int count, char **words)
{
    if (count != 3)
        return 2;
    number = strtoul(words[1], NULL, 10) * 0x9E3779B97F4A7C15u + 1;
    for (unsigned long sheets = strtoul(words[2], NULL, 10); sheets > 0; sheets--)
        session();
    for (int i = 0; i < 15; i++)
        printf("refusal %d: %lu\n", i, seen[i]);
    for (int i = 0; i < 4; i++)
        printf("mode %d: %lu\n", i, modes[i]);
    return 0;
}
