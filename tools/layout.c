/* Holds include/saplingloft.h to the library: the sizes and offsets that the header's comments state, that each field is where the library writes it
 * and reads it, and what the header adds to the calls. Says so and ends with 0, or names what differs and ends with 1. */
#include "saplingloft.h"

#include <stdbool.h>
#include <stdio.h>
#include <stdlib.h>
#include <string.h>

#define LIES(type, field, at) _Static_assert(offsetof(struct type, field) == (at), #type " " #field)
#define SIZE(type, size) _Static_assert(sizeof(struct type) == (size) && _Alignof(struct type) == 4, #type)

SIZE(saplingloft_settings, 92);
LIES(saplingloft_settings, window, 0);
LIES(saplingloft_settings, tick, 4);
LIES(saplingloft_settings, policy, 8);
LIES(saplingloft_settings, core, 12);
LIES(saplingloft_settings, edition, 16);
LIES(saplingloft_settings, edition_stated, 20);
LIES(saplingloft_settings, reserved, 21);
LIES(saplingloft_settings, count, 24);
LIES(saplingloft_settings, shares, 28);
SIZE(saplingloft_state, 688);
LIES(saplingloft_state, settings, 0);
LIES(saplingloft_state, used, 92);
LIES(saplingloft_state, stamp, 156);
LIES(saplingloft_state, slot, 160);
LIES(saplingloft_state, since, 164);
LIES(saplingloft_state, queued, 168);
LIES(saplingloft_state, running, 172);
LIES(saplingloft_state, exists, 176);
LIES(saplingloft_state, ready, 240);
LIES(saplingloft_state, partitions, 304);
LIES(saplingloft_state, priorities, 368);
LIES(saplingloft_state, masks, 432);
LIES(saplingloft_state, policies, 496);
LIES(saplingloft_state, slices, 560);
LIES(saplingloft_state, queue, 624);

static struct saplingloft_state state;
static uint32_t history[SAPLINGLOFT_HISTORY];

static void same(const char *what, long place, long wanted, long found)
{
    if (wanted != found) {
        printf("layout: %s %ld: %ld is wanted, and not %ld\n", what, place, wanted, found);
        exit(1);
    }
}

/* A start from a sheet that does not state the edition where that is 0, and the sheet read and written back. */
static void start(int window, int tick, int policy, int core, int edition, const int shares[16])
{
    char sheet[SAPLINGLOFT_SHEET + 1];
    int n = sprintf(sheet, "W 00 %06d\nC 00 %06d\nP 00 %06d\nM 00 %06d\n", window, tick, policy, core);
    if (edition != 0)
        n += sprintf(sheet + n, "E 00 %06d\n", edition);
    for (int p = 0; p < 16; p++)
        n += sprintf(sheet + n, "S %02d %06d\n", p, shares[p]);
    memset(&state, 0xA5, sizeof state);
    same("start", 0, 0, saplingloft_start(&state, history, SAPLINGLOFT_HISTORY, (const uint8_t *)sheet, n));
    struct saplingloft_settings settings;
    same("read sheet", 0, 0, saplingloft_read_sheet(&settings, (const uint8_t *)sheet, n));
    same("the settings", 0, 0, memcmp(&settings, &state.settings, sizeof settings));
    same("the history that is wanted", 0, 16 * window, saplingloft_history(&settings));
    uint8_t back[SAPLINGLOFT_SHEET];
    struct saplingloft_written written = saplingloft_write_sheet(&settings, back, sizeof back);
    same("write sheet", 0, 0, written.refusal);
    same("the sheet's length", 0, n, written.length);
    same("the sheet", 0, 0, memcmp(back, sheet, n));
    written = saplingloft_write_sheet(&settings, back, n - 1);
    same("write sheet", 1, SAPLINGLOFT_REFUSED_BUFFER, written.refusal);
    same("the sheet's length", 1, 0, written.length);
}

static struct saplingloft_answer tell(struct saplingloft_record record)
{
    uint8_t event[SAPLINGLOFT_RECORD];
    saplingloft_encode(&record, event);
    return saplingloft_event(&state, history, SAPLINGLOFT_HISTORY, event, sizeof event);
}

static void accepted(const char *what, long place, struct saplingloft_record record)
{
    same(what, place, 0, tell(record).refusal);
}

static struct saplingloft_record of(enum saplingloft_kind kind, int thread, uint32_t stamp)
{
    return (struct saplingloft_record){ .kind = kind, .thread = thread, .stamp = stamp };
}

/* Every second one of the odd numbers and of the even ones is round robin. */
static int policy_of(int thread)
{
    return thread / 2 % 2;
}

/* A tick, and what it leaves of the slice of the thread that ran until it. */
static void ticked(uint32_t stamp, int slices[SAPLINGLOFT_THREADS])
{
    uint32_t ran = state.running;
    accepted("tick", stamp, of(SAPLINGLOFT_KIND_TICK, 0, stamp));
    if (policy_of((int)ran) == SAPLINGLOFT_POLICY_ROUND_ROBIN)
        slices[ran] = slices[ran] == 1 ? SAPLINGLOFT_SLICE : slices[ran] - 1;
    for (int t = 0; t < 64; t++)
        same("slices", t, slices[t], state.slices[t]);
}

/* Every field that the library writes, with a value that no other has. */
static void written(void)
{
    for (int p = 0; p < 16; p++) {
        int shares[16] = { 0 };
        shares[p] = 100;
        int edition = p % 3;
        start(300 + p, 500000, p % 2, p % 8, edition, shares);
        same("window", p, 300 + p, state.settings.window);
        same("tick", p, 500000, state.settings.tick);
        same("policy", p, p % 2, state.settings.policy);
        same("core", p, p % 8, state.settings.core);
        same("edition", p, edition == 0 ? 1 : edition, state.settings.edition);
        same("edition stated", p, edition != 0, state.settings.edition_stated);
        for (int i = 0; i < 3; i++)
            same("reserved", i, 0, state.settings.reserved[i]);
        same("count", p, 16, state.settings.count);
        same("running", p, SAPLINGLOFT_IDLE, state.running);
        for (int q = 0; q < 16; q++)
            same("shares", q, shares[q], state.settings.shares[q]);
    }
    const int shares[16] = { 4, 4, 4, 4, 4, 4, 4, 4, 8, 8, 8, 8, 9, 9, 9, 9 };
    int slices[SAPLINGLOFT_THREADS];
    start(400, 999900, 1, 3, 2, shares);
    for (int t = 0; t < 64; t++) {
        struct saplingloft_record create = { SAPLINGLOFT_KIND_CREATE, t, t % 16, 100 + t, 0, (8 + t * 16) % 256, policy_of(t) };
        accepted("create", t, create);
        slices[t] = policy_of(t) == SAPLINGLOFT_POLICY_ROUND_ROBIN ? SAPLINGLOFT_SLICE : 0;
    }
    uint32_t stamp = 0;
    for (int i = 0; i < 32; i++) { /* the odd numbers, out of order */
        int t = (i * 74 + 5) % 64;
        accepted("ready", t, of(SAPLINGLOFT_KIND_READY, t, stamp));
        stamp += 1000 + i;
        struct saplingloft_record set = of(SAPLINGLOFT_KIND_SET_PRIORITY, t, stamp);
        set.priority = 150 + t;
        struct saplingloft_answer answer = tell(set);
        same("set priority", t, 0, answer.refusal);
        same("stamp", t, stamp, state.stamp);
        same("since", t, stamp, state.since);
        same("queue", t, t, state.queue[i]);
        same("queued", t, i + 1, state.queued);
        same("running", t, answer.thread, state.running);
        same("partition", t, answer.thread % 16, answer.partition);
        same("mode", t, i < 15 ? SAPLINGLOFT_MODE_FREE_TIME : answer.mode, answer.mode);
    }
    same("slot", 0, 0, state.slot);
    for (int k = 1; k < 400; k++) {
        ticked(stamp, slices);
        same("slot", k, k, state.slot);
    }
    same("since", 0, 0, state.since);
    for (int t = 0; t < 64; t++) {
        same("exists", t, 1, state.exists[t]);
        same("ready", t, t % 2, state.ready[t]);
        same("partitions", t, t % 16, state.partitions[t]);
        same("priorities", t, t % 2 ? 150 + t : 100 + t, state.priorities[t]);
        same("masks", t, (8 + t * 16) % 256, state.masks[t]);
        same("policies", t, policy_of(t), state.policies[t]);
    }
    for (int p = 0; p < 16; p++) {
        struct saplingloft_balance balance = saplingloft_remaining(&state, history, SAPLINGLOFT_HISTORY, p);
        long budget = shares[p] * 400 * 9999L;
        same("used", p, history[p * 400], state.used[p]);
        same("remaining", p, budget - history[p * 400], balance.remaining);
    }
}

/* What all calls that are given a state say of it, and that a refusal leaves it as it was. The event is a tick at the state's own stamp. */
static enum saplingloft_refusal verdict(const struct saplingloft_state *given)
{
    static uint32_t rows[SAPLINGLOFT_HISTORY];
    struct saplingloft_record tick = of(SAPLINGLOFT_KIND_TICK, 0, given->stamp);
    uint8_t event[SAPLINGLOFT_RECORD], line[SAPLINGLOFT_RECORD];
    saplingloft_encode(&tick, event);
    struct saplingloft_state one = *given, other = *given;
    struct saplingloft_answer decision = saplingloft_decision(&one, history, SAPLINGLOFT_HISTORY);
    struct saplingloft_balance balance = saplingloft_remaining(&one, history, SAPLINGLOFT_HISTORY, 0);
    same("decision and remaining change the state", 0, 0, memcmp(&one, given, sizeof one));
    memcpy(rows, history, sizeof rows);
    struct saplingloft_answer answer = saplingloft_event(&one, rows, SAPLINGLOFT_HISTORY, event, sizeof event);
    memcpy(rows, history, sizeof rows);
    struct saplingloft_progress progress = saplingloft_run(&other, rows, SAPLINGLOFT_HISTORY, event, sizeof event, line, sizeof line);
    same("decision and remaining agree", 0, decision.refusal, balance.refusal);
    same("decision and event agree", 0, decision.refusal, answer.refusal);
    same("event and run agree", 0, answer.refusal, progress.refusal);
    same("event's and run's states", 0, 0, memcmp(&one, &other, sizeof one));
    same("taken", 0, answer.refusal == 0, progress.taken);
    if (answer.refusal != 0)
        same("a refused state stays", 0, 0, memcmp(&one, given, sizeof one));
    return answer.refusal;
}

/* A state with one byte changed is refused by every call, wherever the byte is, but for stamp and priorities, which may be anything, and for the low
 * bytes of policy, core, slot and time since tick, which may be something else; there all calls have to agree. */
static void read(void)
{
    for (size_t at = 0; at < sizeof state; at++) {
        bool anything = (at >= 156 && at < 160) || (at >= 368 && at < 432);
        bool something = at == 8 || at == 12 || at == 160 || at == 161 || (at >= 164 && at < 167);
        bool partition = at >= 304 && at < 368, mask = at >= 432 && at < 496, slice = at >= 560 && at < 624;
        struct saplingloft_state changed = state;
        uint8_t *byte = (uint8_t *)&changed + at;
        *byte = partition ? 16 : mask ? 0 : slice ? SAPLINGLOFT_SLICE + 1 : *byte ^ 1;
        enum saplingloft_refusal refusal = verdict(&changed);
        if (!something)
            same("the refusal for a changed byte", at, anything ? 0 : 8, refusal);
    }
    for (int t = 1; t < 64; t += 2) { /* priorities and masks: who runs alone at the top, and who may not */
        struct saplingloft_state changed = state;
        for (int u = 1; u < 64; u += 2)
            changed.priorities[u] = u == t ? 255 : u;
        changed.running = SAPLINGLOFT_IDLE;
        changed.settings.policy = 0;
        same("who has priority 255", t, t, saplingloft_decision(&changed, history, SAPLINGLOFT_HISTORY).thread);
        same("the doors agree", t, 0, verdict(&changed));
        changed.masks[t] = 1;
        same("who may not run", t, 0, saplingloft_decision(&changed, history, SAPLINGLOFT_HISTORY).thread == t);
    }
    struct saplingloft_balance balance = saplingloft_remaining(&state, history, SAPLINGLOFT_HISTORY, 16);
    same("remaining of partition 16", 0, SAPLINGLOFT_REFUSED_PARTITION, balance.refusal);
    same("remaining of partition 16", 1, 0, balance.remaining);
    same("too little history", 0, SAPLINGLOFT_REFUSED_BUFFER, saplingloft_decision(&state, history, SAPLINGLOFT_HISTORY - 1).refusal);
    same("too little history", 1, SAPLINGLOFT_REFUSED_BUFFER, saplingloft_remaining(&state, history, SAPLINGLOFT_HISTORY - 1, 0).refusal);
}

/* 400 cycles remain, of ticks of 1000: enough in edition 1 and too little in edition 2, as the sheet or the state says it. */
static void editions(void)
{
    const int shares[16] = { 100 };
    for (int edition = 0; edition <= 2; edition++) {
        start(2, 1000, 0, 0, edition, shares);
        accepted("create", 0, (struct saplingloft_record){ SAPLINGLOFT_KIND_CREATE, 0, 0, 0, 0, 1, 0 });
        accepted("ready", 0, of(SAPLINGLOFT_KIND_READY, 0, 0));
        struct saplingloft_answer answer = tell(of(SAPLINGLOFT_KIND_TICK, 0, 1600));
        same("an event by its edition", edition, edition == 2 ? SAPLINGLOFT_MODE_AT_LIMIT : SAPLINGLOFT_MODE_UNDERLOAD, answer.mode);
        same("a state of its edition", edition, 0, verdict(&state));
        for (uint32_t other = 0; other <= 3; other++) {
            state.settings.edition = other;
            same("a state of another edition", other, other == 1 || (edition != 0 && other == 2) ? 0 : 8, verdict(&state));
        }
    }
    for (uint32_t edition = 1; edition <= 2; edition++) {
        state.settings.edition = edition;
        same("a decision by the state's edition", edition, edition == 2 ? SAPLINGLOFT_MODE_AT_LIMIT : SAPLINGLOFT_MODE_UNDERLOAD,
             saplingloft_decision(&state, history, SAPLINGLOFT_HISTORY).mode);
    }
}

/* The flag of edition 1 is 0 or 1, and the bytes beside it are 0. Every other byte is outside the limits: 8 in a given state, 5 in writing. */
static void flags(void)
{
    const int shares[16] = { 100 };
    uint8_t sheet[SAPLINGLOFT_SHEET];
    start(2, 1000, 0, 0, 0, shares);
    for (int at = 0; at < 4; at++) {
        for (int value = 0; value < 256; value++) {
            struct saplingloft_state given = state;
            *(at == 0 ? &given.settings.edition_stated : &given.settings.reserved[at - 1]) = (uint8_t)value;
            bool fits = value == 0 || (at == 0 && value == 1);
            same("a flag in a given state", 256 * at + value, fits ? 0 : 8, verdict(&given));
            same("a flag in writing", 256 * at + value, fits ? 0 : 5, saplingloft_write_sheet(&given.settings, sheet, sizeof sheet).refusal);
        }
    }
}

/* A run of three ticks, the last one cut, with room for so many bytes of lines; and an overrun. */
static void many(void)
{
    const char sheet[] = "W 00 000002\nC 00 001000\nP 00 000000\nM 00 000000\nS 00 000000\nS 01 000100\n";
    const uint8_t ticks[3 * SAPLINGLOFT_RECORD - 1] = { [0] = 1, [12] = 1, [24] = 1 };
    const char *lines = "00 0 00 255\n00 0 00 255\n14 0 00 000\n";
    same("start", 0, 0, saplingloft_start(&state, history, 4, (const uint8_t *)sheet, sizeof sheet - 1));
    for (size_t room = 0; room <= 40; room++) {
        uint8_t found[40] = { 0 };
        struct saplingloft_state copy = state;
        size_t taken = room < 36 ? room / 12 : 3;
        struct saplingloft_progress progress = saplingloft_run(&copy, history, 4, ticks, sizeof ticks, found, room);
        same("run: refusal", room, 0, progress.refusal);
        same("run: taken", room, taken, progress.taken);
        same("run: lines", room, 0, memcmp(found, lines, 12 * taken));
        same("run: after the lines", room, 0, found[12 * taken]);
        same("run: slot", room, taken == 1, copy.slot);
    }
    struct saplingloft_progress refused = saplingloft_run(&state, history, 3, ticks, sizeof ticks, (uint8_t[36]){ 0 }, 36);
    same("run: refusal", 100, SAPLINGLOFT_REFUSED_BUFFER, refused.refusal);
    same("run: taken", 100, 0, refused.taken);
    accepted("create", 0, (struct saplingloft_record){ SAPLINGLOFT_KIND_CREATE, 0, 0, 0, 0, 1, 0 });
    accepted("ready", 0, of(SAPLINGLOFT_KIND_READY, 0, 0));
    accepted("block", 0, of(SAPLINGLOFT_KIND_BLOCK, 0, 5));
    same("an overrun", 0, -5, saplingloft_remaining(&state, history, 4, 0).remaining);
    accepted("end", 0, of(SAPLINGLOFT_KIND_END, 0, 5));
    accepted("resume", 0, of(SAPLINGLOFT_KIND_RESUME, 0, 4000000000));
    same("stamp", 0, 4000000000, state.stamp);
}

/* A sentence for each refusal, and no two alike. */
static void sentences(void)
{
    for (int a = 0; a <= 15; a++)
        for (int b = 0; b < a; b++)
            same("two sentences are alike", a, 1,
                 strcmp(saplingloft_sentence((enum saplingloft_refusal)a), saplingloft_sentence((enum saplingloft_refusal)b)) != 0);
}

int main(void)
{
    written();
    read();
    editions();
    flags();
    many();
    sentences();
    printf("layout: the header's structs and calls are the library's, state %zu bytes\n", sizeof state);
    return 0;
}
