/* The scheduler inside a kernel: memory of the kernel's own, a call for each thing that happens, and a file that the state is saved to.
 *
 *     embed FILE
 *
 * does the worked run of document 01, on the way saves it to FILE and goes on from there, and damages FILE, which is then refused. Then two threads
 * of one priority take turns, each is set to another priority and back, and the file with a slice that no thread can have is refused too. At last a
 * thread runs until 400 cycles remain of its budget, under the sheet of a newer kit, where that is enough, and under that of an older one, where half
 * a tick must remain; and the file that has the older one's edition without stating it is refused. Each answer is printed as a line of the desk
 * program: refusal, mode, partition, thread. */
#include "saplingloft.h"

#include <stdio.h>
#include <string.h>

static const char sheet[] = "W 00 000004\n"
                            "C 00 001000\n"
                            "P 00 000000\n"
                            "M 00 000000\n"
                            "S 00 000050\n"
                            "S 01 000050\n";
static const char older[] = "W 00 000004\n"
                            "C 00 001000\n"
                            "P 00 000000\n"
                            "M 00 000000\n"
                            "E 00 000002\n" /* the edition: half a tick must remain */
                            "S 00 000050\n"
                            "S 01 000050\n";

enum { HISTORY = 2 * 4 }; /* two partitions, a window of four ticks */

/* What the kernel keeps of the scheduler, in memory and in a file: the state and the history, and beside them what they do not tell themselves. */
struct saved {
    uint32_t version;
    uint32_t size;
    struct saplingloft_state state;
    uint32_t history[HISTORY];
};

/* A fresh start from the text of a sheet. */
static enum saplingloft_refusal start(struct saved *kept, const char *text)
{
    kept->version = SAPLINGLOFT_VERSION;
    kept->size = sizeof kept->state;
    return saplingloft_start(&kept->state, kept->history, HISTORY, (const uint8_t *)text, strlen(text));
}

/* Something happened: the answer says which thread runs from now on. */
static void tell(struct saved *kept, const struct saplingloft_record *record)
{
    uint8_t event[SAPLINGLOFT_RECORD];
    saplingloft_encode(record, event);
    struct saplingloft_answer answer = saplingloft_event(&kept->state, kept->history, HISTORY, event, sizeof event);
    printf("%02d %d %02d %03d\n", answer.refusal, answer.mode, answer.partition, answer.thread);
}

static int save(const struct saved *kept, const char *name)
{
    FILE *file = fopen(name, "wb");
    if (file == NULL)
        return 0;
    size_t written = fwrite(kept, sizeof *kept, 1, file);
    return fclose(file) == 0 && written == 1;
}

/* What was saved, if it is of this version and of one piece. The decision door tells, and says which thread is to run. */
static int restore(struct saved *kept, const char *name)
{
    FILE *file = fopen(name, "rb");
    if (file == NULL)
        return 0;
    size_t read = fread(kept, sizeof *kept, 1, file);
    fclose(file);
    if (read != 1 || kept->version != SAPLINGLOFT_VERSION || kept->size != sizeof kept->state) {
        printf("not a state of version %d\n", SAPLINGLOFT_VERSION);
        return 0;
    }
    struct saplingloft_answer answer = saplingloft_decision(&kept->state, kept->history, HISTORY);
    if (answer.refusal != SAPLINGLOFT_ACCEPTED)
        printf("not restored: %s\n", saplingloft_sentence(answer.refusal));
    return answer.refusal == SAPLINGLOFT_ACCEPTED;
}

#define FIFO SAPLINGLOFT_POLICY_FIRST_IN_FIRST_OUT
#define ROUND_ROBIN SAPLINGLOFT_POLICY_ROUND_ROBIN

/* kind, thread, partition, priority, stamp, mask, policy */
static const struct saplingloft_record before[] = {
    { SAPLINGLOFT_KIND_CREATE, 0, 0, 10, 0, 1, FIFO }, { SAPLINGLOFT_KIND_CREATE, 1, 1, 20, 0, 1, FIFO },
    { SAPLINGLOFT_KIND_READY, 0, 0, 0, 0, 0, 0 },      { SAPLINGLOFT_KIND_READY, 1, 0, 0, 0, 0, 0 },
    { SAPLINGLOFT_KIND_TICK, 0, 0, 0, 1000, 0, 0 },    { SAPLINGLOFT_KIND_TICK, 0, 0, 0, 2000, 0, 0 },
};
static const struct saplingloft_record after[] = {
    { SAPLINGLOFT_KIND_TICK, 0, 0, 0, 3000, 0, 0 },
    { SAPLINGLOFT_KIND_TICK, 0, 0, 0, 4000, 0, 0 },
    { SAPLINGLOFT_KIND_READY, 1, 0, 0, 4500, 0, 0 }, /* refused: it is ready */
    { SAPLINGLOFT_KIND_TICK, 0, 0, 0, 7000, 0, 0 },  /* refused: it comes too late */
};
/* Two screen threads of priority 10: after a slice of the first the second has its turn. */
static const struct saplingloft_record turns[] = {
    { SAPLINGLOFT_KIND_CREATE, 2, 1, 10, 0, 1, ROUND_ROBIN },
    { SAPLINGLOFT_KIND_CREATE, 3, 1, 10, 0, 1, ROUND_ROBIN },
    { SAPLINGLOFT_KIND_CREATE, 4, 1, 10, 0, 1, 2 }, /* refused: there is no such policy */
    { SAPLINGLOFT_KIND_READY, 2, 0, 0, 0, 0, 0 },
    { SAPLINGLOFT_KIND_READY, 3, 0, 0, 0, 0, 0 },
    { SAPLINGLOFT_KIND_TICK, 0, 0, 0, 1000, 0, 0 },
    { SAPLINGLOFT_KIND_TICK, 0, 0, 0, 2000, 0, 0 },
    { SAPLINGLOFT_KIND_TICK, 0, 0, 0, 3000, 0, 0 },
    { SAPLINGLOFT_KIND_TICK, 0, 0, 0, 4000, 0, 0 },
};
/* Thread 2 is raised and lowered again, and runs on: who is lowered stands before its equals. Thread 3 is lowered and raised again, and waits: who is
 * raised stands behind them. */
static const struct saplingloft_record priorities[] = {
    { SAPLINGLOFT_KIND_SET_PRIORITY, 2, 0, 20, 4100, 0, 0 },
    { SAPLINGLOFT_KIND_SET_PRIORITY, 2, 0, 10, 4200, 0, 0 },
    { SAPLINGLOFT_KIND_SET_PRIORITY, 3, 0, 5, 4300, 0, 0 },
    { SAPLINGLOFT_KIND_SET_PRIORITY, 3, 0, 10, 4400, 0, 0 },
};
/* A tick that leaves 400 cycles of partition 1's budget, after the worked run's start. */
static const struct saplingloft_record remain[] = {
    { SAPLINGLOFT_KIND_TICK, 0, 0, 0, 1000, 0, 0 },
    { SAPLINGLOFT_KIND_TICK, 0, 0, 0, 1600, 0, 0 },
};
#define COUNT(array) (sizeof(array) / sizeof *(array))

static void tell_all(struct saved *kept, const struct saplingloft_record *records, size_t count)
{
    for (size_t i = 0; i < count; i++)
        tell(kept, &records[i]);
}

/* Whether what was saved is refused. */
static int refused(const struct saved *kept, const char *name)
{
    struct saved other;
    return save(kept, name) && !restore(&other, name);
}

int main(int count, char **words)
{
    struct saved kept, restored;
    if (count != 2 || start(&kept, sheet) != SAPLINGLOFT_ACCEPTED)
        return 1;
    tell_all(&kept, before, COUNT(before));
    if (!save(&kept, words[1]) || !restore(&restored, words[1]))
        return 1;
    tell_all(&restored, after, COUNT(after));
    restored.state.used[0] += 1; /* as a bad file might have it */
    if (!refused(&restored, words[1]) || start(&kept, sheet) != SAPLINGLOFT_ACCEPTED)
        return 1;
    tell_all(&kept, turns, COUNT(turns));
    tell_all(&kept, priorities, COUNT(priorities));
    kept.state.slices[3] = SAPLINGLOFT_SLICE + 1;
    if (!refused(&kept, words[1]))
        return 1;
    for (int i = 0; i < 2; i++) {
        if (start(&kept, i == 0 ? sheet : older) != SAPLINGLOFT_ACCEPTED)
            return 1;
        tell_all(&kept, before, 4); /* two threads, ready */
        tell_all(&kept, remain, COUNT(remain));
    }
    kept.state.settings.edition_stated = 0;
    return !refused(&kept, words[1]);
}
