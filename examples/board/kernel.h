/* What the kernel has for its jobs. */
#ifndef KERNEL_H
#define KERNEL_H

#include <stdint.h>

/* The jobs: job j is partition j of shares.txt. */
enum { TRACKING, LOGGER, RADIO, SCREEN, JOBS };

/* Their threads: each job has the thread of its own number, and the screen has another one. */
enum { MENU = JOBS, THREADS };

/* The longest window that there is memory for, in ticks: shares.txt has no more. */
enum { WINDOW = 50 };

struct work {
    void (*body)(void);
    uint8_t job;
    uint8_t priority;
    uint8_t policy; /* enum saplingloft_policy */
};
extern const struct work works[THREADS];

uint32_t uptime(void);           /* ticks since the processor was started */
void sleep_for(uint32_t ticks);  /* blocks the calling thread for so long */
void wait(void);                 /* blocks the calling thread until another wakes it */
void wake(uint32_t thread);      /* makes a thread ready; if it is, nothing happens */
void erase_flash(void);          /* the processor stands still for three ticks */
void restart(void);              /* restarts the processor, and the scheduler's state is taken up again */
void finish(void);               /* ends the emulation */

#endif
