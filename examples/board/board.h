/* The hardware: what every Cortex-M has, and semihosting, by which a debugger or an emulator does what a board cannot do alone. */
#ifndef BOARD_H
#define BOARD_H

#include <stdint.h>

#define REGISTER(address) (*(volatile uint32_t *)(address))

/* The clock, which counts down to 0, asks for an interrupt there and begins again at RELOAD. */
#define SYSTICK_CONTROL REGISTER(0xE000E010) /* 7: on, with interrupts, at the processor's clock */
#define SYSTICK_RELOAD REGISTER(0xE000E014)
#define SYSTICK_CURRENT REGISTER(0xE000E018)

/* Interrupts: asking for the switch of threads; whether the clock has asked, and taking that back. */
#define INTERRUPTS REGISTER(0xE000ED04)
#define ASK_FOR_SWITCH (1u << 28)
#define TICK_WAITS (1u << 26)
#define DROP_TICK (1u << 25)

/* The switch has the lowest priority; the clock and the jobs' calls stay at the highest, so that neither comes in between the other. */
#define PRIORITIES REGISTER(0xE000ED20)
#define SWITCH_LOWEST (0xFFu << 16)

/* Restarting the processor. Memory stays as it is. */
#define RESET_CONTROL REGISTER(0xE000ED0C)
#define RESET_NOW 0x05FA0004

/* ---- Semihosting. A board without a debugger has a serial port instead: then write_file is the one to change. */

enum semihosting { SYS_OPEN = 0x01, SYS_WRITE0 = 0x04, SYS_WRITE = 0x05, SYS_SEEK = 0x0A, SYS_FLEN = 0x0C, SYS_EXIT = 0x18 };

static inline uint32_t semihosting(enum semihosting operation, const void *argument)
{
    register uint32_t r0 __asm__("r0") = operation;
    register const void *r1 __asm__("r1") = argument;
    __asm__ volatile("bkpt 0xAB" : "+r"(r0) : "r"(r1) : "memory");
    return r0;
}

static inline void print(const char *text) { semihosting(SYS_WRITE0, text); }

/* A file beside the emulator, made anew or written on at its end. */
static inline uint32_t open_file(const char *name, uint32_t name_length, int at_end)
{
    const uint32_t how[] = { (uint32_t)name, at_end ? 9 : 5, name_length }; /* 9 is C's "ab", 5 is "wb" */
    uint32_t file = semihosting(SYS_OPEN, how);
    const uint32_t end[] = { file, semihosting(SYS_FLEN, &file) };
    semihosting(SYS_SEEK, end); /* QEMU begins at 0 with "ab" too */
    return file;
}

static inline void write_file(uint32_t file, const void *bytes, uint32_t length)
{
    const uint32_t what[] = { file, (uint32_t)bytes, length };
    semihosting(SYS_WRITE, what);
}

static inline __attribute__((noreturn)) void leave(int fine)
{
    semihosting(SYS_EXIT, (const void *)(fine ? 0x20026 : 0x20023)); /* the end of the program, or an error of it */
    for (;;) {}
}

#endif
