/* From the reset to main. */
#include "board.h"

#include <stddef.h>

int main(void);
void call_interrupt(void);
void switch_interrupt(void);
void clock_interrupt(void);
extern uint32_t stack_top[], cleared[], cleared_end[]; /* memory.ld */

static void reset(void)
{
    for (uint32_t *word = cleared; word != cleared_end; word++)
        *word = 0;
    main();
}

static void fault(void)
{
    print("a fault\n");
    leave(0);
}

/* Where the processor finds the main stack and its interrupts. */
__attribute__((section(".vectors"), used)) static const void *const vectors[16] = {
    stack_top, reset, fault, fault, fault, fault, fault, NULL, NULL, NULL, NULL, call_interrupt, NULL, NULL, switch_interrupt, clock_interrupt,
};

/* The sheet, as it stands in the file. */
__asm__(".section .rodata\n .global sheet\n .global sheet_end\n sheet: .incbin \"shares.txt\"\n sheet_end:\n .text");
