/* Where things lie: a Cortex-M with 256 KB of flash at 0 and 16 KB of memory, as the micro:bit has them. There are no variables with first values. */
MEMORY
{
    flash (rx) : ORIGIN = 0x00000000, LENGTH = 256K
    memory (rw) : ORIGIN = 0x20000000, LENGTH = DEFINED(memory_size) ? memory_size : 16K
}

SECTIONS
{
    .text : { KEEP(*(.vectors)) *(.text*) *(.rodata*) } > flash
    .ARM.exidx : { *(.ARM.exidx*) } > flash
    .data : { *(.data*) } > memory
    ASSERT(SIZEOF(.data) == 0, "a variable has a first value, and nobody copies it from flash")
    .noinit (NOLOAD) : { *(.noinit*) } > memory /* stays as it is when the processor is restarted */
    .bss (NOLOAD) : { . = ALIGN(4); cleared = .; *(.bss*) *(COMMON) . = ALIGN(4); cleared_end = .; } > memory
    stack_top = ORIGIN(memory) + LENGTH(memory); /* the main stack grows down from the end */
    ASSERT(stack_top - cleared_end >= 4K, "less than 4 KB are left for the main stack")
}
