/* The memory of the board mps2-an386: code and data from 0 on, and the stack at the end of that. */
MEMORY { ram (rwx) : ORIGIN = 0x00000000, LENGTH = 4M }
SECTIONS {
    .text : { KEEP(*(.vectors)) *(.text*) *(.rodata*) } > ram
    .data : { *(.data*) } > ram
    .bss : { *(.bss*) *(COMMON) } > ram
    stack_end = ORIGIN(ram) + LENGTH(ram);
}
