/* Where an STM32G031 or G071 has its memory: of each the first 64 KiB of flash and 8 KiB of RAM. */
MEMORY
{
    flash (rx) : ORIGIN = 0x08000000, LENGTH = 64K
    ram (rwx) : ORIGIN = 0x20000000, LENGTH = 8K
}

SECTIONS
{
    .text : { KEEP(*(.vectors)) *(.text .text.*) *(.rodata .rodata.*) *(.data.rel.ro .data.rel.ro.*) } > flash
    .ARM.exidx : { *(.ARM.exidx*) } > flash
    .data : { data_begin = .; *(.data .data.*) . = ALIGN(4); data_end = .; } > ram AT > flash
    data_from = LOADADDR(.data);
    .bss (NOLOAD) : { zero_begin = .; *(.bss .bss.*) *(COMMON) . = ALIGN(8); zero_end = .; } > ram
    stack_end = ORIGIN(ram) + LENGTH(ram);
}
