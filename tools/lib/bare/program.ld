/* Where the simulated board mps2-an385 has its memory. */
SECTIONS
{
    . = DEFINED(code_begin) ? code_begin : 0x00000000;
    .text : { KEEP(*(.vectors)) *(.text .text.*) *(.rodata .rodata.*) *(.data.rel.ro .data.rel.ro.*) }
    .ARM.exidx : { *(.ARM.exidx*) }
    . = DEFINED(data_begin) ? data_begin : 0x20000000;
    .data : { *(.data .data.*) }
    .stack (NOLOAD) : { *(.bss.main_stack) }
    .bss (NOLOAD) : { zero_begin = .; *(.bss .bss.*) *(COMMON) zero_end = .; }
}
