/* Where the simulated board `virt` of RISC-V has its memory. */
SECTIONS
{
    . = 0x80000000;
    .text : { KEEP(*(.begin)) *(.text .text.*) *(.rodata .rodata.*) *(.data.rel.ro .data.rel.ro.*) }
    .data : { *(.data .data.* .sdata .sdata.*) }
    .bss (NOLOAD) : { *(.bss .bss.* .sbss .sbss.*) *(COMMON) }
}
