/* Where the simulated board `virt` of 64-bit Arm has its memory. */
SECTIONS
{
    . = 0x40100000;
    .text : { KEEP(*(.begin)) *(.text .text.*) *(.rodata .rodata.*) *(.data.rel.ro .data.rel.ro.*) }
    .data : { *(.data .data.* .sdata .sdata.*) }
    .bss (NOLOAD) : { *(.bss .bss.* .sbss .sbss.*) *(COMMON) }
}
