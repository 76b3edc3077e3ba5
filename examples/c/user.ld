/* A process begins at 00400000, with its first function. */
OUTPUT_ARCH(mips)
ENTRY(_start)
SECTIONS
{
    .text 0x00400000 : { *(.text.first) *(.text .text.*) *(.rodata .rodata.*) *(.data .data.*) *(.bss .bss.* COMMON) }
    /DISCARD/ : { *(*) }
}
