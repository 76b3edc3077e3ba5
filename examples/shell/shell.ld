/* Where the shell's parts are. */
OUTPUT_ARCH(mips)
ENTRY(start)
PHDRS
{
    shell PT_LOAD;
}
SECTIONS
{
    .vectors 0x80000000 : { *(.vectors) } :shell
    .text 0x80000200 : { *(.text .text.*) *(.rodata .rodata.*) *(.data .data.*) }
    .bss : { *(.bss .bss.* COMMON) }
    /DISCARD/ : { *(*) }
}
