/* Where a kernel's parts are. The loader puts a segment where its address in kseg0 says, and
   fills with zeros up to its size in memory; it looks at nothing else of the file. */
OUTPUT_ARCH(mips)
ENTRY(start)
PHDRS
{
    vectors PT_LOAD;
    kernel PT_LOAD;
}
SECTIONS
{
    .vectors 0x80000000 : { *(.vectors) } :vectors
    page_table = 0x80001000;
    . = 0x80002000;
    .text : { *(.text .text.*) } :kernel
    .rodata : { *(.rodata .rodata.*) }
    .data : { *(.data .data.*) }
    .bss : { *(.bss .bss.* COMMON) }
    end = .;
    /* For a debugger: they are in the file, and in no segment. */
    .debug_info 0 : { *(.debug_info) }
    .debug_abbrev 0 : { *(.debug_abbrev) }
    .debug_line 0 : { *(.debug_line) }
    .debug_line_str 0 : { *(.debug_line_str) }
    .debug_str 0 : { *(.debug_str) }
    .debug_frame 0 : { *(.debug_frame) }
    .debug_loc 0 : { *(.debug_loc) }
    .debug_ranges 0 : { *(.debug_ranges) }
    .debug_aranges 0 : { *(.debug_aranges) }
    /DISCARD/ : { *(*) }
}
