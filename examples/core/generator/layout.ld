/* Code from 0x80000000 on, page tables and shared pages where frame.S says that they are, and then data. */
OUTPUT_ARCH(riscv)
ENTRY(_start)

SECTIONS
{
    . = 0x80000000;
    .text : { KEEP(*(.text.start)) *(.text .text.*) }
    . = 0x80010000;
    .tables : { KEEP(*(.tables)) KEEP(*(.window)) . = ALIGN(4096); KEEP(*(.pages)) }
    .data : ALIGN(4096) { *(.data .data.*) . = ALIGN(64); }
    /DISCARD/ : { *(.comment .riscv.attributes .note.* .eh_frame .bss) }
}
