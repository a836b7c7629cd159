/* Code and its data from 0x80000000 on; what is in .data begins at 0x80001000. */
OUTPUT_ARCH(riscv)
ENTRY(_start)

SECTIONS
{
    . = 0x80000000;
    _start = .;
    .text : { *(.text) }
    . = 0x80001000;
    .data : { *(.data) }
    /DISCARD/ : { *(.comment .riscv.attributes .note.* .eh_frame .bss) }
}
