/* One piece of memory from 0x80000000 on, where every hart begins: code, data, zeroed data and stacks. All of
   it is in the image, which may have 16 MiB, so that nothing depends on what memory holds behind it. */
OUTPUT_ARCH(riscv)
ENTRY(_start)

MEMORY
{
    ram (rwx) : ORIGIN = 0x80000000, LENGTH = 16M
}

SECTIONS
{
    .text : { KEEP(*(.text.start)) *(.text .text.*) } > ram
    .data : ALIGN(4096)
    {
        *(.rodata .rodata.* .srodata .srodata.*)
        *(.data .data.* .sdata .sdata.*)
        *(.bss .bss.* .sbss .sbss.* COMMON)
        *(.stacks)
        . = ALIGN(64);
    } > ram
    /DISCARD/ : { *(.comment .riscv.attributes .note.* .eh_frame) }
}
