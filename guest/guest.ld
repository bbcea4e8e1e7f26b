/* Three segments: text that can be executed and read, constants that can only be read, data that
   can be read and written (docs/IMAGES.md, "Segments"). Each begins in a page of its own, at the
   offset in the page that it has in the file, so that the file has no gaps. */
OUTPUT_ARCH(riscv)
ENTRY(_start)

PHDRS
{
    text PT_LOAD FLAGS(5);
    constants PT_LOAD FLAGS(4);
    data PT_LOAD FLAGS(6);
}

SECTIONS
{
    . = 0x00010000 + SIZEOF_HEADERS;
    .text : ALIGN(4) { KEEP(*(.text.start)) *(.text .text.*) } :text

    . = ALIGN(0x1000) + (. & 0xfff);
    .rodata : ALIGN(8) { LONG(0) *(.rodata .rodata.*) *(.srodata .srodata.*) } :constants

    . = ALIGN(0x1000) + (. & 0xfff);
    /* A word of its own: a segment without bytes in the file may be placed past the file's end. */
    .data : ALIGN(8) { LONG(0) *(.data .data.*) *(.sdata .sdata.*) } :data
    .bss : { *(.sbss .sbss.*) *(.bss .bss.*) *(COMMON) } :data

    ASSERT(. <= 0x00400000, "segments end below the heap")

    /DISCARD/ : { *(.comment) *(.riscv.attributes) *(.eh_frame .eh_frame.*) *(.note .note.*) }
}
