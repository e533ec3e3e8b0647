/* 1 MiB behind the beginning of MEMORY, and in the kernel's addresses 2 GiB below the top. */
ENTRY(start)
PHDRS { boot PT_LOAD FLAGS(5); text PT_LOAD FLAGS(5); data PT_LOAD FLAGS(6); note PT_NOTE FLAGS(4); }
KERNEL = 0xffffffff80000000;
SECTIONS {
    . = MEMORY + 0x100000;
    .boot : { *(.boot) } :boot
    .note.pvh : { KEEP(*(.note.pvh)) } :boot :note
    . = ALIGN(4096) + KERNEL - MEMORY;
    .text : AT(ADDR(.text) - KERNEL + MEMORY) { *(.text .text.*) } :text
    .rodata : AT(ADDR(.rodata) - KERNEL + MEMORY) { *(.rodata .rodata.*) } :text
    . = ALIGN(4096);
    .data : AT(ADDR(.data) - KERNEL + MEMORY) { *(.data .data.*) } :data
    .bss : AT(ADDR(.bss) - KERNEL + MEMORY) { *(.bss .bss.* COMMON) . = ALIGN(4096); } :data
    kernel_end = .;
    /DISCARD/ : { *(.eh_frame*) *(.comment) *(.note.gnu*) *(.note.GNU*) }
}
