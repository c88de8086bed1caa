/*
 * Two segments from 0x10000 on: code with data that is only read, and data that is written. No page is in both.
 * The files of picolibc for its own start and layout are not used: they copy the written data from a second place.
 */
OUTPUT_ARCH(riscv)
ENTRY(_start)

PHDRS
{
    code PT_LOAD FILEHDR PHDRS FLAGS(5);    /* read and executed */
    data PT_LOAD FLAGS(6);                  /* read and written */
}

SECTIONS
{
    . = 0x10000 + SIZEOF_HEADERS;
    .text : { *(.text.start) *(.text .text.*) } :code
    .rodata : { *(.rodata .rodata.* .srodata .srodata.*) } :code

    /* What runs before main, and what runs at exit, last one first. */
    .init_array :
    {
        __preinit_array_start = .;
        KEEP(*(.preinit_array))
        __preinit_array_end = .;
        __init_array_start = .;
        KEEP(*(SORT_BY_INIT_PRIORITY(.init_array.*)))
        KEEP(*(.init_array))
        __init_array_end = .;
        __fini_array_start = .;
        KEEP(*(SORT_BY_INIT_PRIORITY(.fini_array.*)))
        KEEP(*(.fini_array))
        __fini_array_end = .;
    } :code

    /* The variables of the thread, in place: there is one thread. .tbss itself takes no room, so its room is added. */
    . = ALIGN(4096);
    .tdata : { __tls_base = .; *(.tdata .tdata.*) } :data
    .tbss : { *(.tbss .tbss.*) } :data
    .tbss_room : { . = ADDR(.tbss); . += SIZEOF(.tbss); } :data

    .data : { *(.data .data.*) } :data
    .sdata : { __global_pointer$ = . + 0x800; *(.sdata .sdata.*) } :data
    .bss (NOLOAD) : { *(.sbss .sbss.*) *(.bss .bss.*) *(COMMON) } :data

    /DISCARD/ : { *(.eh_frame .eh_frame.*) *(.note .note.*) }
}
