/* Two segments: code with constants, which no one writes, and data with bss, which no one executes. */
ENTRY(_start)

PHDRS
{
    code PT_LOAD FLAGS(5);
    data PT_LOAD FLAGS(6);
}

SECTIONS
{
    . = 0x80000000;
    .text : {
        *(.text.start)
        *(.text .text.*)
        *(.rodata .rodata.* .srodata .srodata.*)
    } :code

    . = ALIGN(4096);
    .data : {
        *(.data .data.*)
        __global_pointer$ = . + 0x800;
        *(.sdata .sdata.*)
    } :data
    .bss : {
        /* The meadow of shared.h stands below all that is written, since a cache that needs a frame gives up its least block. */
        *(.bss.meadow)
        *(.sbss .sbss.*)
        *(.bss .bss.* COMMON)
    } :data

    /* Memory ends at 0x80400000; 16 stacks of 64 KiB stand at its end. */
    __stack_top = 0x80400000;
    ASSERT(. <= __stack_top - 16 * 0x10000, "no room for the stacks")

    /DISCARD/ : { *(.comment .note .note.* .eh_frame .riscv.attributes) }
}
