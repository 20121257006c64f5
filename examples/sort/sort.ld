/* Code from 0x10000 on, data from 0x12000 on, and the stacks below 0x14000: all in the memory that both cores share. */
OUTPUT_ARCH(riscv)
ENTRY(_start)

PHDRS
{
    code PT_LOAD FLAGS(5);
    data PT_LOAD FLAGS(6);
}

SECTIONS
{
    . = 0x10000;
    .text : { *(.text.start) *(.text .text.*) *(.rodata .rodata.*) } :code
    . = 0x12000;
    .data : { *(.data .data.* .sdata .sdata.*) } :data
    .bss : { *(.bss .bss.* .sbss .sbss.*) *(COMMON) } :data
    stack_top = 0x14000;
    /DISCARD/ : { *(.comment) *(.riscv.attributes) *(.note .note.*) }
}
