/* A flat program at address 0. It has no data of its own but constants. */
SECTIONS
{
    . = 0;
    .text : { *(.text.start) *(.text .text.*) *(.rodata .rodata.* .srodata .srodata.*) }
    .none : { *(.data .data.* .sdata .sdata.* .bss .bss.* .sbss .sbss.*) }
    ASSERT(SIZEOF(.none) == 0, "a program of this bench has no variables of its own")
    /DISCARD/ : { *(.comment) *(.note*) *(.eh_frame*) *(.riscv.attributes) }
}
