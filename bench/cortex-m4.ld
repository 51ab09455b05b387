/* The board mps2-an386, as qemu has it: 4 MB at 0 for code and constants, 16 MB further up for data, heap and stack. */
MEMORY
{
    code (rx) : ORIGIN = 0, LENGTH = 4M
    data (rw) : ORIGIN = 0x21000000, LENGTH = 16M
}
SECTIONS
{
    .text : { KEEP(*(.vectors)) *(.text*) *(.rodata*) KEEP(*(.init)) KEEP(*(.fini)) *(.init_array*) *(.fini_array*) } > code
    .ARM.exidx : { *(.ARM.exidx*) } > code
    .data : { *(.data*) } > data
    .bss : { __bss_start__ = .; *(.bss*) *(COMMON) __bss_end__ = .; } > data
    end = .;
    __end__ = .;
    stack_top = ORIGIN(data) + LENGTH(data);
}
