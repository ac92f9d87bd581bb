/* An image for an emulated machine. ROM, RAM and RAM_SIZE come with the linker's words. */
MEMORY
{
    rom : ORIGIN = ROM, LENGTH = 192K
    ram : ORIGIN = RAM, LENGTH = RAM_SIZE
}

ENTRY(start)

SECTIONS
{
    .text : { KEEP(*(.vectors)) *(.text .text.*) *(.rodata .rodata.*) *(.srodata .srodata.*) . = ALIGN(8); } > rom
    .ARM.exidx : { *(.ARM.exidx .ARM.exidx.*) . = ALIGN(8); } > rom
    data_stored = LOADADDR(.data);
    .data : { data_start = .; *(.data .data.* .sdata .sdata.*) . = ALIGN(8); data_end = .; } > ram AT > rom
    .bss (NOLOAD) : { bss_start = .; *(.bss .bss.* .sbss .sbss.* COMMON) . = ALIGN(8); bss_end = .; } > ram
    stack_top = ORIGIN(ram) + LENGTH(ram);
    stack_low = stack_top - 4K;
    ASSERT(bss_end <= stack_low, "no room for the stack")
}
