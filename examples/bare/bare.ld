/* Code in flash from the vectors on, data and stack in RAM; cortex_m0.ld and cortex_m4.ld say where these are. */
ENTRY(reset)
SECTIONS
{
    .text : { KEEP(*(.vectors)) *(.text .text.*) *(.rodata .rodata.*) . = ALIGN(8); } >FLASH
    .ARM.exidx : { *(.ARM.exidx*) } >FLASH
    .data : { data_start = .; *(.data .data.*) . = ALIGN(4); data_end = .; } >RAM AT>FLASH
    data_load = LOADADDR(.data);
    .bss (NOLOAD) : { bss_start = .; *(.bss .bss.* COMMON) . = ALIGN(8); bss_end = .; } >RAM
    stack_top = ORIGIN(RAM) + LENGTH(RAM);
}
