/* Where things stand in a Cortex-M3 of mps2-an385: code at 0, data in the RAM at 0x20000000. */
MEMORY {
    code (rx) : ORIGIN = 0x00000000, LENGTH = 4M
    ram (rwx) : ORIGIN = 0x20000000, LENGTH = 4M
}

stack_top = ORIGIN(ram) + LENGTH(ram);

SECTIONS {
    .text : {
        KEEP(*(.vectors))
        *(.text*)
        *(.rodata*)
        . = ALIGN(4);
    } > code
    .ARM.exidx : { *(.ARM.exidx*) } > code
    .data : {
        data_begin = .;
        *(.data*)
        . = ALIGN(4);
        data_end = .;
    } > ram AT > code
    data_load = LOADADDR(.data);
    .bss : {
        bss_begin = .;
        *(.bss*)
        *(COMMON)
        . = ALIGN(4);
        bss_end = .;
    } > ram
}
