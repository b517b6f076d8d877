/* The memory of an LM3S6965: the program and its table in flash, one cpg_node in RAM. */
ENTRY(reset_handler)

MEMORY
{
    FLASH (rx) : ORIGIN = 0x00000000, LENGTH = 256K
    RAM (rwx) : ORIGIN = 0x20000000, LENGTH = 64K
}

SECTIONS
{
    .text :
    {
        KEEP(*(.vectors))
        *(.text*)
        *(.rodata*)
        . = ALIGN(4);
    } > FLASH

    data_in_flash = LOADADDR(.data);

    .data :
    {
        data_begin = .;
        *(.data*)
        . = ALIGN(4);
        data_end = .;
    } > RAM AT > FLASH

    .bss (NOLOAD) :
    {
        bss_begin = .;
        *(.bss*)
        *(COMMON)
        . = ALIGN(4);
        bss_end = .;
    } > RAM

    stack_top = ORIGIN(RAM) + LENGTH(RAM);
}
