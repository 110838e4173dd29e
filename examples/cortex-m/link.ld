/* Code at 0, memory at 0x20000000: 16 kB of it are enough here. .kept is not cleared at the start. */
ENTRY(VECTORS)
MEMORY
{
    FLASH (rx) : ORIGIN = 0, LENGTH = 256K
    RAM (rwx) : ORIGIN = 0x20000000, LENGTH = 16K
}
SECTIONS
{
    .text : { KEEP(*(.vectors)) *(.text*) *(.rodata*) } >FLASH
    .ARM.exidx : { *(.ARM.exidx*) } >FLASH
    .kept (NOLOAD) : { *(.kept) } >RAM
    .bss (NOLOAD) : { . = ALIGN(4); _bss = .; *(.data*) *(.bss*) *(COMMON) . = ALIGN(4); _bss_end = .; } >RAM
    _stack_top = ORIGIN(RAM) + LENGTH(RAM);
}
