/* Where memory lies: put your board's numbers here. Data begins on a page of its own, for an emulator that protects the pages of code. */
MEMORY { RAM (rwx) : ORIGIN = 0x80000000, LENGTH = 512K }
ENTRY(reset)
SECTIONS {
    .text : { KEEP(*(.vectors)) *(.text*) *(.rodata*) . = ALIGN(4); } > RAM
    .data : ALIGN(4K) { data_begin = .; *(.data*) *(.sdata*) . = ALIGN(4); data_end = .; } > RAM
    data_image = data_begin;
    .bss : { bss_begin = .; *(.bss*) *(.sbss*) *(COMMON) . = ALIGN(16); bss_end = .; . += 16K; stack_top = .; } > RAM
}
