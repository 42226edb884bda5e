/* QEMU's boards MPS2 with the images AN385 (Cortex-M3) and AN386 (Cortex-M4F): 4 MB for code at 0, 4 MB for data. A board of your own differs in
 * the two lines of MEMORY. */
ENTRY(reset)

MEMORY {
    code (rx) : ORIGIN = 0x00000000, LENGTH = 4M
    data (rwx) : ORIGIN = 0x20000000, LENGTH = 4M
}

SECTIONS {
    .text : {
        KEEP(*(.vectors))
        *(.text .text.*)
        *(.rodata .rodata.*)
        . = ALIGN(8);
    } > code
    .ARM.exidx : { *(.ARM.exidx* .ARM.extab*) } > code
    .init_array : {
        PROVIDE_HIDDEN(__preinit_array_start = .); PROVIDE_HIDDEN(__preinit_array_end = .);
        PROVIDE_HIDDEN(__init_array_start = .); KEEP(*(.init_array*)) PROVIDE_HIDDEN(__init_array_end = .);
    } > code
    .data : ALIGN(8) {
        data_start = .;
        *(.data .data.*)
        . = ALIGN(8);
        data_end = .;
    } > data AT > code
    data_stored = LOADADDR(.data);
    .bss (NOLOAD) : ALIGN(8) {
        bss_start = .;
        *(.bss .bss.* COMMON)
        . = ALIGN(8);
        bss_end = .;
    } > data
    end = .; /* where the C library's heap begins, for those programs that have one */
    stack_top = ORIGIN(data) + LENGTH(data);
}
