/* mps2-an500.ld: Arm's MPS2 board with a Cortex-M7, as QEMU has it. For a controller of yours change the two areas. */
MEMORY {
    flash (rx) : ORIGIN = 0x00000000, LENGTH = 4M
    ram (rwx) : ORIGIN = 0x20000000, LENGTH = 4M
}
ENTRY(reset)
stack_top = ORIGIN(ram) + LENGTH(ram);
SECTIONS {
    .text : {
        KEEP(*(.vectors))
        *(.text .text.*)
        *(.rodata .rodata.*)
        *(.init .fini)
    } > flash
    .ARM.extab : { *(.ARM.extab .ARM.extab.*) } > flash
    .ARM.exidx : {
        __exidx_start = .;
        *(.ARM.exidx .ARM.exidx.*)
        __exidx_end = .;
    } > flash
    .data : ALIGN(8) {
        data_start = .;
        *(.data .data.*)
        . = ALIGN(4);
        data_end = .;
    } > ram AT > flash
    data_stored = LOADADDR(.data);
    .bss (NOLOAD) : ALIGN(8) {
        bss_start = .;
        *(.bss .bss.* COMMON)
        . = ALIGN(4);
        bss_end = .;
    } > ram
    end = .;
}
