/* Memory of a board that is emulated: where code and data start is given by --defsym. The emulator loads all of it. */
ENTRY(start)
MEMORY {
    CODE (rx) : ORIGIN = CODE_START, LENGTH = 2M
    DATA (rw) : ORIGIN = DATA_START, LENGTH = 2M
}
SECTIONS {
    .text : {
        KEEP(*(.vectors))
        *(.text .text.* .rodata .rodata.*)
    } >CODE
    .ARM.exidx : { *(.ARM.exidx .ARM.exidx.*) } >CODE
    .data : { *(.data .data.*) } >DATA
    .bss (NOLOAD) : {
        . = ALIGN(4);
        bss_start = .;
        *(.bss .bss.* COMMON)
        . = ALIGN(8);
        bss_end = .;
        end = .;
    } >DATA
    stack_top = ORIGIN(DATA) + LENGTH(DATA);
}
