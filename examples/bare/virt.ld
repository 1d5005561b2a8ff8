/* Memory from `ram` on, which the linker is told, and 64 KiB of stack. */
ENTRY(_start)
SECTIONS
{
    . = ram;
    .text : { *(.start) *(.text .text.*) }
    .rodata : { *(.rodata .rodata.*) }
    .data : { *(.data .data.*) }
    .bss : { *(.bss .bss.*) . = ALIGN(16); . = . + 0x10000; stack_top = .; }
}
