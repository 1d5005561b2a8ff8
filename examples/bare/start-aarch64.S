// Where the processor begins. Accesses that are not aligned are made faults, as they are on memory that is not cached; vector registers
// stay off, as they are after a reset. Memory that should be 0 is 0 on this board.
    .section .start, "ax"
    .globl _start
_start:
    adrp x0, stack_top
    add x0, x0, :lo12:stack_top
    mov sp, x0
    adrp x0, vectors
    add x0, x0, :lo12:vectors
    msr vbar_el1, x0
    mrs x0, sctlr_el1
    orr x0, x0, #2
    msr sctlr_el1, x0
    isb
    bl serve

    .text
    .balign 2048
vectors:
    .rept 16
    b fault
    .balign 128
    .endr

    .section .rodata
    .globl tape, tape_end
tape:
    .incbin "examples/tapes/blossom.tape"
tape_end:
