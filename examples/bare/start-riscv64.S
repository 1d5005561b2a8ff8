# Where the processor begins. Memory that should be 0 is 0 on this board.
    .section .start, "ax"
    .globl _start
_start:
    .option push
    .option norelax
    lla gp, __global_pointer$
    .option pop
    lla sp, stack_top
    lla t0, on_fault
    csrw mtvec, t0
    call serve

    .text
    .balign 4
on_fault:
    call fault

    .section .rodata
    .globl tape, tape_end
tape:
    .incbin "examples/tapes/blossom.tape"
tape_end:
