# Where each node begins: a0 has the node's number, and every other register is 0.
#ifndef NODES
#define NODES 16
#endif
    .section .text.start, "ax"
    .globl _start
_start:
    addi    a1, zero, NODES         # the image's first word: how many nodes take part
    bgeu    a0, a1, spare
    .option push
    .option norelax
    la      gp, __global_pointer$
    .option pop
    la      sp, __stack_top         # each node's stack has 64 KiB below the one before it
    slli    t0, a0, 16
    sub     sp, sp, t0
    call    main
    li      a7, 93                  # end with the code that main returned
    ecall
spare:
    li      a7, 93                  # a node beyond that number ends with its own number
    ecall
