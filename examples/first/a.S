# Puts `A` and ends with code 65.
    .globl _start
_start:
    li      a0, 65
    li      a7, 1
    ecall                           # put the low byte of a0
    li      a7, 93
    ecall                           # end with the code in a0
