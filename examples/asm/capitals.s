# Puts out what it is given, in capital letters, up to the end of the line.
next:
        addi    a7, zero, 2
        ecall                           # get a byte
        addi    t0, zero, 10
        beq     a0, t0, done
        addi    a0, a0, -32             # a small letter becomes a capital
        addi    a7, zero, 1
        ecall                           # put it
        jal     zero, next
done:
        addi    a0, zero, 0
        addi    a7, zero, 93
        ecall                           # end
