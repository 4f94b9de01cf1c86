# Each node takes the next number of a shared counter by one atomic addition, and puts it out as a digit.
        lui     s0, 524289              # 80001000, where the counter stands
        addi    t0, zero, 1
        amoadd.w t1, t0, (s0)           # what the counter was
        addi    a0, t1, 48
        addi    a7, zero, 1
        ecall                           # put the digit
        addi    a0, zero, 0
        addi    a7, zero, 93
        ecall                           # end
