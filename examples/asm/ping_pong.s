# Two nodes take turns on one word. Each look at it is an atomic operation, so its block moves at every turn.
        lui     s0, 524289              # 80001000, the number of the turn
        addi    s1, zero, 2             # how often a node has its turn
wait:
        amoadd.w t0, zero, (s0)
        andi    t1, t0, 1
        bne     t1, a0, wait            # a node begins with its number in a0: even turns are node 0's
        addi    t2, t0, 1
        sw      t2, 0(s0)               # the other's turn
        addi    s1, s1, -1
        bne     s1, zero, wait
        addi    a7, zero, 93
        ecall                           # end with the node's number as the code
