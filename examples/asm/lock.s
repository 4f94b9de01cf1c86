# Each node takes a lock, adds 1 to a counter by a plain load and store, and gives the lock back.
        lui     s0, 524289              # 80001000, the lock; the counter stands in the next block
        addi    t0, zero, 1
take:
        lr.w    t1, (s0)
        bne     t1, zero, take          # somebody has it
        sc.w    t2, t0, (s0)
        bne     t2, zero, take          # somebody else took it, or a checkpoint came between
        lw      t3, 64(s0)
        addi    t3, t3, 1
        sw      t3, 64(s0)
        sw      zero, 0(s0)             # give it back
        addi    a0, t3, 0
        addi    a7, zero, 93
        ecall                           # end with the count as the code
