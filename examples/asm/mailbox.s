# Node 0 hands ten letters to node 1, one at a time, through a mailbox of two blocks: a word that says whether it is full, and the letter.
        lui     s0, 524289              # 80001000, whether the mailbox is full; its letter is 64 bytes on
        addi    s1, zero, 65            # the first letter
        addi    s2, zero, 75            # the one after the last
        bne     a0, zero, take
give:
        lw      t0, 0(s0)
        bne     t0, zero, give          # until it is empty
        sw      s1, 64(s0)
        addi    t1, zero, 1
        sw      t1, 0(s0)
        addi    s1, s1, 1
        bne     s1, s2, give
        jal     zero, end
take:
        lw      t0, 0(s0)
        beq     t0, zero, take          # until it is full
        lw      a0, 64(s0)
        addi    a7, zero, 1
        ecall                           # put the letter out
        sw      zero, 0(s0)
        addi    s1, s1, 1
        bne     s1, s2, take
end:
        addi    a7, zero, 93
        ecall                           # end with what a0 holds
