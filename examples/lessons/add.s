# Adds 1 to the word at 80001000 by a load-reserved and a store-conditional, again until it is done.
lui x5, 0x80001
again:
lr.w x6, (x5)
addi x6, x6, 1
sc.w x7, x6, (x5)
bne x7, x0, again
addi x17, x0, 93
ecall
