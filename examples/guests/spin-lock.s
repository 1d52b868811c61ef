# A spin lock: amoswap.d writes 1, and the hart that reads 0 has it. Two harts count, and no count is lost.
#! never _ store 0x80002008 0x1 after _ store 0x80002008 0x1
#! some _ store 0x80002008 0x2
#! end quiet
        .board  2, 4, 200, 0, 0x80000000, 0
        .equ    lock, 0x80002000

        .org    0x80000000
boot:   li      a7, 0x48534d
        li      a6, 0
        li      a0, 1
        la      a1, work
        li      a2, 0
        ecall                            # hart_start

work:   li      s0, lock
1:      li      t0, 1
        amoswap.d.aq t0, t0, (s0)
        bnez    t0, 1b
        ld      t1, 8(s0)
        addi    t1, t1, 1
        sd      t1, 8(s0)
        amoswap.d.rl zero, zero, (s0)
        ebreak
