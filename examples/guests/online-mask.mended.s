# A mask of harts that are online, mended: each sets its bit by one amoor.d.
#! can end quiet
#! some 0 load mask -> value 0x6
        .board  3, 4, 200, 0, 0x80000000, 0
        .equ    mask, 0x80002000

        .org    0x80000000
boot:   li      s1, 1
        li      a7, 0x48534d
        li      a6, 0
1:      mv      a0, s1
        la      a1, other
        li      a2, 0
        ecall                            # hart_start
        addi    s1, s1, 1
        li      t0, 3
        bltu    s1, t0, 1b
        li      s0, mask
        li      t1, 6
2:      ld      t0, 0(s0)
        bne     t0, t1, 2b
        ebreak

other:  li      s0, mask
        li      t0, 1
        sll     t0, t0, a0
        amoor.d zero, t0, (s0)
        ebreak
