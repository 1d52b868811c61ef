# A flag that hart 1 spins on, mended: hart 0 stores the data before the flag, so hart 1 finds them.
#! never 1 load 0x80002000 -> value 0x0
#! some 1 load 0x80002000 -> value 0x11
#! end quiet
        .board  2, 4, 100, 0, 0x80000000, 0
        .equ    data, 0x80002000
        .equ    flag, 0x80002008

        .org    0x80000000
boot:   li      a7, 0x48534d
        li      a6, 0
        li      a0, 1
        la      a1, other
        li      a2, 0
        ecall                            # hart_start
        li      s0, data
        li      t0, 0x11
        sd      t0, 0(s0)
        li      t0, 1
        sd      t0, 8(s0)                # the flag
        ebreak

other:  li      s0, data
1:      ld      t0, 8(s0)
        beqz    t0, 1b
        ld      t1, 0(s0)
        ebreak
