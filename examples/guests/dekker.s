# Dekker's lock for two harts: who doesn't have the turn steps back until the other has been inside.
#! never 0 load 0x80002018 -> value 0x2
#! never 1 load 0x80002018 -> value 0x1
#! some 1 load 0x80002018 -> value 0x2
#! end quiet
#! can end quiet
        .board  2, 4, 200, 0, 0x80000000, 0
        .equ    wants, 0x80002000        # a word for each hart: whether it wants to enter
        .equ    turn, 0x80002010         # who goes first if both want
        .equ    inside, 0x80002018       # who is inside

        .org    0x80000000
boot:   li      a7, 0x48534d
        li      a6, 0
        li      a0, 1
        la      a1, enter
        li      a2, 0
        ecall                            # hart_start
        li      a0, 0

enter:  li      s0, wants
        slli    t0, a0, 3
        add     s1, s0, t0               # this hart's word
        xori    t0, t0, 8
        add     s2, s0, t0               # the other's
        li      t1, 1
again:  sd      t1, 0(s1)
1:      ld      t2, 0(s2)
        beqz    t2, within
        ld      t2, 16(s0)
        beq     t2, a0, 1b               # it is this hart's turn: the other steps back
        sd      zero, 0(s1)
2:      ld      t2, 16(s0)
        bne     t2, a0, 2b
        j       again
within: addi    t3, a0, 1
        sd      t3, 24(s0)
        ld      t4, 24(s0)
        xori    t2, a0, 1
        sd      t2, 16(s0)
        sd      zero, 0(s1)
        ebreak
