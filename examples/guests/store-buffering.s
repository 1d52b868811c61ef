# Store buffering (SB), a litmus test: each hart stores to its own word, then loads the other's. Memory is in order here, so at least one
# of them finds the other's store: no order ends with both registers 0. (On a real machine one does, without a fence between the two.)
#! exists 0:t1=1 /\ 1:t1=1
#! exists 0:t1=0 /\ 1:t1=1
#! forall 0:t1=1 \/ 1:t1=1
#! forall x=1 and y=1
        .board  2, 4, 100, 0, 0x80000000, 0
        .equ    x, 0x80002000
        .equ    y, 0x80002008

        .org    0x80000000
boot:   li      a7, 0x48534d            # hart_start: hart 1, at `other`
        li      a6, 0
        li      a0, 1
        la      a1, other
        li      a2, 0
        ecall
        li      s0, x
        li      t0, 1
        sd      t0, 0(s0)
        ld      t1, 8(s0)
        ebreak

other:  li      s0, x
        li      t0, 1
        sd      t0, 8(s0)
        ld      t1, 0(s0)
        ebreak
