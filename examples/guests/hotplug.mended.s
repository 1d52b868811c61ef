# Hotplug, mended: hart 0 starts hart 1 again once hart_get_status says that it is STOPPED.
#! never 0 ecall HSM 0 0x1 -> ret -6
#! some 1 store back 0x1
#! end quiet
        .board  2, 4, 200, 0, 0x80000000, 0
        .equ    HSM, 0x48534d
        .equ    goes, 0x80002000         # hart 1 says that it goes off
        .equ    back, 0x80002008         # and that it is back

        .org    0x80000000
boot:   li      s0, goes
        li      a7, HSM
        li      a6, 0
        li      a0, 1
        la      a1, other
        li      a2, 0
        ecall                            # hart_start
1:      ld      t0, 0(s0)
        beqz    t0, 1b
        li      a6, 2
2:      li      a0, 1
        ecall                            # hart_get_status
        li      t0, 1                    # STOPPED
        bne     a1, t0, 2b
        li      a6, 0
        li      a0, 1
        la      a1, other
        li      a2, 1
        ecall                            # hart_start again
        ebreak

other:  li      s0, goes
        bnez    a1, again
        li      t0, 1
        sd      t0, 0(s0)
        li      a7, HSM
        li      a6, 1
        ecall                            # hart_stop, which doesn't return
again:  sd      a1, 8(s0)
        ebreak
