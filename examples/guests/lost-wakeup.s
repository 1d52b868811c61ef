# A lost wake-up: hart 1 looks at the flag, and then clears its pending interrupt, which may be the one that tells of the flag.
#! end quiet
        .board  2, 4, 100, 0, 0x80000000, 0
        .equ    flag, 0x80002000
        .equ    SSI, 2                   # the bit of software interrupts in sie and sip

        .org    0x80000000
boot:   li      a7, 0x48534d
        li      a6, 0
        li      a0, 1
        la      a1, other
        li      a2, 0
        ecall                            # hart_start
        li      s0, flag
        li      t0, 1
        sd      t0, 0(s0)
        li      a7, 0x735049
        li      a6, 0
        li      a0, 2
        li      a1, 0
        ecall                            # send_ipi to hart 1
        ebreak

other:  li      s0, flag
        li      s1, SSI
        csrw    sie, s1
        ld      t0, 0(s0)
        bnez    t0, done
        csrc    sip, s1                  # too late: this belongs before the load
        wfi
done:   ebreak
