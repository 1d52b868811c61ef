# A page is given to somebody else while hart 1 hasn't touched it yet: no fence, since no TLB entry of it was seen. Hart 1's TLB may
# have walked ahead all the same.
#! steady                               # fails: another TLB may give hart 1 the old page
#! never _ load _ -> stale              # holds: this board's TLB doesn't walk ahead
#! some 1 load 0x1000 -> value 0x22
#! end quiet
        .board  2, 16, 1000, 0, 0x80000000, 0
        .equ    HSM, 0x48534d
        .equ    RFENCE, 0x52464e43
        .equ    flags, 0x80006000       # two words, which hart 1 has at 0x2000: hart 1 has the tables; the page is another one

        .org    0x80000000
boot:   li      t0, 0x80005000
        li      t1, 0x22
        sd      t1, 0(t0)               # what stands in the page that takes the place of the first one
        li      a7, HSM
        li      a6, 0
        li      a0, 1
        la      a1, other
        li      a2, 0
        ecall                           # hart_start
        li      s0, flags
1:      ld      t0, 0(s0)
        beqz    t0, 1b                  # until hart 1 has the tables
        la      s1, leaf
        li      t1, 0x200014c7
        sd      t1, 0(s1)               # page 0x1000 is 0x80005000 from now on
        li      t0, 1
        sd      t0, 8(s0)
        ebreak

other:  li      t0, 0x8000500000080001
        csrw    satp, t0                # Sv39, ASID 5, the root table at 0x80001000
        sfence.vma                      # walks see the tables from here on
        li      s1, 0x2000
        li      t0, 1
        sd      t0, 0(s1)
2:      ld      t0, 8(s1)
        beqz    t0, 2b                  # until the page is another one
        li      s0, 0x1000
        ld      t1, 0(s0)
        ebreak

        .bss                            # behind the text, so from 0x80001000 on
root:   .zero   4096
        .map    root, 0x1000, 0x80004000, rwad, leaf
        .map    root, 0x2000, flags, rwad
