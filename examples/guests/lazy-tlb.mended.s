# A lazy TLB, mended: hart 0 reads who uses the page once its entry is changed, so who joins later finds the new one.
#! never 1 load 0x1000 -> value 0x33     # nobody reads a page that was given away
#! some 1 load 0x1000 -> value 0x22      # and hart 1 can read the new one
        .board  2, 16, 1000, 0, 0x80000000, 0
        .equ    HSM, 0x48534d
        .equ    RFENCE, 0x52464e43
        .equ    users, 0x80006000

        .org    0x80000000
boot:   li      t0, 0x80001000
        li      t1, 0x20000801
        sd      t1, 0(t0)                # the root table's first entry points to the table at 0x80002000
        li      t1, 0x20000c01
        li      t0, 0x80002000
        sd      t1, 0(t0)                # whose first entry points to the table at 0x80003000
        li      s2, 0x80003000
        li      t1, 0x200010c7
        sd      t1, 8(s2)                # whose second entry maps page 0x1000 to 0x80004000
        li      s3, 0x80004000
        li      t1, 0x11
        sd      t1, 0(s3)                # what stands in that page
        li      t0, 0x80005000
        li      t1, 0x22
        sd      t1, 0(t0)                # and in the page that takes its place
        li      a7, HSM
        li      a6, 0
        li      a0, 1
        la      a1, other
        li      a2, 0
        ecall                            # hart_start
        li      s0, users
        li      t1, 0x200014c7
        sd      t1, 8(s2)                # page 0x1000 is 0x80005000 from now on
        ld      s1, 0(s0)                # who uses the page
        beqz    s1, alone
        li      a7, RFENCE
        li      a6, 1
        mv      a0, s1
        li      a1, 0
        li      a2, 0x1000
        li      a3, 0x1000
        ecall                            # remote_sfence_vma of this page to its users
alone:  li      t1, 0x33
        sd      t1, 0(s3)                # the old page is somebody else's
        ebreak

other:  li      t0, users
        li      t1, 2
        amoor.d zero, t1, (t0)           # hart 1 joins the users
        li      t0, 0x8000500000080001
        csrw    satp, t0                 # Sv39, ASID 5, the root table at 0x80001000
        li      s0, 0x1000
        ld      t2, 0(s0)                # the TLB keeps the leaf that was found
        ld      t2, 0(s0)
        ebreak
