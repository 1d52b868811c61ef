# A page is given to somebody else, mended: hart 1 is fenced behind the change, and reads the new page, whatever TLB it has.
#! any tlb
#! never 1 load 0x1000 -> value 0x11
#! some 1 load 0x1000 -> value 0x22
#! end quiet
        .board  2, 16, 1000, 0, 0x80000000, 0
        .equ    HSM, 0x48534d
        .equ    RFENCE, 0x52464e43

        .org    0x80000000
boot:   li      a7, HSM
        li      a6, 0
        li      a0, 1
        la      a1, other
        li      a2, 0
        ecall                           # hart_start
        la      s0, flags
1:      ld      t0, 0(s0)
        beqz    t0, 1b                  # until hart 1 has the tables
        la      s1, leaf
        li      t1, 0x200008c7
        sd      t1, 0(s1)               # page 0x1000 is 0x80002000 from now on
        li      a7, RFENCE
        li      a6, 1
        li      a0, 2
        li      a1, 0
        li      a2, 0x1000
        li      a3, 0x1000
        ecall                           # remote_sfence_vma of this page to hart 1
        li      t0, 1
        sd      t0, 8(s0)
        ebreak

other:  li      t0, 0x8000500000080004
        csrw    satp, t0                # Sv39, ASID 5, the root table at 0x80004000
        sfence.vma                      # walks see the tables from here on
        li      s1, 0x2000
        li      t0, 1
        sd      t0, 0(s1)
2:      ld      t0, 8(s1)
        beqz    t0, 2b                  # until the page is another one
        li      s0, 0x1000
        ld      t1, 0(s0)
        ebreak

        .org    0x80001000
        .dword  0x11                    # the page's words, and those of the one that takes its place
        .org    0x80002000
        .dword  0x22
        .org    0x80003000
flags:  .dword  0, 0                    # hart 1 has the tables; the page is another one

        .bss
root:   .zero   4096
        .map    root, 0x1000, 0x80001000, rwad, leaf
        .map    root, 0x2000, flags, rwad
