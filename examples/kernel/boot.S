# The entries of a hart: by the firmware at the power's coming, by hart_start, and by the resume of a non-retentive
# suspend. In each a0 is the hart's id, and a1 the opaque value. Each hart has a stack of its own, of 4 KiB.
        .section .text.boot, "ax"
        .globl  boot_entry, start_entry, resume_entry

boot_entry:
        call    take_stack
        call    boot_main
1:      wfi
        j       1b

        .balign 256
start_entry:
        call    take_stack
        call    start_main
1:      wfi
        j       1b

        .balign 256
resume_entry:
        call    take_stack
        call    resume_main
1:      wfi
        j       1b

take_stack:
        la      sp, stacks
        addi    t0, a0, 1
        slli    t0, t0, 12
        add     sp, sp, t0
        la      t0, trap
        csrw    stvec, t0
        ret

# No trap is wanted: interrupts are looked at in sip, with sstatus.SIE 0. But an access that faults is passed over: its
# cause is left in sscratch. It clobbers t6, and the access has 4 bytes.
        .balign 4
trap:
        csrr    t6, scause
        csrw    sscratch, t6
        csrr    t6, sepc
        addi    t6, t6, 4
        csrw    sepc, t6
        sret

# sbi(call): one ECALL with the eight registers of the call, a7, a6, a0 to a5. a0 and a1 go back into its first two places.
        .globl  sbi
sbi:
        mv      t0, a0
        ld      a7, 0(t0)
        ld      a6, 8(t0)
        ld      a0, 16(t0)
        ld      a1, 24(t0)
        ld      a2, 32(t0)
        ld      a3, 40(t0)
        ld      a4, 48(t0)
        ld      a5, 56(t0)
        ecall
        sd      a0, 0(t0)
        sd      a1, 8(t0)
        ret

        .section .stacks, "aw", @nobits
        .balign 4096
stacks: .space  8 * 4096
