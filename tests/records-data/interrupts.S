# A supervisor of two harts that call their firmware with interrupts enabled, and again from their timers' handlers, all by the
# one ecall at `sbi`: a timer that has come while the firmware was at work is taken right behind the return.
.equ TIME, 0x54494d45
.equ RFENCE, 0x52464e43
.equ HSM, 0x48534d
.equ SRST, 0x53525354
.equ TICKS, 30000
.equ TURNS, 12

.section .text.boot, "ax"
.globl boot_entry
boot_entry:
        la      sp, first_stack
        li      a7, HSM                 # hart 1 begins with its stack as the opaque value
        li      a6, 0
        li      a0, 1
        la      a1, second_entry
        la      a2, second_stack
        call    sbi
        call    turns
wait:
        li      a7, HSM                 # until hart 1 is STOPPED
        li      a6, 2
        li      a0, 1
        call    sbi
        li      t0, 1
        bne     a1, t0, wait
        li      a0, 0                   # a shutdown
off:
        li      a7, SRST
        li      a6, 0
        li      a1, 0
        call    sbi
        j       off

second_entry:
        mv      sp, a1
        call    turns
        li      a7, HSM
        li      a6, 1
        call    sbi

# Calls with interrupts enabled until the handler ran so often; s0 counts.
turns:
        addi    sp, sp, -16
        sd      ra, 0(sp)
        la      t0, handler
        csrw    stvec, t0
        li      s0, 0
        call    set_timer
        li      t0, 1 << 5
        csrw    sie, t0
        csrsi   sstatus, 2
again:
        li      a7, 0x10                # get_spec_version
        li      a6, 0
        call    sbi
        li      t0, 0x1000000
        bne     a1, t0, wrong
        li      a7, RFENCE              # remote_fence_i of both harts
        li      a6, 0
        li      a0, 3
        li      a1, 0
        call    sbi
        bnez    a0, wrong
        li      t0, TURNS
        blt     s0, t0, again
        csrci   sstatus, 2
        csrw    sie, zero
        ld      ra, 0(sp)
        addi    sp, sp, 16
        ret
wrong:
        li      a0, 1                   # a cold reboot tells that an answer was lost
        j       off

sbi:
        ecall
        ret

set_timer:
        addi    sp, sp, -16
        sd      ra, 0(sp)
        rdtime  a0
        li      t0, TICKS
        add     a0, a0, t0
        li      a7, TIME
        li      a6, 0
        call    sbi
        ld      ra, 0(sp)
        addi    sp, sp, 16
        ret

.align 2
handler:
        addi    sp, sp, -48
        sd      ra, 0(sp)
        sd      a0, 8(sp)
        sd      a1, 16(sp)
        sd      t0, 24(sp)
        sd      a7, 32(sp)
        sd      a6, 40(sp)
        addi    s0, s0, 1
        call    set_timer
        ld      ra, 0(sp)
        ld      a0, 8(sp)
        ld      a1, 16(sp)
        ld      t0, 24(sp)
        ld      a7, 32(sp)
        ld      a6, 40(sp)
        addi    sp, sp, 48
        sret

.bss
.align 4
        .space  4096
first_stack:
        .space  4096
second_stack:
