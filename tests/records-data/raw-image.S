# A supervisor that is run as a raw image: it maps itself at the upper end of the addresses, too, and goes on and fences there.
        .section .text.boot, "ax"
        .globl  boot_entry
boot_entry:
        lla     t0, root
        srli    t0, t0, 12
        li      t1, 8 << 60
        or      t0, t0, t1
        csrw    satp, t0
        sfence.vma
        lla     t0, upper
        li      t1, 0xffffffc000000000 - 0x80000000
        add     t0, t0, t1
        jr      t0

upper:  sfence.vma
        lla     t0, root
        sd      zero, 8(t0)
        li      t1, 0x1000
        sfence.vma t1, zero
        fence.i
        li      a7, 0x53525354
        li      a6, 0
        li      a0, 0
        li      a1, 0
        ecall
1:      j       1b

# Gigabytes: one that is taken away, the image's own, and the image again at 0xffffffc000000000.
        .balign 4096
root:   .dword  0, 0x10000000 | 0xc7, 0x20000000 | 0xcf
        .zero   8 * 253
        .dword  0x20000000 | 0xcf
        .zero   8 * 255
