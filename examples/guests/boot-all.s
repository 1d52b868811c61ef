# A boot of all harts: hart 0 starts each other one with the top of its stack as opaque value. Each pushes its id, waits until all are
# there, and finds its own id when it pops.
#! never _ store wrong
#! some 2 load there -> value 0x7
#! end quiet
#! can end quiet
        .board  3, 8, 300, 0, 0x80000000, 0

        .org    0x80000000
boot:   li      s1, 1
        li      a7, 0x48534d
        li      a6, 0
1:      addi    t1, s1, 1
        slli    t1, t1, 6                # 64 bytes for each stack
        la      a2, stacks
        add     a2, a2, t1
        mv      a0, s1
        la      a1, main
        ecall                            # hart_start
        addi    s1, s1, 1
        li      t0, 3
        bltu    s1, t0, 1b
        li      a0, 0
        la      a1, stacks + 64

main:   addi    sp, a1, -16              # a0 is the hart's id, a1 the opaque value
        sd      a0, 0(sp)
        la      s0, there
        li      t0, 1
        sll     t0, t0, a0
        amoor.d zero, t0, (s0)
        li      t1, 7
2:      ld      t0, 0(s0)
        bne     t0, t1, 2b
        ld      t0, 0(sp)
        beq     t0, a0, 3f
        sd      t0, 8(s0)
3:      ebreak

        .bss
there:  .zero   8                        # a bit for each hart
wrong:  .zero   8                        # another hart's id
stacks: .zero   3 * 64
