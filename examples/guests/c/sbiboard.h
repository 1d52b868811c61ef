/*
 * Guests in C. The compiler makes of a file what `sbiboard explore` takes (docs/ASSEMBLY.md):
 *
 *     riscv64-linux-gnu-gcc -O2 -S -march=rv64ima -mabi=lp64 -mcmodel=medany -fno-pie -ffreestanding \
 *         -fno-tree-loop-distribute-patterns -fno-jump-tables -fno-asynchronous-unwind-tables FILE.c
 */
#ifndef SBIBOARD_H
#define SBIBOARD_H

typedef unsigned long u64;

/* A line of the assembly. */
#define SBI_LINE(text) __asm__(text)

/* The board, whose boot hart begins at ENTRY(boot). Sections stand from the RAM's first page on. */
#define BOARD(harts, pages, limit) \
    SBI_LINE(".board " #harts ", " #pages ", " #limit ", 0, boot, 0"); \
    SBI_LINE(".org 0x80000000")

/* A condition, as in `CONDITION("never 1 load 0x1000 -> value 0x33");`. */
#define CONDITION(text) SBI_LINE("#! " text)

/* Where harts begin: `NAME` is the address; the body that follows gets the hart's id and the opaque value, on a stack of its own. */
#define ENTRY(name) \
    void name(void); \
    void name##_body(u64 hart, u64 opaque); \
    __attribute__((used)) static u64 name##_stack[64]; \
    SBI_LINE(".text\n" #name ":\n\tlla sp, " #name "_stack + 512\n\tcall " #name "_body\n\tebreak"); \
    void name##_body(__attribute__((unused)) u64 hart, __attribute__((unused)) u64 opaque)

struct sbiret {
    long error;
    long value;
};

/* A call of the firmware (SBI 3). */
static inline struct sbiret sbi_call(u64 eid, u64 fid, u64 a, u64 b, u64 c, u64 d)
{
    register u64 a0 __asm__("a0") = a;
    register u64 a1 __asm__("a1") = b;
    register u64 a2 __asm__("a2") = c;
    register u64 a3 __asm__("a3") = d;
    register u64 a6 __asm__("a6") = fid;
    register u64 a7 __asm__("a7") = eid;
    __asm__ volatile("ecall" : "+r"(a0), "+r"(a1) : "r"(a2), "r"(a3), "r"(a6), "r"(a7) : "memory");
    return (struct sbiret){ (long)a0, (long)a1 };
}

static inline struct sbiret hart_start(u64 hart, void (*entry)(void), u64 opaque)
{
    return sbi_call(0x48534d, 0, hart, (u64)entry, opaque, 0);
}

static inline struct sbiret remote_sfence_vma(u64 mask, u64 base, u64 start, u64 size)
{
    return sbi_call(0x52464e43, 1, mask, base, start, size);
}

static inline void write_satp(u64 value)
{
    __asm__ volatile("csrw satp, %0" : : "r"(value) : "memory");
}

/* The word at an address, which is loaded or stored just here. */
#define AT(address) (*(volatile u64 *)(address))

/* Page tables (Privileged 4.4): an entry for a table, one for a page that can be read and written, and satp for a root table. */
#define PAGE_ALIGNED __attribute__((aligned(4096)))
#define TABLE(table) ((u64)(table) >> 12 << 10 | 0x1)
#define PAGE(page) ((u64)(page) >> 12 << 10 | 0xc7)
#define SV39(asid, root) (8UL << 60 | (u64)(asid) << 44 | (u64)(root) >> 12)

#endif
