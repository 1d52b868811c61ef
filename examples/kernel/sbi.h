/* Calls of the SBI, as docs/CALLS.md has them, and what both kernels of this folder share. */
#ifndef SBI_H
#define SBI_H

typedef unsigned long u64;

enum { BASE = 0x10, TIME = 0x54494D45, IPI = 0x735049, RFENCE = 0x52464E43, HSM = 0x48534D, SRST = 0x53525354 };
#ifndef HARTS
#define HARTS 4
#endif
enum { STARTED = 0, STOPPED = 1, SUSPENDED = 4 };
enum { SSIE = 1 << 1, STIE = 1 << 5 };

struct answer {
    long error;
    u64 value;
};

void sbi(u64 call[8]);
void boot_entry(void);
void start_entry(void);
void resume_entry(void);

static inline struct answer call(u64 eid, u64 fid, u64 a0, u64 a1, u64 a2, u64 a3, u64 a4, u64 a5)
{
    u64 registers[8] = { eid, fid, a0, a1, a2, a3, a4, a5 };
    sbi(registers);
    return (struct answer){ (long)registers[0], registers[1] };
}

#define SBI(eid, fid, a0, a1, a2) call(eid, fid, (u64)(a0), (u64)(a1), (u64)(a2), 0, 0, 0)

static inline struct answer start(u64 hart, void (*entry)(void), u64 opaque) { return SBI(HSM, 0, hart, entry, opaque); }
static inline u64 status(u64 hart) { return SBI(HSM, 2, hart, 0, 0).value; }
static inline struct answer send_ipi(u64 mask, u64 base) { return SBI(IPI, 0, mask, base, 0); }
static inline struct answer fence(u64 mask, u64 start, u64 size) { return call(RFENCE, 1, mask, 0, start, size, 0, 0); }
static inline struct answer set_timer(u64 time) { return SBI(TIME, 0, time, 0, 0); }

#define READ(csr) ({ u64 it; __asm__ volatile("csrr %0, " #csr : "=r"(it)); it; })
#define WRITE(csr, value) __asm__ volatile("csrw " #csr ", %0" : : "r"((u64)(value)) : "memory")
#define SET(csr, bits) __asm__ volatile("csrs " #csr ", %0" : : "r"((u64)(bits)) : "memory")
#define CLEAR(csr, bits) __asm__ volatile("csrc " #csr ", %0" : : "r"((u64)(bits)) : "memory")

/* Waits until an interrupt that sie enables is pending, and sees no trap of it, since sstatus.SIE is 0. */
static inline void wait_for(u64 bits)
{
    SET(sie, bits);
    while (!(READ(sip) & bits))
        __asm__ volatile("wfi");
}

static inline void take_ipi(void)
{
    wait_for(SSIE);
    CLEAR(sip, SSIE);
}

/* What one hart tells the others: how far it is. */
extern volatile u64 steps[HARTS];

static inline void reach(u64 hart, u64 step)
{
    __asm__ volatile("fence rw, rw" : : : "memory");
    steps[hart] = step;
}

static inline void await(u64 hart, u64 step)
{
    while (steps[hart] < step)
        ;
    __asm__ volatile("fence rw, rw" : : : "memory");
}

static inline void await_status(u64 hart, u64 wanted)
{
    while (status(hart) != wanted)
        for (volatile int i = 0; i < 200000; i++)
            ;
}

/* What C takes to be 0 at the beginning is made 0 at each entry by the firmware. */
static inline void clear_bss(void)
{
    extern u64 bss_start[], bss_end[];
    for (volatile u64 *at = bss_start; at < bss_end; at++)
        *at = 0;
}

#endif
