/* A kernel of four harts: it starts them, sends IPIs, sets timers, suspends, maps a page anew and shoots its translation
   down (and forgets a hart the first time), stops a hart and starts it again, and reboots. In its second life it switches
   the machine off. */
#include "sbi.h"

volatile u64 steps[HARTS];
static u64 boot, others;
static volatile u64 seen[HARTS], page_a[512], page_b[512];
static u64 root[512] __attribute__((aligned(4096)));
static u64 middle[512] __attribute__((aligned(4096)));
static volatile u64 leaves[512] __attribute__((aligned(4096)));

/* Outside of the image, so that it outlives a warm reboot: how often the kernel was entered, beside a mark. */
#define LIVES ((volatile u64 *)0x80400000)

enum { MAGIC = 0x6c69766573, PAGE = 0x1000, LEAF = 0xc7 /* D A W R V */, POINTER = 1 };

#define SATP (8UL << 60 | (u64)root >> 12)

/* The page at 0x1000 is the one given; the gigabyte of the kernel is mapped to itself, with rights to execute. */
static void map(volatile u64 *page)
{
    root[0] = (u64)middle >> 12 << 10 | POINTER;
    root[2] = 0x80000UL << 10 | 0xcf;
    middle[0] = (u64)leaves >> 12 << 10 | POINTER;
    leaves[1] = (u64)page >> 12 << 10 | LEAF;
    __asm__ volatile("fence rw, rw" : : : "memory");
}

static u64 look(void) { return *(volatile u64 *)PAGE; }

/* Many calls of all harts at once: IPIs, fences and states, in an order that nobody fixes. */
static void storm(u64 hart)
{
    for (u64 i = 0; i < 6; i++) {
        send_ipi(others | 1UL << boot, 0);
        fence(1UL << (hart + 1 + i) % HARTS, PAGE, PAGE);
        status((hart + 1 + i) % HARTS);
        CLEAR(sip, SSIE);
    }
}

/* Which of the others a hart is: 1, 2 or 3, whichever boots. */
static u64 role_of(u64 hart) { return (hart + HARTS - boot) % HARTS; }
static u64 hart_of(u64 role) { return (boot + role) % HARTS; }

static void share(u64 hart)
{
    WRITE(satp, SATP);
    __asm__ volatile("sfence.vma" : : : "memory");
    seen[hart] = look();
    reach(hart, 4);
    await(boot, 4);
    seen[hart] = look(); /* the hart that was forgotten may see the old page */
    reach(hart, 5);
    await(boot, 5);
    seen[hart] = look(); /* and now nobody may */
    reach(hart, 6);
    storm(hart);
    reach(hart, 7);
}

static void leave(void)
{
    SBI(HSM, 1, 0, 0, 0);
}

void start_main(u64 hart, u64 opaque)
{
    if (opaque == 0x99) { /* a second start, after a stop */
        reach(hart, 9);
        for (;;)
            __asm__ volatile("wfi");
    }
    reach(hart, 1);
    take_ipi();
    reach(hart, 2);
    if (role_of(hart) == 1) {
        set_timer(READ(time) + 20000);
        wait_for(STIE);
        set_timer(-1);
    } else if (role_of(hart) == 2) {
        SET(sie, SSIE);
        SBI(HSM, 3, 0, 0, 0);
        take_ipi();
    } else {
        SET(sie, SSIE);
        SBI(HSM, 3, 0x80000000, resume_entry, 0x55);
    }
    reach(hart, 3);
    share(hart);
    leave();
}

void resume_main(u64 hart, u64 opaque)
{
    take_ipi();
    reach(hart, opaque == 0x55 ? 3 : 0);
    share(hart);
    leave();
}

static void await_all(u64 step)
{
    for (u64 role = 1; role < HARTS; role++)
        await(hart_of(role), step);
}

static void greet(void)
{
    static const u64 known[] = { BASE, TIME, IPI, RFENCE, HSM, SRST };
    SBI(BASE, 0, 0, 0, 0);
    for (u64 i = 0; i < sizeof known / sizeof *known; i++)
        SBI(BASE, 3, known[i], 0, 0);
}

static void wake_sleepers(void)
{
    await_status(hart_of(2), SUSPENDED);
    await_status(hart_of(3), SUSPENDED);
    send_ipi(1UL << hart_of(2), 0);
    send_ipi(1, hart_of(3));
    await_all(3);
}

static void remap(void)
{
    page_a[0] = 0x11;
    page_b[0] = 0x22;
    map(page_a);
    WRITE(satp, SATP);
    __asm__ volatile("sfence.vma" : : : "memory");
    await_all(4);
    map(page_b);
    fence(1UL << boot | 1UL << hart_of(1), PAGE, PAGE); /* harts 2 and 3 are forgotten */
    reach(boot, 4);
    await_all(5);
    fence(1UL << boot | others, PAGE, PAGE);
    reach(boot, 5);
    await_all(6);
    storm(boot);
    await_all(7);
}

static void second_life(void)
{
    SBI(BASE, 0, 0, 0, 0);
    SBI(SRST, 0, 0, 0, 0);
}

void boot_main(u64 hart, u64 opaque)
{
    (void)opaque;
    clear_bss();
    boot = hart;
    if (LIVES[0] == MAGIC && LIVES[1]++ == 1)
        second_life();
    LIVES[0] = MAGIC;
    LIVES[1] = 1;
    greet();
    for (u64 role = 1; role < HARTS; role++) {
        others |= 1UL << hart_of(role);
        start(hart_of(role), start_entry, 7);
        await(hart_of(role), 1);
    }
    map(page_a);
    send_ipi(others, 0);
    await_all(2);
    wake_sleepers();
    remap();
    for (u64 role = 1; role < HARTS; role++)
        await_status(hart_of(role), STOPPED);
    start(hart_of(3), start_entry, 0x99);
    await(hart_of(3), 9);
    set_timer(READ(time) + 20000);
    SET(sie, STIE);
    SBI(HSM, 3, 0, 0, 0); /* and sleeps until then */
    set_timer(-1);
    SBI(SRST, 0, 2, 0, 0);
    SBI(SRST, 0, 1, 0, 0);
}
