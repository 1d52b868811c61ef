/* A kernel that asks what firmware leaves open: hart lists with bits of harts that aren't there, ranges that wrap,
   addresses that aren't right, reserved and vendor types, ids with stray upper bits, states that are pending; and what
   loads and stores see. Its boot hart asks; the others do what they are told by their opaque value. */
#include "sbi.h"

volatile u64 steps[HARTS];
static u64 boot;

enum { SLEEP = 1, SLEEP_DEEP, SLEEP_DEAF, STOP_OPEN, KEEP_TIMER, WAIT };
/* Where the firmware itself is: no supervisor can begin there. */
#define FIRMWARE 0x80000000UL

enum { LEGACY_PUTCHAR = 1, PMU = 0x504D55, DEBUG_CONSOLE = 0x4442434E, UNKNOWN = 0x0A000001 };

static u64 hart_of(u64 role) { return (boot + role) % HARTS; }

void start_main(u64 hart, u64 opaque)
{
    reach(hart, steps[hart] + 1);
    switch (opaque) {
    case SLEEP:
        SET(sie, SSIE);
        SBI(HSM, 3, 0, 0, 0);
        CLEAR(sip, SSIE);
        break;
    case SLEEP_DEEP:
        SET(sie, SSIE);
        SBI(HSM, 3, 0x80000000, resume_entry, 0x66);
        break;
    case SLEEP_DEAF: /* sie is 0 */
        SBI(HSM, 3, 0, 0, 0);
        break;
    case STOP_OPEN:
        SET(sstatus, 2);
        SBI(HSM, 1, 0, 0, 0);
        CLEAR(sstatus, 2);
        break;
    case KEEP_TIMER:
        set_timer(0);
        break;
    }
    if (opaque == WAIT)
        take_ipi();
    reach(hart, steps[hart] + 1);
    SBI(HSM, 1, 0, 0, 0);
}

void resume_main(u64 hart, u64 opaque)
{
    (void)opaque;
    SBI(BASE, 0, 0, 0, 0); /* what sie is now stands beside this call in a record */
    reach(hart, steps[hart] + 1);
    SBI(HSM, 1, 0, 0, 0);
}

/* Base, ids and extensions. */
static void identities(void)
{
    static const u64 extensions[] = { BASE, TIME, IPI, RFENCE, HSM, SRST, 0, LEGACY_PUTCHAR, 8, PMU, DEBUG_CONSOLE, UNKNOWN };
    for (u64 fid = 0; fid < 8; fid++)
        SBI(BASE, fid, 0, 0, 0);
    for (u64 i = 0; i < sizeof extensions / sizeof *extensions; i++)
        SBI(BASE, 3, extensions[i], 0, 0);
    SBI(BASE, 3, BASE | 1UL << 32, 0, 0);
    SBI(BASE | 1UL << 32, 0, 0, 0, 0);
    SBI(BASE, 1UL << 32, 0, 0, 0);
    SBI(LEGACY_PUTCHAR, 0, '\n', 0, 0);
    SBI(PMU, 0, 0, 0, 0);
    SBI(DEBUG_CONSOLE, 0, 0, 0, 0);
    SBI(UNKNOWN, 0, 1, 2, 3);
    for (u64 i = 1; i < 6; i++)
        SBI(extensions[i], 9, 0, 0, 0);
}

/* Masks and bases, for IPIs and for fences. */
static void hart_lists(void)
{
    static const u64 lists[][2] = {
        { 0, 0 }, { 0, 3 }, { 0, 4 }, { 0, -2UL }, { 0, -1UL }, { 0x10, 0 }, { 0x12, 0 }, { 1, 4 }, { 2, 3 }, { 3, 3 }, { 1UL << 63, 0 },
        { 2, -2UL }, { 0xff, 1 }, { 0, 127 }, { 0, 128 }, { -1UL, 0 }, { 0x5, -1UL },
    };
    for (u64 i = 0; i < sizeof lists / sizeof *lists; i++) {
        SBI(IPI, 0, lists[i][0], lists[i][1], 0);
        CLEAR(sip, SSIE);
        SBI(RFENCE, 0, lists[i][0], lists[i][1], 0);
        call(RFENCE, 1, lists[i][0], lists[i][1], 0x1000, 0x1000, 0, 0);
    }
}

static void ranges(void)
{
    static const u64 ranges[][2] = {
        { 0, 0 }, { 0, -1UL }, { 0x1000, -1UL }, { 0x1000, 0 }, { 1, 1 }, { 0x1000, 0xfff }, { -0x1000UL, 0x1000 }, { -0x1000UL, 0x1001 },
        { -1UL, 1 }, { -1UL, 2 }, { 0x2000, -0x1000UL }, { 0x1000, -0x1000UL },
    };
    for (u64 i = 0; i < sizeof ranges / sizeof *ranges; i++) {
        fence(1UL << boot, ranges[i][0], ranges[i][1]);
        call(RFENCE, 2, 1UL << boot, 0, ranges[i][0], ranges[i][1], 5 | 1UL << 20, 0);
    }
    for (u64 fid = 3; fid < 7; fid++)
        call(RFENCE, fid, 1UL << boot, 0, 0, 0, 0, 0);
}

/* What accesses saw, beside what this board's rules give. It is told by calls of an extension that nobody has. */
enum { KEPT, OWN_RIGHTS, ACCESSED_DIRTY, ALIGNED, USER_PAGE };
enum { PAGE = 0x1000, V = 1, R = 2, W = 4, U = 16, A = 64, D = 128 };

static u64 root[512] __attribute__((aligned(4096)));
static u64 middle[512] __attribute__((aligned(4096)));
static volatile u64 leaves[512] __attribute__((aligned(4096)));
static volatile u64 page_a[512] __attribute__((aligned(4096))), page_b[512] __attribute__((aligned(4096)));

static void tell(u64 rule, u64 here, u64 there)
{
    SBI(0x08000001, rule, here, there, 0);
}

/* The cause of a fault, or -1; what a load answers goes to `loaded`. */
#define TRIED(instruction, address, value)                                                                              \
    ({                                                                                                                   \
        u64 cause, it = (value);                                                                                         \
        WRITE(sscratch, -1UL);                                                                                           \
        __asm__ volatile(".option push\n.option norvc\n" instruction "\n.option pop"                                    \
                         : "+r"(it) : "r"((u64)(address)) : "t6", "memory");                                             \
        cause = READ(sscratch);                                                                                          \
        loaded = it;                                                                                                     \
        cause;                                                                                                           \
    })

static u64 loaded;

static void map(volatile u64 *page, u64 rights)
{
    leaves[1] = (u64)page >> 12 << 10 | V | rights;
    __asm__ volatile("fence rw, rw" : : : "memory");
}

static void map_fenced(volatile u64 *page, u64 rights)
{
    map(page, rights);
    __asm__ volatile("sfence.vma" : : : "memory");
}

static void memory(void)
{
    const u64 satp = 8UL << 60 | (u64)root >> 12;
    page_a[0] = 0x11;
    page_b[0] = 0x22;
    root[0] = (u64)middle >> 12 << 10 | V;
    root[2] = 0x80000UL << 10 | 0xcf;
    middle[0] = (u64)leaves >> 12 << 10 | V;
    map_fenced(page_a, R | W | A | D);
    WRITE(satp, satp);
    __asm__ volatile("sfence.vma" : : : "memory");
    /* A page that is mapped anew without a fence: at once, after a call, and after satp was written. */
    for (u64 how = 0; how < 3; how++) {
        map_fenced(page_a, R | W | A | D);
        TRIED("ld %0, 0(%1)", PAGE, 0);
        map(page_b, R | W | A | D);
        if (how == 1)
            SBI(BASE, 0, 0, 0, 0);
        if (how == 2) {
            WRITE(satp, 0);
            WRITE(satp, satp);
        }
        TRIED("ld %0, 0(%1)", PAGE, 0);
        tell(KEPT, 0x11, loaded);
    }
    map_fenced(page_a, R | A);
    TRIED("ld %0, 0(%1)", PAGE, 0);
    map(page_a, R | W | A | D);
    tell(OWN_RIGHTS, 15, TRIED("sd %0, 0(%1)", PAGE, 0x11));
    map_fenced(page_a, R | W | D);
    tell(ACCESSED_DIRTY, 13, TRIED("ld %0, 0(%1)", PAGE, 0));
    map_fenced(page_a, R | W | A);
    tell(ACCESSED_DIRTY, 15, TRIED("sd %0, 0(%1)", PAGE, 0x11));
    map_fenced(page_a, R | W | A | D);
    tell(ALIGNED, 4, TRIED("ld %0, 0(%1)", PAGE + 1, 0));
    tell(ALIGNED, 6, TRIED("sd %0, 0(%1)", PAGE + 12, 0));
    tell(ALIGNED, 4, TRIED("lw %0, 0(%1)", PAGE + 4, 0));
    map_fenced(page_a, R | W | U | A | D);
    tell(USER_PAGE, 13, TRIED("ld %0, 0(%1)", PAGE, 0));
    leaves[1] |= 1UL << 60;
    __asm__ volatile("sfence.vma" : : : "memory");
    tell(USER_PAGE, 13, TRIED("ld %0, 0(%1)", PAGE, 0));
    WRITE(satp, 0);
    __asm__ volatile("sfence.vma" : : : "memory");
}

static void run(u64 role, u64 task)
{
    start(hart_of(role), start_entry, task);
}

/* Starts, states and stops. */
static void lives(void)
{
    static const u64 harts[] = { 4, 5, 127, 128, 1UL << 32, 1UL << 63, -1UL };
    for (u64 i = 0; i < sizeof harts / sizeof *harts; i++) {
        SBI(HSM, 2, harts[i], 0, 0);
        if (harts[i] != 1UL << 32 && harts[i] != 1UL << 63)
            SBI(HSM, 0, harts[i], start_entry, 0);
    }
    start(boot, start_entry, 0);
    SBI(HSM, 0, hart_of(1), FIRMWARE, 0);
}

/* Addresses where no hart can begin, or that are odd. Where firmware takes one, its hart is lost. */
static void nowhere(void)
{
    SBI(HSM, 0, hart_of(1), 0, 0);
    SBI(HSM, 0, hart_of(2), 1UL << 62, 0);
    SBI(HSM, 0, hart_of(3), (u64)start_entry | 1, WAIT);
}

/* A start while one is pending, of a hart that runs, and of one that sleeps. */
static void pending(void)
{
    run(1, WAIT);
    run(1, WAIT);
    status(hart_of(1));
    await(hart_of(1), 1);
    run(1, WAIT);
    send_ipi(1UL << hart_of(1), 0);
    await(hart_of(1), 2);
    await_status(hart_of(1), STOPPED);
    for (u64 task = SLEEP; task <= SLEEP_DEEP; task++) {
        run(2, task);
        await_status(hart_of(2), SUSPENDED);
        run(2, WAIT);
        status(hart_of(2));
        send_ipi(1UL << hart_of(2), 0);
        await_status(hart_of(2), STOPPED);
    }
    send_ipi(1UL << hart_of(2), 0); /* to a hart that is stopped */
    fence(1UL << hart_of(2), 0x1000, 0x1000);
}

/* What outlives a stop and a start; and a stop with sstatus.SIE 1. */
static void lost(void)
{
    run(3, KEEP_TIMER);
    await_status(hart_of(3), STOPPED);
    run(3, WAIT);
    await(hart_of(3), 3);
    send_ipi(1UL << hart_of(3), 0);
    await_status(hart_of(3), STOPPED);
    run(1, STOP_OPEN);
    await_status(hart_of(1), STOPPED);
}

/* Types of suspends that aren't done. */
static void suspends(void)
{
    static const u64 types[] = { 1, 0x0fffffff, 0x10000000, 0x7fffffff, 0x80000001, 0x8fffffff, 0x90000000, 0xffffffff, 1UL << 32 | 1 };
    for (u64 i = 0; i < sizeof types / sizeof *types; i++) {
        SBI(HSM, 3, types[i], resume_entry, 0);
        SBI(HSM, 3, types[i], FIRMWARE, 0);
    }
    SBI(HSM, 3, 0x80000000, FIRMWARE, 0);
}

static void resets(void)
{
    static const u64 resets[][2] = {
        { 3, 0 }, { 0xefffffff, 0 }, { 0xf0000000, 0 }, { 0xffffffff, 1 }, { 3, 2 }, { 0xf0000000, 2 }, { 0, 2 }, { 1, 0xdfffffff },
        { 0xf0000001, 0xe0000000 }, { 0xf1234567, 0xf0000000 },
    };
    for (u64 i = 0; i < sizeof resets / sizeof *resets; i++)
        SBI(SRST, 0, resets[i][0], resets[i][1], 0);
}

/* Harts that sleep, and enable nothing: an IPI to one, and a fence to the other. Firmware may wake them. */
static void deaf(void)
{
    run(1, SLEEP_DEAF);
    run(2, SLEEP_DEAF);
    await_status(hart_of(1), SUSPENDED);
    await_status(hart_of(2), SUSPENDED);
    send_ipi(1UL << hart_of(1), 0);
    fence(1UL << hart_of(2), 0x1000, 0x1000);
    for (volatile int i = 0; i < 100000; i++)
        ;
    status(hart_of(1));
    status(hart_of(2));
}

void boot_main(u64 hart, u64 opaque)
{
    (void)opaque;
    clear_bss();
    boot = hart;
    identities();
    hart_lists();
    ranges();
    memory();
    lives();
    pending();
    lost();
    suspends();
    resets();
    deaf();
    for (u64 role = 1; role < 3; role++)
        if (status(hart_of(role)) == SUSPENDED)
            send_ipi(1UL << hart_of(role), 0);
    nowhere();
    for (u64 until = READ(time) + 15000000; READ(time) < until;) /* a start that was accepted has its time to come */
        ;
    SBI(SRST, 0, 0, 0xe0000000, 0); /* a reason of the implementation's */
    SBI(SRST, 0, 0, 0, 0);
}
