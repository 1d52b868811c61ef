/* A supervisor that makes random calls on each of its harts, from a seed, and writes down what it sees: tools/fuzz-firmware
   gives it its seed, and judges the record that it prints at its end. Each hart has a list of operations, and goes on in it
   after a start or a resume. Then all harts together look at what IPIs, fences and timers do, which no answer shows. */
#define HARTS 8
#include "sbi.h"

enum { OPERATIONS = 256, LINES = 1500, PAGE = 0x1000 };
enum { QUIET = 1, REBOOTS = 2, NOWHERE = 4, HANGS = 8 };

/* What tools/fuzz-firmware writes into the image. kept: of each hart, which of its operations are made. Times are in ticks. */
struct asked {
    char mark[16];
    u64 seed, harts, operations, checks, flags, uart, limit, kept[HARTS][OPERATIONS / 64];
};
volatile struct asked asked __attribute__((section(".data.asked"))) = {
    "fuzz-parameters", 1, 4, 40, 6, 0, 0x10000000, 30000000, { [0 ... HARTS - 1] = { -1UL, -1UL, -1UL, -1UL } },
};

/* One line of the record, and each hart's lines, which lie outside of what is cleared at an entry. */
enum kind { CALL, ENTRY, RETURN };
struct line {
    u64 time, kind, numbers[8], sie, sip, sstatus;
};
static struct line lines[HARTS][LINES] __attribute__((section(".stacks")));
static u64 turns[HARTS] __attribute__((section(".stacks")));
static u64 boot;
static volatile u64 count[HARTS];
static u64 next[HARTS], lost_registers[HARTS];

volatile u64 steps[HARTS];
/* warden: the hart that sees to the others, and 1. awaited: where a run has failed, the hart that was waited for. */
static volatile u64 warden, phase, has_failed, awaited;
enum { RUNS, CHECKS, OVER, LEAVES };
#define LIVES ((volatile u64 *)0x80400000)
enum { MAGIC = 0x66757a7a, OPAQUE = 0x5eed00 };

/* A call that looks whether all other registers are kept: x1, x3 to x9 and x18 to x31 have MARK and their number before it.
   frame: what the registers are behind it, by their numbers, and the stack pointer before it. */
enum { MARK = 0x500 };
void checked(u64 call[8], u64 frame[33]);
__asm__(".text\n.globl checked\nchecked:\n"
        "addi sp, sp, -128\n"
        "sd ra, 0(sp)\nsd gp, 8(sp)\nsd tp, 16(sp)\nsd s0, 24(sp)\nsd s1, 32(sp)\nsd s2, 40(sp)\nsd s3, 48(sp)\nsd s4, 56(sp)\n"
        "sd s5, 64(sp)\nsd s6, 72(sp)\nsd s7, 80(sp)\nsd s8, 88(sp)\nsd s9, 96(sp)\nsd s10, 104(sp)\nsd s11, 112(sp)\n"
        "sd sp, 256(a1)\ncsrw sscratch, a1\nmv t0, a0\n"
        "ld a7, 0(t0)\nld a6, 8(t0)\nld a0, 16(t0)\nld a1, 24(t0)\nld a2, 32(t0)\nld a3, 40(t0)\nld a4, 48(t0)\nld a5, 56(t0)\n"
        ".irp n, 1, 3, 4, 5, 6, 7, 8, 9, 18, 19, 20, 21, 22, 23, 24, 25, 26, 27, 28, 29, 30, 31\nli x\\n, 0x500 + \\n\n.endr\n"
        "ecall\ncsrrw t0, sscratch, t0\n"
        ".irp n, 1, 2, 3, 4, 6, 7, 8, 9, 10, 11, 12, 13, 14, 15, 16, 17, 18, 19, 20, 21, 22, 23, 24, 25, 26, 27, 28, 29, 30, 31\n"
        "sd x\\n, 8 * \\n(t0)\n.endr\n"
        "csrr t1, sscratch\nsd t1, 40(t0)\nld sp, 256(t0)\n"
        "ld ra, 0(sp)\nld gp, 8(sp)\nld tp, 16(sp)\nld s0, 24(sp)\nld s1, 32(sp)\nld s2, 40(sp)\nld s3, 48(sp)\nld s4, 56(sp)\n"
        "ld s5, 64(sp)\nld s6, 72(sp)\nld s7, 80(sp)\nld s8, 88(sp)\nld s9, 96(sp)\nld s10, 104(sp)\nld s11, 112(sp)\n"
        "addi sp, sp, 128\nret\n");

/* Which registers the call has changed, by their bits. */
static u64 changed(const u64 call[8], const u64 frame[33])
{
    static const unsigned char places[] = { 4, 5, 6, 7, 1, 0 }; /* of a2 to a7 in `call` */
    u64 mask = 0;
    for (u64 n = 1; n < 32; n++) {
        u64 wanted = n == 2 ? frame[32] : n >= 12 && n <= 17 ? call[places[n - 12]] : MARK + n;
        if (n != 10 && n != 11 && frame[n] != wanted)
            mask |= 1UL << n;
    }
    return mask;
}

/* A line of this moment. The time is read first: an IPI that comes while the registers are read is then behind the line. */
static struct line *put(u64 hart, enum kind kind)
{
    struct line *line = &lines[hart][count[hart] < LINES ? count[hart]++ : LINES - 1];
    line->kind = kind;
    line->time = READ(time);
    line->sip = READ(sip);
    line->sie = READ(sie);
    line->sstatus = READ(sstatus) >> 1 & 1;
    return line;
}

static int has_room(u64 hart) { return count[hart] < LINES - 64; }

static void tell(u64 hart, u64 what, u64 wanted, u64 seen);
enum { IPIS = 5, FENCES, TIMERS, REGISTERS, SATP };

static struct answer made(u64 hart, u64 eid, u64 fid, u64 a0, u64 a1, u64 a2, u64 a3, u64 a4)
{
    u64 call[8] = { eid, fid, a0, a1, a2, a3, a4, 0 }, frame[33];
    struct line *line = put(hart, CALL);
    for (u64 i = 0; i < 8; i++)
        line->numbers[i] = call[i];
    checked(call, frame);
    u64 sip = READ(sip);
    line = put(hart, RETURN);
    line->sip = sip; /* what is seen late is no fault of an IPI that came meanwhile */
    line->numbers[0] = frame[10];
    line->numbers[1] = frame[11];
    lost_registers[hart] |= changed(call, frame);
    return (struct answer){ (long)frame[10], frame[11] };
}

static void tell(u64 hart, u64 what, u64 wanted, u64 seen) { made(hart, 0x08000001, what, wanted, seen, 0, 0, 0); }

/* The compiler asks for it. */
void *memset(void *at, int byte, u64 length)
{
    for (volatile char *it = at; length; length--)
        *it++ = byte;
    return at;
}

/* ---- dice */

static u64 mixed(u64 x)
{
    x = (x ^ x >> 30) * 0xbf58476d1ce4e5b9;
    x = (x ^ x >> 27) * 0x94d049bb133111eb;
    return x ^ x >> 31;
}

struct dice {
    u64 state;
};

static u64 roll(struct dice *dice) { return mixed(dice->state += 0x9e3779b97f4a7c15); }
static u64 below(struct dice *dice, u64 most) { return roll(dice) % most; }
static struct dice dice_of(u64 hart, u64 at) { return (struct dice){ mixed(mixed(asked.seed) + (hart << 32) + at) }; }
#define ONE_OF(dice, list) (list)[below(dice, sizeof(list) / sizeof *(list))]

/* Where one processor plays all harts, the others have their turn: a WFI with an interrupt pending goes on at once. */
static void yield(u64 hart)
{
    turns[hart]++;
    u64 sie = READ(sie), ssip = READ(sip) & SSIE;
    SET(sip, SSIE);
    SET(sie, SSIE);
    __asm__ volatile("wfi");
    if (!ssip)
        CLEAR(sip, SSIE);
    WRITE(sie, sie);
}

static void pause_for(u64 hart, u64 ticks)
{
    for (u64 until = READ(time) + ticks; READ(time) < until;)
        yield(hart);
}

/* Since when a hart waits: a limit counts only if the hart has also looked often enough. Where a busy machine gives its harts
   little time, what they wait for comes late, but isn't lost. */
enum { LOOKS = 100000 };
struct since {
    u64 time, turns;
};

static struct since since_now(u64 hart) { return (struct since){ READ(time), turns[hart] }; }

static int is_over(u64 hart, struct since since, u64 ticks)
{
    return READ(time) - since.time > ticks && ++turns[hart] - since.turns > LOOKS;
}

static void give_up(u64 other)
{
    awaited = other;
    has_failed = 1;
}

/* ---- random calls */

static const u64 known[] = { BASE, TIME, IPI, RFENCE, HSM, SRST };
enum { PMU = 0x504D55, DEBUG_CONSOLE = 0x4442434E, LEGACY_PUTCHAR = 1 };

static void some_base(u64 hart, struct dice *dice)
{
    static const u64 probed[] = { 0, 1, 8, PMU, DEBUG_CONSOLE, 0x53555350, 0x0A000001, BASE | 1UL << 32, -1UL };
    u64 fid = below(dice, 10);
    if (fid < 7)
        made(hart, BASE, fid, fid == 3 ? ONE_OF(dice, known) : 0, 0, 0, 0, 0);
    else
        made(hart, BASE, fid == 9 ? roll(dice) | 8 : 3, fid == 9 ? 0 : ONE_OF(dice, probed), 0, 0, 0, 0);
}

static void some_timer(u64 hart, struct dice *dice)
{
    u64 now = READ(time);
    u64 times[] = { now + below(dice, 20000), now + below(dice, 2000), 0, -1UL, now, now + (1UL << 40), roll(dice) };
    made(hart, TIME, below(dice, 24) ? 0 : 1 + below(dice, 9), ONE_OF(dice, times), 0, 0, 0, 0);
}

/* A hart list: mostly of harts that are there. */
static void some_list(struct dice *dice, u64 list[2])
{
    u64 all = (1UL << asked.harts) - 1;
    list[0] = roll(dice) & all;
    list[1] = 0;
    switch (below(dice, 10)) {
    case 0:
        list[1] = -1UL;
        break;
    case 1:
        list[1] = below(dice, asked.harts);
        list[0] = list[0] >> list[1];
        break;
    case 2:
        list[0] = roll(dice) & roll(dice) & roll(dice);
        break;
    case 3: {
        u64 bases[] = { asked.harts, asked.harts - 1, -2UL, 1UL << 32, 64, roll(dice) };
        list[0] = below(dice, 2) ? 0 : roll(dice) & 0xff;
        list[1] = ONE_OF(dice, bases);
    }
    }
}

static void some_ipi(u64 hart, struct dice *dice)
{
    u64 list[2];
    some_list(dice, list);
    made(hart, IPI, below(dice, 24) ? 0 : 1 + below(dice, 9), list[0], list[1], 0, 0, 0);
}

static void some_fence(u64 hart, struct dice *dice)
{
    static const u64 ranges[][2] = {
        { 0, 0 }, { 0, -1UL }, { 0x1000, 0x1000 }, { 0x1000, 0 }, { 1, 1 }, { 0x1000, 0xfff }, { -0x1000UL, 0x1000 }, { -0x1000UL, 0x1001 },
        { -1UL, 1 }, { -1UL, 2 }, { 0x2000, -0x1000UL }, { 0x1000, -0x1000UL }, { 0, 0x40000000 }, { 0x80200000, 0x3000 },
    };
    static const u64 asids[] = { 0, 5, 0xffff, 0x10005, -1UL };
    u64 list[2], fid = below(dice, 12), at = below(dice, sizeof ranges / sizeof *ranges);
    some_list(dice, list);
    made(hart, RFENCE, fid < 9 ? fid % 3 : fid == 9 ? 3 + below(dice, 4) : fid == 10 ? 7 + below(dice, 9) : 1, list[0], list[1], ranges[at][0], ranges[at][1], ONE_OF(dice, asids));
}

static u64 some_hart(struct dice *dice)
{
    u64 strange[] = { asked.harts, asked.harts + 1, 127, 1UL << 32 | below(dice, asked.harts), 1UL << 63 | below(dice, asked.harts), -1UL };
    return below(dice, 12) ? below(dice, asked.harts) : ONE_OF(dice, strange);
}

static void some_status(u64 hart, struct dice *dice)
{
    made(hart, HSM, below(dice, 24) ? 2 : 5 + below(dice, 99), some_hart(dice), 0, 0, 0, 0);
}

/* Each start gives its hart's number, so that an entry shows whose it is. */
static void begin(u64 hart, u64 target, u64 address, u64 salt)
{
    made(hart, HSM, 0, target, address, salt << 24 | OPAQUE | (target & 0xff), 0, 0);
}

static void some_start(u64 hart, struct dice *dice)
{
    /* Where the firmware is, and where nothing is: no supervisor can begin there. A hart that does is lost. */
    static const u64 nowhere[] = { 0, 1UL << 62, 0x7ffffffe };
    u64 target = some_hart(dice), address = (u64)start_entry;
    if (!(asked.flags & NOWHERE) && (target & 0xffffffff) < asked.harts)
        target &= 0xff; /* (where an id is cut, a life goes on otherwise) */
    if (!below(dice, 16))
        address = 0x80000000;
    else if (asked.flags & NOWHERE && !below(dice, 4))
        address = ONE_OF(dice, nowhere);
    begin(hart, target, address, 1 + below(dice, 1000));
}

/* Most harts never stop, and suspend with a deadline alone: one of them is there to wake the others, and to print. */
static int stays(u64 hart) { return hart == boot || (hart + asked.harts - boot) % asked.harts % 2; }

static void some_suspend(u64 hart, struct dice *dice)
{
    static const u64 strange[] = { 1, 0x0fffffff, 0x10000000, 0x7fffffff, 0x80000001, 0x8fffffff, 0x90000000, 0xffffffff, 1UL << 32 | 1 };
    u64 type = below(dice, 2) << 31, how = below(dice, 4), opaque = OPAQUE | hart, upper = below(dice, 16) ? 0 : roll(dice) << 32;
    if (!below(dice, 4)) {
        made(hart, HSM, 3, ONE_OF(dice, strange), below(dice, 4) ? (u64)resume_entry : 0x80000000, opaque, 0, 0);
        return;
    }
    if (!below(dice, 8)) {
        made(hart, HSM, 3, 1UL << 31, 0x80000000, opaque, 0, 0);
        return;
    }
    if (stays(hart))
        how &= 1;
    if (how < 2)
        made(hart, TIME, 0, READ(time) + below(dice, 20000), 0, 0, 0, 0);
    WRITE(sie, how == 0 ? STIE : how == 1 ? STIE | SSIE : SSIE);
    made(hart, HSM, 3, type | upper, (u64)resume_entry, opaque | below(dice, 1000) << 24, 0, 0);
    if (below(dice, 2))
        CLEAR(sip, SSIE);
}

static void some_reset(u64 hart, struct dice *dice)
{
    static const u64 resets[][2] = {
        { 3, 0 }, { 0xefffffff, 0 }, { 0xf0000000, 0 }, { 0xffffffff, 1 }, { 3, 2 }, { 0xf0000000, 2 }, { 0, 2 }, { 1, 0xdfffffff }, { 2, 3 }, { 1UL << 32 | 3, 0 },
    };
    u64 at = below(dice, sizeof resets / sizeof *resets);
    made(hart, SRST, below(dice, 8) ? 0 : 1 + below(dice, 9), resets[at][0], resets[at][1], 0, 0, 0);
}

static void some_unknown(u64 hart, struct dice *dice)
{
    static const u64 ids[] = { 0x0A000001, 0x09000000, PMU, DEBUG_CONSOLE, 0x53555350, 0x4E41434C, 0x535441, 0x12345, BASE | 1UL << 32, -1UL };
    u64 eid = below(dice, 4) ? ONE_OF(dice, ids) : 0x0B000000 | roll(dice);
    made(hart, eid, eid == PMU ? 0 : 0x77 + below(dice, 99), roll(dice), roll(dice), roll(dice), 0, 0);
}

static void operation(u64 hart, u64 at)
{
    struct dice dice = dice_of(hart, at);
    static void (*const calls[])(u64, struct dice *) = {
        some_base, some_timer, some_ipi, some_ipi, some_fence, some_fence, some_status, some_status, some_start, some_start, some_suspend, some_suspend,
        some_reset, some_unknown,
    };
    u64 kind = below(&dice, 18);
    if (kind < sizeof calls / sizeof *calls)
        calls[kind](hart, &dice);
    else if (kind == 14 && !stays(hart))
        made(hart, HSM, 1, 0, 0, 0, 0, 0);
    else if (kind == 15)
        WRITE(sie, roll(&dice) & (SSIE | STIE));
    else if (kind == 16)
        CLEAR(sip, SSIE);
    else
        pause_for(hart, below(&dice, 3000));
}

/* ---- what no answer shows */

/* All harts wait for one another. One that doesn't come in time ends the run. While an IPI is looked for nobody yields,
   which would clear it. */
static void meet(u64 hart, int yields)
{
    u64 step = steps[hart] + 1;
    struct since since = since_now(hart);
    reach(hart, step);
    for (u64 other = 0; other < asked.harts; other++)
        while (steps[other] < step && !has_failed) {
            if (yields)
                yield(hart);
            if (is_over(hart, since, asked.limit) && steps[other] < step)
                give_up(other);
        }
    __asm__ volatile("fence rw, rw" : : : "memory");
}

static volatile u64 last_error;
static volatile u64 page_a[512] __attribute__((aligned(4096))), page_b[512] __attribute__((aligned(4096)));
static u64 root[512] __attribute__((aligned(4096))), middle[512] __attribute__((aligned(4096)));
static volatile u64 leaves[512] __attribute__((aligned(4096)));

/* One list for a check: of harts that are there. Its harts, as a mask from 0. */
static u64 list_of_check(struct dice *dice, u64 list[2])
{
    u64 all = (1UL << asked.harts) - 1, mask = (roll(dice) & all) | 1UL << below(dice, asked.harts), how = below(dice, 3);
    list[0] = mask;
    list[1] = 0;
    if (how == 1)
        list[1] = -1UL;
    while (how == 2 && !(list[0] & 1))
        list[0] >>= 1, list[1]++;
    return how == 1 ? all : mask;
}

static void check_ipi(u64 hart, u64 leader, struct dice *dice)
{
    u64 list[2], mask = list_of_check(dice, list), wanted = mask >> hart & 1;
    struct since since;
    CLEAR(sip, SSIE);
    meet(hart, 0);
    if (hart == leader)
        last_error = made(hart, IPI, 0, list[0], list[1], 0, 0, 0).error;
    meet(hart, 0);
    since = since_now(hart);
    while (wanted && !(READ(sip) & SSIE) && !is_over(hart, since, asked.limit / 2))
        ;
    if (!last_error)
        tell(hart, IPIS, wanted, READ(sip) >> 1 & 1);
    meet(hart, 0);
    CLEAR(sip, SSIE);
}

static void check_fence(u64 hart, u64 leader, struct dice *dice)
{
    static const u64 ranges[][2] = { { PAGE, PAGE }, { 0, 0 }, { 0, -1UL }, { PAGE, -1UL }, { 0, 0x40000000 }, { PAGE + 8, 8 }, { 0, 3 * PAGE } };
    u64 list[2], mask = list_of_check(dice, list), at = below(dice, sizeof ranges / sizeof *ranges), fid = 1 + below(dice, 2), seen;
    struct since since;
    if (hart == leader)
        leaves[1] = (u64)page_a >> 12 << 10 | 0xc7;
    meet(hart, 1);
    WRITE(satp, 8UL << 60 | 5UL << 44 | (u64)root >> 12);
    __asm__ volatile("sfence.vma" : : : "memory");
    seen = *(volatile u64 *)PAGE;
    meet(hart, 1);
    if (hart == leader) {
        leaves[1] = (u64)page_b >> 12 << 10 | 0xc7;
        __asm__ volatile("fence rw, rw" : : : "memory");
        last_error = made(hart, RFENCE, fid, list[0], list[1], ranges[at][0], ranges[at][1], READ(satp) >> 44 & 0xffff).error;
    }
    meet(hart, 1);
    since = since_now(hart);
    do
        seen = *(volatile u64 *)PAGE;
    while (mask >> hart & 1 && seen != 0x22 && !is_over(hart, since, asked.limit / 2));
    if (mask >> hart & 1 && !last_error)
        tell(hart, FENCES, 0x22, seen);
    WRITE(satp, 0);
    __asm__ volatile("sfence.vma" : : : "memory");
    meet(hart, 1);
}

static void check_timer(u64 hart, struct dice *dice)
{
    u64 due = READ(time) + 2000 + below(dice, 20000), is_early = 0, has_come = 0;
    if (made(hart, TIME, 0, due, 0, 0, 0, 0).error)
        return;
    struct since since = since_now(hart);
    while (!has_come && !(READ(time) > due && is_over(hart, since, asked.limit / 2))) {
        u64 sip = READ(sip);
        has_come = sip >> 5 & 1;
        is_early |= has_come && READ(time) < due;
    }
    tell(hart, TIMERS, 1, has_come && !is_early);
    made(hart, TIME, 0, -1UL, 0, 0, 0, 0);
    tell(hart, TIMERS, 0, READ(sip) >> 5 & 1);
}

static void check_all(u64 hart)
{
    pause_for(hart, 20000);
    for (u64 round = 0; round < asked.checks && !has_failed; round++) {
        struct dice dice = dice_of(HARTS, round);
        u64 leader = below(&dice, asked.harts);
        meet(hart, 1);
        if (round % 3 == 0)
            check_ipi(hart, leader, &dice);
        else if (round % 3 == 1)
            check_fence(hart, leader, &dice);
        else
            check_timer(hart, &dice);
    }
    tell(hart, REGISTERS, 0, lost_registers[hart]);
    meet(hart, 1);
}

/* ---- the record */

static void type(char letter)
{
    volatile unsigned char *uart = (volatile unsigned char *)asked.uart;
    while (!(uart[5] & 0x20))
        ;
    uart[0] = letter;
}

static void print(const char *text)
{
    while (*text)
        type(*text++);
}

static void print_number(const char *before, u64 number)
{
    int at = 60;
    print(before);
    while (at && !(number >> at & 15))
        at -= 4;
    for (; at >= 0; at -= 4)
        type("0123456789abcdef"[number >> at & 15]);
}

static void print_line(u64 hart, const struct line *line)
{
    static const char *const names[] = { " call", " entry", " ret" };
    static const u64 numbers[] = { 8, 3, 2 };
    type('0' + hart);
    print(names[line->kind]);
    for (u64 i = 0; i < numbers[line->kind]; i++) {
        int is_error = line->kind == RETURN && i == 0 && line->numbers[0] >> 63;
        print_number(is_error ? " -0x" : " 0x", is_error ? -line->numbers[0] : line->numbers[i]);
    }
    print_number(" time=0x", line->time);
    print_number(" sie=0x", line->sie);
    print_number(" sip=0x", line->sip);
    print_number(" sstatus=", line->sstatus);
    print("\n");
}

/* Lines by their time; of one moment first what begins, since it may have begun before what ends. */
static int is_before(const struct line *a, const struct line *b)
{
    return a->time < b->time || (a->time == b->time && a->kind < b->kind);
}

static void print_all(u64 made_of)
{
    u64 at[HARTS] = { 0 };
    print_number("\n# fuzz: seed 0x", asked.seed);
    print_number(", operations 0x", made_of);
    if (has_failed)
        print_number(", given up: waited for hart 0x", awaited);
    else
        print(", whole");
    print_number("\nrecord 0x", asked.harts);
    print("\n");
    for (;;) {
        const struct line *first = 0;
        u64 whose = 0;
        for (u64 hart = 0; hart < asked.harts; hart++)
            if (at[hart] < count[hart] && (!first || is_before(&lines[hart][at[hart]], first)))
                first = &lines[hart][at[hart]], whose = hart;
        if (!first)
            return;
        print_line(whose, first);
        at[whose]++;
    }
}

/* Prints the record, and ends the machine: where a hart hangs, by the limit of time. One hart does. */
static void leave(u64 hart)
{
    u64 total = 0;
    if (__atomic_exchange_n(&phase, LEAVES, __ATOMIC_SEQ_CST) == LEAVES)
        return;
    for (u64 other = 0; other < asked.harts; other++)
        total += next[other];
    if (!(asked.flags & QUIET))
        print_all(total);
    if (has_failed && !(asked.flags & QUIET))
        print("m end limit\n");
    if (has_failed) {
        SBI(SRST, 0, 0, 0, 0);
        for (;;)
            ;
    }
    struct line *line = put(hart, CALL);
    u64 call[8] = { SRST, 0, asked.flags & REBOOTS ? 1 : 0 };
    for (u64 i = 0; i < 8; i++)
        line->numbers[i] = call[i];
    if (!(asked.flags & QUIET))
        print_line(hart, line);
    sbi(call);
    line = put(hart, RETURN);
    line->numbers[0] = call[0];
    line->numbers[1] = call[1];
    print_line(hart, line);
    for (;;)
        ;
}

/* ---- a hart's life */

/* The first hart that is through starts and wakes the others, until all are, or for some time none of them does anything. */
static void ward(u64 hart)
{
    u64 wait = 10000, missing, before = 0, lines_now;
    struct since since = since_now(hart);
    if (asked.flags & HANGS) /* (as in a call that doesn't return, to test what the others do) */
        for (*put(hart, CALL)->numbers = BASE;;)
            ;
    do {
        missing = lines_now = 0;
        pause_for(hart, wait);
        for (u64 other = 0; other < asked.harts; other++)
            lines_now += other == hart ? 0 : count[other] + steps[other];
        since = lines_now == before ? since : since_now(hart);
        before = lines_now;
        for (u64 other = 0; other < asked.harts; other++) {
            if (steps[other] || !has_room(hart))
                continue;
            missing = other + 1;
            u64 state = made(hart, HSM, 2, other, 0, 0, 0, 0).value;
            if (state == STOPPED)
                begin(hart, other, (u64)start_entry, 0);
            else if (state == SUSPENDED)
                made(hart, IPI, 0, 1, other, 0, 0, 0);
        }
        wait += wait < asked.limit / 8 ? wait / 4 : 0;
    } while (missing && !is_over(hart, since, asked.limit));
    if (missing)
        give_up(missing - 1);
}

/* Waits for the warden to come to a phase. One that does nothing for long hangs: then this hart leaves. */
static void await_warden(u64 hart, u64 wanted)
{
    u64 other = warden - 1, before = 0, now;
    struct since since = since_now(hart);
    while (phase < wanted) {
        yield(hart);
        now = count[other] + turns[other];
        since = now == before ? since : since_now(hart);
        before = now;
        if (is_over(hart, since, asked.limit)) {
            give_up(other);
            leave(hart);
        }
    }
}

static void live(u64 hart)
{
    while (next[hart] < asked.operations && has_room(hart)) {
        u64 at = next[hart]++;
        if (asked.kept[hart][at / 64] >> at % 64 & 1)
            operation(hart, at);
        if (mixed(asked.seed ^ hart << 8 ^ at) & 1)
            yield(hart);
    }
    WRITE(sie, 0);
    reach(hart, 1);
    u64 nobody = 0, runs = RUNS;
    int is_warden = __atomic_compare_exchange_n(&warden, &nobody, hart + 1, 0, __ATOMIC_SEQ_CST, __ATOMIC_SEQ_CST);
    if (is_warden) {
        ward(hart);
        __atomic_compare_exchange_n(&phase, &runs, has_failed ? OVER : CHECKS, 0, __ATOMIC_SEQ_CST, __ATOMIC_SEQ_CST);
    } else {
        await_warden(hart, CHECKS);
    }
    if (phase == CHECKS)
        check_all(hart);
    if (is_warden)
        leave(hart);
    else
        await_warden(hart, LEAVES);
    for (;;)
        __asm__ volatile("wfi");
}

static u64 entered(u64 pc, u64 a0, u64 a1)
{
    u64 hart = (a1 & 0xffff00) == OPAQUE && (a1 & 0xff) < asked.harts ? a1 & 0xff : a0;
    while (hart >= asked.harts)
        ;
    struct line *line = put(hart, ENTRY);
    line->numbers[0] = pc;
    line->numbers[1] = a0;
    line->numbers[2] = a1;
    return hart;
}

void start_main(u64 hart, u64 opaque)
{
    hart = entered((u64)start_entry, hart, opaque);
    tell(hart, SATP, 0, READ(satp));
    live(hart);
}

void resume_main(u64 hart, u64 opaque)
{
    hart = entered((u64)resume_entry, hart, opaque);
    tell(hart, SATP, 0, READ(satp));
    live(hart);
}

/* A firmware may begin a hart at the address of another entry: then it is as told, and nothing is cleared. */
static volatile u64 has_booted __attribute__((section(".data.asked"))) = 0;

void boot_main(u64 hart, u64 opaque)
{
    if (__atomic_exchange_n(&has_booted, 1, __ATOMIC_SEQ_CST) && !(asked.flags & REBOOTS && LIVES[0] == MAGIC))
        live(entered((u64)boot_entry, hart, opaque));
    clear_bss();
    if (!(asked.flags & QUIET))
        print("\n# fuzz: begun\n");
    boot = hart = entered((u64)boot_entry, hart, opaque);
    made(hart, BASE, 0, 0, 0, 0, 0, 0);
    if (asked.flags & REBOOTS && LIVES[0] == MAGIC) {
        LIVES[0] = 0;
        asked.flags &= ~(u64)REBOOTS;
        leave(hart);
    }
    LIVES[0] = MAGIC;
    for (u64 i = 0; i < sizeof known / sizeof *known; i++)
        made(hart, BASE, 3, known[i], 0, 0, 0, 0);
    page_a[0] = 0x11;
    page_b[0] = 0x22;
    root[0] = (u64)middle >> 12 << 10 | 1;
    root[2] = 0x80000UL << 10 | 0xcf;
    middle[0] = (u64)leaves >> 12 << 10 | 1;
    for (u64 other = 0; other < asked.harts; other++)
        if (other != hart)
            begin(hart, other, (u64)start_entry, 0);
    live(hart);
}
