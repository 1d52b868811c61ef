// The init of the recorded Linux: it makes the kernel call its firmware in many ways, and switches the machine off.
//
// A thread on each hart reads a page that hart 0 maps, protects, unmaps and maps anew, while the harts spin, and then while they
// sleep. It forks, runs code that it wrote itself, and takes hart 3 off and on. It tells on the console what a hart reads wrongly.
// There is no C library: it would only add calls.
#define HARTS 4
#define PAGE 4096UL

// ---- the kernel's calls

enum { MOUNT = 40, OPENAT = 56, CLOSE = 57, READ = 63, WRITE = 64, EXIT = 93, NANOSLEEP = 101, SCHED_SETAFFINITY = 122, REBOOT = 142,
       MUNMAP = 215, CLONE = 220, MMAP = 222, MPROTECT = 226, FLUSH_ICACHE = 259, WAIT4 = 260 };

static long call(long number, long a, long b, long c, long d, long e)
{
    register long a0 __asm__("a0") = a, a1 __asm__("a1") = b, a2 __asm__("a2") = c, a3 __asm__("a3") = d, a4 __asm__("a4") = e;
    register long a5 __asm__("a5") = 0, a7 __asm__("a7") = number;
    __asm__ volatile("ecall" : "+r"(a0) : "r"(a1), "r"(a2), "r"(a3), "r"(a4), "r"(a5), "r"(a7) : "memory");
    return a0;
}

// long spawn(long flags, void *stack, void (*run)(long), long argument): a thread, which ends once `run` returns.
long spawn(long flags, void *stack, void (*run)(long), long argument);
__asm__("spawn: li a7, 220\n ecall\n bnez a0, 1f\n mv a0, a3\n jalr a2\n li a7, 93\n li a0, 0\n ecall\n 1: ret\n"
        ".globl _start\n _start: call begin\n");

static void say(const char *text)
{
    long length = 0;
    while (text[length])
        length++;
    call(WRITE, 1, (long)text, length, 0, 0);
}

static void say_number(const char *text, long number, const char *end)
{
    char digits[] = "0000000000";
    int at = sizeof digits - 1;
    do
        digits[--at] = '0' + number % 10;
    while ((number /= 10) && at);
    say(text), say(digits + at), say(end);
}

static void pin(long hart)
{
    unsigned long mask = 1UL << hart;
    call(SCHED_SETAFFINITY, 0, sizeof mask, (long)&mask, 0, 0);
}

static void nap(long milliseconds)
{
    long time[2] = {0, milliseconds * 1000000};
    call(NANOSLEEP, (long)time, 0, 0, 0, 0);
}

// ---- what the harts do together

// Hart 0 asks by `asked`, a number that grows, and the harts answer in `done`. They call `code`, where there is some, or read `page`.
// This is in memory that no fork copies, so that also a hart that the kernel forgets sees it.
struct all {
    volatile long asked, done[HARTS], wanted, is_over, is_calm, wrong;
    volatile long *volatile page;
    long (*volatile code)(void);
};
static struct all *all;
static char stacks[HARTS][2 * PAGE] __attribute__((aligned(16)));

static void rest(void)
{
    if (all->is_calm)
        nap(20);
}

static void look(long hart)
{
    long found = all->code ? all->code() : all->page[0];
    if (found != all->wanted) {
        all->wrong++;
        say_number("init: hart ", hart, " has an old ");
        say(all->code ? "instruction\n" : "page\n");
    }
}

static void thread(long hart)
{
    pin(hart);
    while (!all->is_over) {
        if (all->done[hart] != all->asked) {
            look(hart);
            all->done[hart] = all->asked;
        }
        rest();
    }
    all->done[hart] = -1;
}

// All harts look, and find this number.
static void ask(long number)
{
    all->wanted = number;
    __sync_synchronize();
    all->asked++;
    look(0);
    for (int hart = 1; hart < HARTS; hart++)
        while (all->done[hart] != all->asked)
            rest();
}

static long *map(long address, long size, long rights)
{
    const long private_anonymous = 0x22, fixed = 0x10;
    return (long *)call(MMAP, address, size, rights, private_anonymous | (address ? fixed : 0), -1);
}

static struct all *map_shared(void)
{
    const long shared_anonymous = 0x21, read_write = 3;
    return (struct all *)call(MMAP, 0, sizeof(struct all), read_write, shared_anonymous, -1);
}

enum { R = 1, RW = 3, RWX = 7 };

// A page that is mapped, protected, unmapped, and mapped anew elsewhere in memory, while all harts use it.
static void remap(long number)
{
    long *at = map(0, PAGE, RW), *spare;
    all->page = at;
    at[0] = number;
    ask(number);
    call(MPROTECT, (long)at, PAGE, R, 0, 0);
    ask(number);
    call(MUNMAP, (long)at, PAGE, 0, 0, 0);
    spare = map(0, PAGE, RW);
    spare[0] = 0; // (it takes the page that is free now)
    map((long)at, PAGE, RW);
    at[0] = number + 1;
    ask(number + 1);
    call(MUNMAP, (long)at, PAGE, 0, 0, 0);
    call(MUNMAP, (long)spare, PAGE, 0, 0, 0);
}

// Code that returns a number, on a page that is written while all harts run it.
static void run_code(void)
{
    unsigned *at = (unsigned *)map(0, PAGE, RWX);
    for (long number = 1; number < 4; number++) {
        at[0] = 0x00000513 | number << 20; // li a0, number
        at[1] = 0x00008067;                // ret
        call(FLUSH_ICACHE, (long)at, (long)at + PAGE, 0, 0, 0);
        all->code = (long (*)(void))at;
        ask(number);
    }
    all->code = 0;
    call(MUNMAP, (long)at, PAGE, 0, 0, 0);
}

// A child on another hart writes pages that it shares with this process.
static void fork_once(void)
{
    const long child_ends = 17;
    static volatile long shared = 1;
    long child = call(CLONE, child_ends, 0, 0, 0, 0);
    if (!child) {
        pin(2);
        shared = 2;
        call(EXIT, shared, 0, 0, 0, 0);
    }
    shared = 3;
    call(WAIT4, child, 0, 0, 0, 0);
}

// ---- the harts themselves

static void put(const char *path, const char *text)
{
    const long write_only = 1, here = -100;
    long file = call(OPENAT, here, (long)path, write_only, 0, 0);
    if (file < 0 || call(WRITE, file, (long)text, 1, 0, 0) < 0)
        say("init: can't write "), say(path), say("\n"), all->wrong++;
    call(CLOSE, file, 0, 0, 0, 0);
}

static void show(const char *path)
{
    const long here = -100;
    char text[32] = {0};
    long file = call(OPENAT, here, (long)path, 0, 0, 0);
    if (file < 0 || call(READ, file, (long)text, sizeof text - 1, 0, 0) <= 0)
        say("init: can't read "), all->wrong++;
    say(path), say(": "), say(text);
    call(CLOSE, file, 0, 0, 0, 0);
}

void begin(void)
{
    const long of_one_process = 0x100 | 0x200 | 0x400 | 0x800 | 0x10000 | 0x40000;
    call(MOUNT, (long)"none", (long)"/sys", (long)"sysfs", 0, 0);
    say("init: begins\n");
    all = map_shared();
    all->asked = 0; // (the page is there before a thread looks at it)
    pin(0);
    for (long hart = 1; hart < HARTS; hart++)
        spawn(of_one_process, stacks[hart] + sizeof stacks[hart], thread, hart);
    remap(10);
    run_code();
    fork_once();
    all->is_calm = 1;
    remap(20);
    all->is_over = 1;
    for (int hart = 1; hart < HARTS; hart++)
        while (all->done[hart] >= 0)
            rest();
    put("/sys/devices/system/cpu/cpu3/online", "0");
    put("/sys/devices/system/cpu/cpu3/online", "1");
    nap(200);
    show("/sys/devices/system/cpu/cpu1/cpuidle/state1/usage");
    show("/sys/devices/system/cpu/cpu1/cpuidle/state2/usage");
    say_number("init: ends, wrong: ", all->wrong, "\n");
    call(REBOOT, 0xfee1dead, 672274793, 0x4321fedc, 0, 0);
}
