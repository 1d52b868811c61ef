"""Tests of tools/record with stand-ins for gdb and QEMU, which play stops: each kind of stop, calls inside calls by an interrupt,
resets, refused starts, and each way in which a run ends."""
import hashlib
import json
import os
import re
import shutil
import struct
import subprocess
from unittest import SkipTest, mock

from .fixtures import HERE, RECORDS, ROOT, Test, add, must, read, shown, write

STAND_IN = os.path.join(HERE, "gdb-stand-in")
FIRMWARE = "/usr/lib/riscv64-linux-gnu/opensbi/generic/fw_dynamic.bin"
ENTRY, VECTOR, HANDLER = 0x80200000, 0x80000400, 0x80300000
# Where all tasks of a kernel call from, and stacks of three of them.
AT, TASK, IRQ, OTHER = 0x80201000, 0x80400000, 0x80410000, 0x80420000
TIME, IPI, HSM, SRST, SUSP = 0x54494D45, 0x735049, 0x48534D, 0x53525354, 0x53555350
OFF = {"ends": "off"}
# The seconds that a run under QEMU may take: many times what it takes on a machine that does nothing else.
LONGEST = 300
M64 = (1 << 64) - 1


def enters(hart, pc=ENTRY, a1=7):
    return {"hart": hart, "pc": pc, "mepc": pc, "a0": hart, "a1": a1, "mtvec": VECTOR}


def calls(hart, eid, fid, *numbers, sp=TASK, at=AT):
    registers = dict(zip(("a7", "a6", "a0", "a1", "a2", "a3", "a4", "a5"), (eid, fid, *numbers)))
    return {"hart": hart, "pc": VECTOR, "mcause": 9, "mepc": at, "sp": sp, **registers}


def is_back(hart, error=0, value=0, sp=TASK, at=AT):
    return {"hart": hart, "pc": at + 4, "sp": sp, "a0": error & M64, "a1": value}


def traps(hart):
    """A timer's interrupt of the firmware, which is no call."""
    return {"hart": hart, "pc": VECTOR, "mcause": 1 << 63 | 7, "mepc": AT}


class Play:
    """What is played, the record's lines without their notes, and what else is asked: the status, what is said."""

    def __init__(self, name, stops, lines, status=0, said=(), harts=2, words=()):
        self.name, self.stops, self.lines, self.status, self.said, self.harts, self.words = name, stops, lines, status, said, harts, words


BOOT = "0 entry 0x80200000 0x0 0x7"


def call(hart, eid, fid, *numbers):
    return f"{hart} call " + " ".join(f"{number:#x}" for number in (eid, fid, *numbers, *[0] * (6 - len(numbers))))


TWO = [enters(0), calls(0, HSM, 0, 1, HANDLER, 9), is_back(0), enters(1, HANDLER, 9)]
TWO_LINES = [BOOT, call(0, HSM, 0, 1, HANDLER, 9), "0 ret 0 0x0", "1 entry 0x80300000 0x1 0x9"]
FENCE, SEND = (0x52464E43, 1, 3, 0), (IPI, 0, 1, 0)
PLAYS = [
    Play("a call, its return, and an interrupt of the firmware", [enters(0), traps(0), calls(0, 0x10, 3, TIME), is_back(0, 0, 1), calls(0, 9, 9), is_back(0, -2), OFF],
         [BOOT, call(0, 0x10, 3, TIME), "0 ret 0 0x1", call(0, 9, 9), "0 ret -2 0x0", "m end off"]),
    Play("a machine that answers late", [enters(0), {**calls(0, *FENCE), "late": 600}, is_back(0, 0, 1), OFF], [BOOT, call(0, *FENCE), "0 ret 0 0x1", "m end off"]),
    Play("a start that is entered before it returns", [enters(0), calls(0, HSM, 0, 1, HANDLER, 9), enters(1, HANDLER, 9), is_back(0), OFF],
         [BOOT, call(0, HSM, 0, 1, HANDLER, 9), "1 entry 0x80300000 0x1 0x9", "0 ret 0 0x0", "m end off"]),
    Play("a refused start", [enters(0), calls(0, HSM, 0, 1, HANDLER, 9), is_back(0, -3), enters(1, HANDLER, 9), OFF],
         [BOOT, call(0, HSM, 0, 1, HANDLER, 9), "0 ret -3 0x0", "m end off"]),
    Play("a non-retentive suspend", [enters(0), calls(0, HSM, 3, 1 << 31, HANDLER, 5), enters(0, HANDLER, 5), OFF],
         [BOOT, call(0, HSM, 3, 1 << 31, HANDLER, 5), "0 entry 0x80300000 0x0 0x5", "m end off"]),
    Play("a suspend of the system", [enters(0), calls(0, SUSP, 0, 0, HANDLER, 5), enters(0, HANDLER, 5), OFF],
         [BOOT, call(0, SUSP, 0, 0, HANDLER, 5), "0 entry 0x80300000 0x0 0x5", "m end off"]),
    Play("a reset by a call", [enters(0), calls(0, SRST, 0, 1), enters(0), OFF], [BOOT, call(0, SRST, 0, 1), BOOT, "m end off"]),
    Play("a reset by no call", [enters(0), calls(0, TIME, 0, 5), enters(0), OFF], [BOOT, call(0, TIME, 0, 5), "m reset", BOOT, "m end off"]),
    Play("a reset by no call, behind one that was refused", [enters(0), calls(0, SRST, 0, 9), is_back(0, -3), enters(0), OFF],
         [BOOT, call(0, SRST, 0, 9), "0 ret -3 0x0", "m reset", BOOT, "m end off"]),
    Play("an interrupt right behind a return", [enters(0), calls(0, *FENCE), calls(0, *SEND, sp=IRQ), is_back(0, sp=IRQ), is_back(0, -1, 6), OFF],
         [BOOT, call(0, *FENCE), "0 ret -1 0x6", call(0, *SEND), "0 ret 0 0x0", "m end off"]),
    Play("interrupts right behind two returns",
         [enters(0), calls(0, *FENCE), calls(0, *SEND, sp=IRQ), calls(0, TIME, 0, 5, sp=OTHER), is_back(0, sp=OTHER), is_back(0, 0, 2, sp=IRQ), is_back(0, 0, 1), OFF],
         [BOOT, call(0, *FENCE), "0 ret 0 0x1", call(0, *SEND), "0 ret 0 0x2", call(0, TIME, 0, 5), "0 ret 0 0x0", "m end off"]),
    Play("an interrupted return that comes before that of the handler's own task",
         [enters(0), calls(0, *FENCE), calls(0, *SEND, sp=IRQ), is_back(0, 0, 1), is_back(0, 0, 2, sp=IRQ), OFF],
         [BOOT, call(0, *FENCE), "0 ret 0 0x1", call(0, *SEND), "0 ret 0 0x2", "m end off"]),
    Play("a run that ends before an interrupted return is seen", [enters(0), calls(0, *FENCE), calls(0, *SEND, sp=IRQ), is_back(0, sp=IRQ), OFF],
         [BOOT, call(0, *FENCE), "0 ret - -", call(0, *SEND), "0 ret 0 0x0", "m end off"]),
    Play("a reset before an interrupted return is seen", [enters(0), calls(0, *FENCE), calls(0, *SEND, sp=IRQ), enters(0), calls(0, *SEND), is_back(0), OFF],
         [BOOT, call(0, *FENCE), "0 ret - -", call(0, *SEND), "m reset", BOOT, call(0, *SEND), "0 ret 0 0x0", "m end off"]),
    Play("an interrupted return of a task that ended, and one of the next on its stack",
         [enters(0), calls(0, *FENCE), calls(0, *SEND, sp=IRQ), is_back(0, sp=IRQ), calls(0, TIME, 0, 5), calls(0, *SEND, sp=IRQ), is_back(0, sp=IRQ), is_back(0, 0, 5), OFF],
         [BOOT, call(0, *FENCE), "0 ret - -", call(0, *SEND), "0 ret 0 0x0", call(0, TIME, 0, 5), "0 ret 0 0x5", call(0, *SEND), "0 ret 0 0x0", "m end off"]),
    Play("a task that goes on on another hart", [*TWO, calls(0, *FENCE), calls(0, *SEND, sp=IRQ), is_back(0, sp=IRQ), is_back(1, 0, 3), calls(1, *SEND), is_back(1), OFF],
         [*TWO_LINES, call(0, *FENCE), "0 ret 0 0x3", call(0, *SEND), "0 ret 0 0x0", call(1, *SEND), "1 ret 0 0x0", "m end off"]),
    Play("a task that goes on on another hart, right behind a return there",
         [*TWO, calls(0, *FENCE), calls(0, *SEND, sp=IRQ), is_back(0, sp=IRQ), calls(1, TIME, 0, 8, sp=OTHER), is_back(1, 0, 3), is_back(0, 0, 4, sp=OTHER), OFF],
         [*TWO_LINES, call(0, *FENCE), "0 ret 0 0x3", call(0, *SEND), "0 ret 0 0x0", call(1, TIME, 0, 8), "1 ret 0 0x4", "m end off"]),
    Play("two harts that use the same stack's address", [*TWO, calls(0, *FENCE), calls(1, *FENCE), is_back(1, 0, 1), is_back(0, 0, 2), OFF],
         [*TWO_LINES, call(0, *FENCE), call(1, *FENCE), "1 ret 0 0x1", "0 ret 0 0x2", "m end off"]),
    Play("a trap vector with its mode", [{**enters(0), "mtvec": VECTOR | 1}, calls(0, TIME, 0, 5), is_back(0), OFF], [BOOT, call(0, TIME, 0, 5), "0 ret 0 0x0", "m end off"]),
    Play("a start at an odd address", [enters(0), calls(0, HSM, 0, 1, HANDLER | 1, 9), is_back(0), enters(1, HANDLER, 9), OFF],
         [BOOT, call(0, HSM, 0, 1, HANDLER | 1, 9), "0 ret 0 0x0", "1 entry 0x80300000 0x1 0x9", "m end off"]),
    Play("a start by an id with higher bits", [enters(0), calls(0, HSM, 0, 1 << 32 | 1, HANDLER, 9), is_back(0), enters(1, HANDLER, 9), OFF],
         [BOOT, call(0, HSM, 0, 1 << 32 | 1, HANDLER, 9), "0 ret 0 0x0", "1 entry 0x80300000 0x1 0x9", "m end off"]),
    Play("a firmware that changes the stack pointer", [enters(0), calls(0, *FENCE), is_back(0, 0, 1, sp=OTHER), OFF], [BOOT, call(0, *FENCE), "0 ret 0 0x1", "m end off"]),
    Play("a machine that is switched off without a word to gdb", [enters(0), calls(0, SRST, 0, 0), {"ends": "exits"}], [BOOT, call(0, SRST, 0, 0), "m end off"]),
    Play("a connection that is lost", [enters(0), calls(0, TIME, 0, 5), is_back(0), {"ends": "Remote connection closed"}],
         [BOOT, call(0, TIME, 0, 5), "0 ret 0 0x0", "m end closed"], 3, ["the connection to QEMU was lost"]),
    Play("the limit, behind a return", [enters(0), calls(0, TIME, 0, 5), is_back(0), {"waits": 60}],
         [BOOT, call(0, TIME, 0, 5), "0 ret 0 0x0", "m end limit"], 3, ["the limit of 1 s was over"], words=("--seconds", "1")),
    Play("the limit, in a call that never returns", [enters(0), calls(0, TIME, 0, 5), {"waits": 60}], [BOOT, call(0, TIME, 0, 5), "m end limit"], 3,
         ["the limit of 1 s was over", "line 7: 0 ecall 0x54494d45 0x0 0x5 0x0 0x0 0x0 0x0 0x0: not until the record's limit"], words=("--seconds", "1", "--grace", "0.5")),
    Play("the limit, in a call that returns a little later", [enters(0), calls(0, TIME, 0, 5), {"waits": 4}, is_back(0), calls(0, TIME, 0, 6), {"waits": 60}],
         [BOOT, call(0, TIME, 0, 5), "0 ret 0 0x0", "m end limit"], 3, ["the limit of 2 s was over"], words=("--seconds", "2")),
    Play("the limit, in a call that returns after another hart's call began",
         [*TWO, calls(1, *FENCE), {"waits": 4}, calls(0, TIME, 0, 6), is_back(1), {"waits": 60}],
         [*TWO_LINES, call(1, *FENCE), "1 ret 0 0x0", "m end limit"], 3, ["the limit of 2 s was over"], words=("--seconds", "2")),
    *(Play(f"the limit, where a hart has {done}", [*TWO, calls(1, HSM, *of), {"waits": 3}, calls(0, TIME, 0, 6), is_back(0), {"waits": 60}],
           [*TWO_LINES, call(1, HSM, *of), "m end limit"], 3, ["the limit of 1 s was over"], words=("--seconds", "1", "--grace", "4")) for done, of in (("stopped", (1,)), ("suspended itself", (3, 0)))),
    Play("a hart that never enters", [enters(0), calls(0, HSM, 0, 1, HANDLER, 9), is_back(0), {**calls(0, TIME, 0, 5), "time": 5_000_003}, is_back(0), OFF],
         [BOOT, call(0, HSM, 0, 1, HANDLER, 9), "0 ret 0 0x0", call(0, TIME, 0, 5), "0 ret 0 0x0", "m end off"], 3, ["hart 1 never enters, until the record's end"]),
    Play("a machine that is switched off right behind a start", [enters(0), calls(0, HSM, 0, 1, HANDLER, 9), is_back(0), OFF],
         [BOOT, call(0, HSM, 0, 1, HANDLER, 9), "0 ret 0 0x0", "m end off"]),
]  # fmt: skip


def elf_at(*addresses):
    """An ELF file with a segment at each of these physical addresses, and all of them at virtual ones from 0 on."""
    head = b"\x7fELF\x02\x01".ljust(32, b"\0") + struct.pack("<QQIHHHHHH", 64, 0, 0, 64, 56, len(addresses), 64, 0, 0)
    return head + b"".join(struct.pack("<IIQQQQQQ", 1, 5, 0, at, address, 4, 4, 4096) for at, address in enumerate(addresses))


def numbers_of(seed):
    """Eight numbers of a call, each another one."""
    return [(seed * 8 + at) * 0x0123_4567_89AB_CDEF & M64 for at in range(1, 9)]


def of_all_harts(harts, calls_of_each):
    """Stops at which each hart, once it is started, calls and returns with other numbers each time, in turns; and the record's lines."""
    stops, lines = [enters(0)], [BOOT]
    for hart in range(1, harts):
        stops += [calls(0, HSM, 0, hart, HANDLER, hart), is_back(0), enters(hart, HANDLER, hart)]
        lines += [call(0, HSM, 0, hart, HANDLER, hart), "0 ret 0 0x0", f"{hart} entry 0x80300000 {hart:#x} {hart:#x}"]
    for turn in range(calls_of_each):
        for hart in range(harts):
            numbers, error = numbers_of(turn * harts + hart), -(turn * harts + hart + 1)
            stops += [calls(hart, *numbers), is_back(hart, error, numbers[0])]
            lines += [call(hart, *numbers), f"{hart} ret {error} {numbers[0]:#x}"]
    return [*stops, OFF], [*lines, "m end off"]


def stand_ins(room, play, talk=()):
    """The environment in which the stand-ins play."""
    stops = os.path.join(room, "play")
    with open(stops, "w", encoding="ascii") as file:
        json.dump(play.stops, file)
    return os.environ | {"PATH": f"{STAND_IN}:{os.environ.get('PATH', '')}", "STAND_IN_PLAY": stops, "STAND_IN_TALK": json.dumps(talk)}


def recorded(room, play, data="an image", talk=()):
    """What tools/record makes of a play: its run, and the lines without the head."""
    image, out = (os.path.join(room, name) for name in ("image", "out"))
    write(image, data)
    given = stand_ins(room, play, talk)
    words = [os.path.join(ROOT, "tools/record"), "--harts", str(play.harts), "--bios", image, "--out", out, *play.words, image]
    found = subprocess.run(words, stdin=subprocess.DEVNULL, stdout=subprocess.PIPE, stderr=subprocess.PIPE, timeout=120, env=given)
    if not os.path.exists(out):
        return found, []
    with open(out, encoding="ascii") as file:
        lines = [line.rstrip("\n") for line in file if not line.startswith(("#", "record "))]
    return found, lines


def is_recorded(room, play):
    found, lines = recorded(room, play)
    plain = [" ".join(word for word in line.split(" ") if "=" not in word) for line in lines]
    said = found.stderr.decode()
    must(f"status {found.returncode}, lines {plain}, not {play.status}, {play.lines}; it said {said}", plain == play.lines and found.returncode == play.status)
    must(f"it said {said!r}, not {play.said}", all(text in said for text in play.said) and len(said.splitlines()) == len(play.said))
    seen_late = plain.count("0 ret - -") + sum("time=" not in line for line in lines if " ret " in line and "- -" not in line)
    must(f"a return has no notes: {lines}", not seen_late or any(word in play.name for word in ("interrupt", "another hart", "reset before")))


def ran(words, status, timeout=120):
    found = subprocess.run(words, stdin=subprocess.DEVNULL, stdout=subprocess.PIPE, stderr=subprocess.PIPE, timeout=timeout)
    must(f"{os.path.basename(words[0])}: status {found.returncode}, not {status}; it said {shown(found.stderr)}", not (status is not None and found.returncode != status))
    return found


def must_have_qemu():
    for name in ("qemu-system-riscv64", "gdb-multiarch", "riscv64-linux-gnu-gcc", FIRMWARE):
        if shutil.which(name) is None and not os.path.isfile(name):
            raise SkipTest(f"{name} is missing")


def recorded_off(image, out, *words):
    """The record of an image that switches its machine off, made under QEMU. OpenSBI may never return from a remote fence while
    another hart's is open (docs/FIRMWARE.md): a run that ends in one is made again, at most twice. Where no end comes, it is told
    what was waited for: what the recorder says, and the last line of each hart."""
    for _ in range(3):
        found = ran([os.path.join(ROOT, "tools/record"), *words, "--seconds", str(LONGEST), "--out", out, image], None, LONGEST + 60)
        text = read(out) if os.path.exists(out) else ""
        last = {line.split()[0]: line for line in text.splitlines() if line[:1].isdigit()}
        if b"the limit of" not in found.stderr or not any(f" call {FENCE[0]:#x} " in line for line in last.values()):
            break
    must(f"tools/record: status {found.returncode}; it said {found.stderr.decode()}; the harts are at {list(last.values())}", not found.returncode and text.endswith("\nm end off\n"))
    return text


def recorded_now(room, source, words, is_raw=False):
    """The record of a supervisor of tests/records-data that is built and run here and now, and its file."""
    must_have_qemu()
    image, out = os.path.join(room, "image"), os.path.join(room, "out")
    gcc = ["riscv64-linux-gnu-gcc", "-nostdlib", "-static", "-Wl,--build-id=none,--no-warn-rwx-segments", "-Wl,-T", os.path.join(ROOT, "examples/kernel/kernel.ld")]
    ran([*gcc, "-o", image, os.path.join(RECORDS, source)], 0)
    if is_raw:
        ran(["riscv64-linux-gnu-objcopy", "-O", "binary", image], 0)
    return recorded_off(image, out, *words), out


class Recorders(Test):
    programs = ()

    def test_recorder__what_is_refused(self):
        """Nothing is run where an output can't be written; and a run of which nothing came is told."""
        play = Play("", [enters(0), OFF], [], words=("--out", os.path.join(self.room, "none/there")))
        for words in (("--out", os.path.join(self.room, "none/there")), ("--console", self.room), ("--harts", "0"), ("--seconds", "0")):
            play.words = words
            found, lines = recorded(self.room, play)
            if found.returncode != 1 or not found.stderr.startswith(b"record: ") or lines or os.path.exists(os.path.join(self.room, "play.ran")):
                raise AssertionError(f"with {words} status {found.returncode}, and it said {shown(found.stderr)}")
        found, lines = recorded(self.room, Play("", [{"ends": "no machine"}], []))
        must(f"of nothing: status {found.returncode}, and it said {shown(found.stderr)}", found.returncode == 1 and b"record: nothing was recorded: no hart came to 0x80200000 (--entry); gdb said: no machine" in found.stderr and not lines)
        found, lines = recorded(self.room, Play("", [{"waits": 60}], [], words=("--seconds", "1", "--grace", "0")))
        must(f"of nothing in time: status {found.returncode}, and it said {shown(found.stderr)}", found.returncode == 1 and b"record: nothing was recorded before the limit of 1 s was over" in found.stderr and not lines)

    def test_recorder__the_machine_is_as_asked(self):
        """QEMU is given the harts, the memory, the firmware, the device tree and the image that are asked for, and the entry is the one that is named."""
        tree = write(os.path.join(self.room, "tree"), "a tree")
        for harts, words, memory, has_tree, entry in ((1, (), "128", False, ENTRY), (2, ("--memory", "256"), "256", False, ENTRY), (8, ("--dtb", tree, "--memory", "2048"), "2048", True, ENTRY), (128, ("--entry", "0x80400000"), "128", False, 0x80400000)):
            found, lines = recorded(self.room, Play("", [enters(0, entry), OFF], [], harts=harts, words=words))
            given = read(os.path.join(self.room, "play.ran")).splitlines()
            value = lambda name, given=given: given[given.index(name) + 1]
            image = os.path.join(self.room, "image")
            must(f"{words}: {given}", [value(it) for it in ("-machine", "-smp", "-m", "-bios", "-kernel")] == ["virt", str(harts), memory, image, image] and ("-dtb" in given) == has_tree)
            must(f"{words}: {given}, {lines}", (not has_tree or value("-dtb") == tree) and not found.returncode and lines[0].startswith(f"0 entry {entry:#x} 0x0 0x7"))
            os.remove(os.path.join(self.room, "play.ran"))
            os.remove(os.path.join(self.room, "out"))
        # (of an ELF file it is the lowest address, and of one that is cut that of a raw image)
        elf = elf_at(0x80400000, 0x80300000, 0x80500000)
        for data, words, entry in ((elf, (), 0x80300000), (elf, ("--entry", "0x80400000"), 0x80400000), (elf[:100], (), ENTRY)):
            _, lines = recorded(self.room, Play("", [enters(0, entry), OFF], [], words=words), data)
            must(f"{words}: {lines}", lines[0].startswith(f"0 entry {entry:#x} 0x0 0x7"))
            os.remove(os.path.join(self.room, "out"))
        # (the head names the image and the firmware, each for itself)
        data, other = "an image of its own", write(os.path.join(self.room, "firmware"), "a firmware")
        recorded(self.room, Play("", [enters(0), OFF], [], harts=1, words=("--bios", other)), data)
        head = read(os.path.join(self.room, "out")).splitlines()
        must(f"{head}", head[0] == f"# image image sha256 {hashlib.sha256(data.encode()).hexdigest()[:16]}" and head[1] == "# firmware firmware" and ", virt, 1 hart" in head[2] and head[4] == "record 1")

    def test_recorder__each_hart_and_each_register(self):
        """Of each hart each call and each return is in the record, with each of its registers in its own place."""
        for harts, turns in ((4, 9), (128, 2)):
            stops, wanted = of_all_harts(harts, turns)
            found, lines = recorded(self.room, Play("", stops, [], harts=harts))
            must(f"of {harts} harts it said {shown(found.stderr)}", f"\nrecord {harts}\n" in read(os.path.join(self.room, "out")) and b"can't be followed" not in found.stderr)
            plain = [" ".join(word for word in line.split(" ") if "=" not in word) for line in lines]
            at = next((at for at, (one, other) in enumerate(zip(plain, wanted)) if one != other), min(len(plain), len(wanted)))
            must(f"of {harts} harts line {at} is {plain[at : at + 1]}, and not {wanted[at : at + 1]}, of {len(plain)} and {len(wanted)}", plain == wanted)

    def test_recorder__notes(self):
        """Behind each line stand the time, sie, sip and SIE of sstatus of its hart then, each in its own place, and behind an entry satp."""
        registers = [{"sie": 0x22, "sip": 2, "sstatus": 2}, {"sie": 2, "sip": 0x20, "sstatus": 0}, {"sie": 0x20, "sip": 0x22, "sstatus": 0x8000_0000_0000_0122}]
        stops = [{**stop, "satp": 7, **more} for stop, more in zip((enters(0), calls(0, TIME, 0, 5), is_back(0)), registers)]
        _, lines = recorded(self.room, Play("", [*stops, OFF], [], harts=1))
        notes = [" ".join(word for word in line.split(" ") if "=" in word) for line in lines]
        wanted = [f"time={at:#x} sie={it['sie']:#x} sip={it['sip']:#x} sstatus={it['sstatus'] >> 1 & 1}" for at, it in enumerate(registers, 1)]
        wanted[0] += " satp=0x7"
        must(f"the notes are {notes}, and not {wanted}", notes == [*wanted, ""])
        # (that a kernel may write stimecmp: csrw stimecmp, a0 at any two bytes; csrr a0, stimecmp only reads)
        writes, reads, allowed = b"\1\0\x73\x10\xd5\x14", b"\x73\x25\xd0\x14", 1 << 63 | 0xF0
        for code, menvcfg, may in ((writes, allowed, True), (writes, 0xF0, False), (reads, allowed, False), (writes[1:], allowed, False), (elf_at(0x80200000).ljust(120, b"\0") + writes, allowed, False)):
            _, lines = recorded(self.room, Play("", [{**enters(0), "menvcfg": menvcfg}, OFF], [], harts=1), code)
            must(f"{code}: {lines}", ("sstc=1" in lines[0].split()) == may)

    def test_recorder__what_is_typed(self):
        """A line is typed once the console has printed what it waits for, behind what the line before waited for; each once, and in order."""
        console, says = os.path.join(self.room, "console"), lambda *pairs: [word for pair in pairs for word in ("--say", *pair)]
        for lines, talk, typed in (
            ([("login: ", "root"), ("login: ", "again")], [("a login: ", True), ("no\nlogin: ", True)], ["root", "again"]),
            ([("aa", "1"), ("aa", "2")], [("aa", True), ("a", False), ("a", True)], ["1", "2"]),
            ([("> ", "one"), ("$ ", "two"), ("> ", "three")], [("$ ", False), (">", False), (" ", True), ("$ ", True), ("..> ", True), ("$ > ", False)], ["one", "two", "three"]),
            ([("never", "no")], [("login: ", False)], []), ([("login: ", "root")], [("." * 9_000 + "\nlogin: ", True), ("\n" + "." * 9_000 + "\n", False)], ["root"]),
        ):  # fmt: skip
            stops = [enters(0), calls(0, TIME, 0, 5), is_back(0), {"talks": 1}, {"ends": "exits"}]
            found, _ = recorded(self.room, Play("", stops, [], harts=1, words=("--console", console, *says(*lines))), talk=talk)
            must(f"{lines}: status {found.returncode}, it said {shown(found.stderr)}", not found.returncode)
            said, wanted = read(console), "OpenSBI v0.0\n" + "".join(text for text, _ in talk)
            must(f"{lines}: typed was {read(os.path.join(self.room, 'play.typed'))}", json.loads(read(os.path.join(self.room, "play.typed"))) == typed)
            must(f"{lines}: printed was {said!r}, and not {wanted!r}", said == wanted)
            for name in ("play.typed", "play.off"):
                os.remove(os.path.join(self.room, name))

    def test_recorder__page_tables(self):
        """Fences and writes of satp in the image, and the changes of tables between stops; of A and D none, and of the firmware's fences a note."""
        first, second = {"0x80001000": 0x20000801, "0x80002000": 0x20000C01, "0x80003008": 0x20040047}, {"0x80001000": 0x20000801, "0x80002000": 0x20000C01}
        code, satp = 0x80200100, 8 << 60 | 0x80001
        image = b"\x13\x00\x00\x00" * 64 + b"".join(word.to_bytes(4, "little") for word in (0x18051073, 0x12B50073, 0x0000100F))
        firmware = {"0x80000800": 0x12050073}
        stops = [
            {**enters(0), "ram": firmware}, {"hart": 0, "pc": code, "x10": satp, "ram": first}, {"hart": 0, "pc": code + 4, "satp": satp, "x10": 0x1000, "x11": 7, "ram": first},
            {"hart": 0, "pc": code + 8, "satp": satp, "ram": {**first, "0x80003008": 0x200400C7}},
            {"hart": 0, "pc": 0x80000800, "satp": satp, "x10": 0x2000, "ram": {**second, "0x80003008": 0x20080047}},
            {**calls(0, TIME, 0, 5), "satp": satp, "ra": 0x80201100, "ram": {**second, "0x80003008": 0}}, {**is_back(0), "satp": satp, "ram": second}, OFF,
        ]  # fmt: skip
        wanted = [
            BOOT, "m store 0x80001000 0x20000801", "m store 0x80002000 0x20000c01", "m store 0x80003008 0x20040047", f"0 satp {satp:#x}",
            "0 sfence 0x1000 0x7", "0 fencei", "m store 0x80003008 0x20080047", "0 sfence 0x2000 -", "m store 0x80003008 0x0",
            call(0, TIME, 0, 5), "0 ret 0 0x0", "m end off",
        ]  # fmt: skip
        found, lines = recorded(self.room, Play("", stops, [], harts=1, words=("--tables",)), image)
        plain = [" ".join(word for word in line.split(" ") if "=" not in word) for line in lines]
        must(f"status {found.returncode}, lines {plain}, not {wanted}; it said {found.stderr.decode()}", plain == wanted and not found.returncode)
        must(f"{lines}", "firmware=1" in lines[8] and "firmware" not in lines[5] and f"pc={AT:#x} ra=0x80201100" in lines[10])

    def test_recorder__page_tables_of_a_raw_image(self):
        """Where the tables map the image's code, its fences and writes of satp are met at virtual addresses, too. Tables count that a hart
        has left, up to its fence of all of their ASID, or a reset. Svinval's instructions have a line each."""
        code, satp, asid = 0x80200100, 8 << 60 | 7 << 44 | 0x80001, 7
        words = (0x18051073, 0x12B50073, 0x0000100F, 0x12000073, 0x12B00073, 0x16B50073, 0x18000073, 0x18100073)
        image = b"\x13\x00\x00\x00" * 64 + b"".join(word.to_bytes(4, "little") for word in words)
        write_satp, fence, fence_i, fence_all, fence_asid, sinval, winval, invalir = range(0, 4 * len(words), 4)
        x = {"0x80001000": 0x20000801, "0x80002000": 0x20000C01, "0x80003008": 0x2008004B}
        at = lambda pc, last=x["0x80003008"], **more: {"hart": 0, "pc": pc, "ram": {**x, "0x80003008": last}, **more}
        begin = [enters(0), at(code + write_satp, x10=satp), at(0x1100 + fence, satp=satp, x10=0x1000, x11=7), at(0x1100 + write_satp, satp=satp, x10=0)]
        begun = [BOOT, *(f"m store {place} {value:#x}" for place, value in x.items()), f"0 satp {satp:#x}", "0 sfence 0x1000 0x7", "0 satp 0x0"]
        other, stored = 0x20080047, "m store 0x80003008 0x20080047"
        for what, stops, wanted in (
            ("tables that it has left", [at(code + fence_i, other)], [stored, "0 fencei"]),
            ("a fence of one address", [at(code + fence, x10=0x1000, x11=asid), at(code + fence_i, other)], ["0 sfence 0x1000 0x7", stored, "0 fencei"]),
            ("a fence of everything", [at(code + fence_all), at(code + fence_i, other)], ["0 sfence - -", "0 fencei"]),
            ("a fence of their ASID", [at(code + fence_asid, x11=0x50007), at(code + fence_i, other)], ["0 sfence - 0x50007", "0 fencei"]),
            ("a fence of another ASID", [at(code + fence_asid, x11=8), at(code + fence_i, other)], ["0 sfence - 0x8", stored, "0 fencei"]),
            ("tables that it takes again", [at(code + fence_all), at(code + write_satp, other, x10=satp)], ["0 sfence - -", stored, f"0 satp {satp:#x}"]),
            ("a reset", [enters(0), at(code + fence_i, other)], ["m reset", BOOT, "0 fencei"]),
            ("another hart", [at(code + fence_all, hart=1), at(code + fence_i, other)], ["1 sfence - -", stored, "0 fencei"]),
            ("Svinval", [at(code + winval), at(code + sinval, x10=0x1000, x11=7), at(code + invalir)], ["0 winval", "0 sinval 0x1000 0x7", "0 invalir"]),
        ):  # fmt: skip
            found, lines = recorded(self.room, Play("", [*begin, *stops, OFF], [], words=("--tables",)), image)
            plain = [" ".join(word for word in line.split(" ") if "=" not in word) for line in lines]
            must(f"{what}: status {found.returncode}, lines {plain}, not {[*begun, *wanted]}; it said {found.stderr.decode()}", plain == [*begun, *wanted, "m end off"] and not found.returncode)
        must(f"{lines}", "pc=0x1104" in lines[5])

    def test_recorder__callers(self):
        """Of a remote fence the return addresses are told, by frame pointers: behind a leaf, or a function that keeps one of its own. A frame
        that isn't on the stack, or not above the one before, ends them; other calls have none."""
        image, at, frames = b"\x13\x00\x00\x00", 0x80400000, {"0x804000f8": 0x80400140, "0x80400138": 0x80202000, "0x80400130": 0x80400180, "0x80400178": 0x80203000}
        for what, fence, more, ram, wanted in (
            ("a leaf", FENCE, {"s0": at + 0x100}, frames, ["ra2=0x80202000", "ra3=0x80203000"]),
            ("a function that keeps its own", FENCE, {"s0": at + 0x140}, frames, ["ra2=0x80202000", "ra3=0x80203000"]),
            ("a frame that is far", FENCE, {"s0": at + 0x100}, {**frames, "0x80400130": 0x80500180}, ["ra2=0x80202000"]),
            ("a frame below", FENCE, {"s0": at + 0x100}, {**frames, "0x80400130": at + 0x100}, ["ra2=0x80202000"]),
            ("no frame", FENCE, {"s0": 0x80210000}, frames, []),
            ("another call", (TIME, 0, 5), {"s0": at + 0x100}, frames, []),
        ):  # fmt: skip
            stops = [enters(0), {**calls(0, *fence, sp=at), "ra": 0x80201100, "ram": ram, **more}, is_back(0, sp=at), OFF]
            _, lines = recorded(self.room, Play("", stops, [], harts=1, words=("--tables",)), image)
            found = [word for word in lines[1].split() if word.startswith("ra")]
            must(f"{what}: {lines[1]}", found == ["ra=0x80201100", *wanted])

    def test_recorder__a_machine_that_begins_late(self):
        """The limit of time begins once the machine runs, however long QEMU and gdb took until then."""
        play = Play("", [enters(0), calls(0, TIME, 0, 5), is_back(0), OFF], [BOOT, call(0, TIME, 0, 5), "0 ret 0 0x0", "m end off"], words=("--seconds", "1"))
        with mock.patch.dict(os.environ, {"STAND_IN_LATE": "1.5"}):
            is_recorded(self.room, play)

    def test_recorder__what_was_waited_for(self):
        """Of a supervisor that doesn't switch its machine off the tests say what the recorder says, and where each hart is."""
        image, play = write(os.path.join(self.room, "image"), "an image"), Play("", [*TWO, calls(1, *FENCE), {"ends": "closed"}], [])
        with mock.patch.dict(os.environ, stand_ins(self.room, play)), self.assertRaises(AssertionError) as told:
            recorded_off(image, os.path.join(self.room, "out"), "--bios", image)
        text = str(told.exception)
        must(text, "status 3;" in text and "the connection to QEMU was lost" in text and "'0 ret 0 0x0 " in text and f"'{call(1, *FENCE)} " in text)

    def test_a_fresh_record__interrupts(self):
        """A supervisor whose timers come right behind returns, built and recorded here and now: no return is lost, and all agree."""
        text, out = recorded_now(self.room, "interrupts.S", ["--harts", "2"])
        late = re.findall(r"^([01]) ret 0 (0x0|0x1000000)$", text, re.M)
        must(f"interrupts came right behind {len(late)} returns, and not of both harts; or an answer wasn't seen", {hart for hart, _ in late} == {"0", "1"} and "ret - -" not in text)
        report = ran([os.path.join(ROOT, "tools/to-trace"), "--report", out], 0).stdout.decode()
        calls = text.count(" call ")
        must(f"the report is {report}", report.startswith(f"calls {calls}, entries 2: {calls + 2} agree\n"))

    def test_a_fresh_record__page_tables_of_a_raw_image(self):
        """A raw image whose tables map it at other addresses, too: its fences are seen there, and what it changes before one."""
        text, out = recorded_now(self.room, "raw-image.S", ["--harts", "1", "--tables"], True)
        lines = [line for line in text.splitlines() if line.split()[1:2] in (["store"], ["satp"], ["sfence"], ["fencei"]) and "firmware" not in line]
        root = int(lines[0].split()[2], 0) & -4096
        wanted = [
            f"m store {root + 8:#x} 0x100000c7", f"m store {root + 16:#x} 0x200000cf", f"m store {root + 2048:#x} 0x200000cf", f"0 satp {8 << 60 | root >> 12:#x}",
            "0 sfence - - pc=0x802000", "0 sfence - - pc=0xffffffc0002000", f"m store {root + 8:#x} 0x0", "0 sfence 0x1000 - pc=", "0 fencei pc=",
        ]  # fmt: skip
        must(f"{lines}, and not {wanted}", len(lines) == len(wanted) and all(line.startswith(it) for line, it in zip(lines, wanted)))
        report = ran([os.path.join(ROOT, "tools/to-trace"), "--report", out], 0).stdout.decode()
        must(f"the report is {report}", "1 mappings taken away, 0 findings" in report)


for play in PLAYS:
    add(Recorders, f"recorder: {play.name}", lambda room, play=play: is_recorded(room, play))
