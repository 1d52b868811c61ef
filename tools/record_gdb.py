"""The part of tools/record that runs in gdb: it stops harts where calls begin and return, and where harts enter, and writes the lines.

Each line is written at once. If a call has returned and its answer isn't seen yet, `@N HART` keeps the place of the
return of call N, and `@N HART ret A0 A1` is that return; the last line is `@end HOW`. tools/record combines them.
"""
import os
import sys

import gdb

sys.path.insert(0, os.path.dirname(os.path.realpath(os.environ["RECORD_SCRIPT"])))

from record_tables import Tables  # noqa: E402

SRST, HSM, SUSP, RFENCE = 0x53525354, 0x48534D, 0x53555350, 0x52464E43
FROM_S_MODE = 9
ENTRY = int(os.environ["RECORD_ENTRY"])
HARTS = int(os.environ["RECORD_HARTS"])
WRITES_STIMECMP = "RECORD_STIMECMP" in os.environ
# Of menvcfg: the supervisor may write stimecmp.
STCE = 1 << 63
CALL_REGISTERS = ("a7", "a6", "a0", "a1", "a2", "a3", "a4", "a5")
NON_RETENTIVE = 1 << 31

# Where the machine `virt` has its time.
MTIME = 0x200BFF8


def register(name):
    return int(gdb.parse_and_eval(f"(unsigned long)${name}")) & (1 << 64) - 1


def time_now():
    return int.from_bytes(bytes(gdb.selected_inferior().read_memory(MTIME, 8)), "little")


def has_stimecmp():
    try:
        return bool(register("menvcfg") & STCE)
    except gdb.error:
        return False


def memory(address, count):
    """Physical memory, or None where there is none."""
    try:
        return bytes(gdb.selected_inferior().read_memory(address, count))
    except gdb.error:
        return None


class Call:
    """A call that is open: its hart, its registers and number, and the address and stack pointer at which it goes on.
    The stack pointer tells apart calls of several tasks that all call from one place."""

    def __init__(self, hart, number, numbers, behind, stack):
        self.hart, self.number, self.numbers, self.back = hart, number, numbers, (behind, stack)


class Recorder:
    def __init__(self, sink):
        self.sink = sink
        self.stops_at = set()
        self.vectors = set()
        self.has_begun = False
        self.calls = 0
        image = os.environ.get("RECORD_TABLES")
        self.tables = Tables(image, ENTRY, HARTS, memory, self.put) if image else None
        self.fresh()

    def fresh(self):
        """As after a reset: no call is open, and nobody is about to enter."""
        # Of each hart the call in which its firmware is. `late`, newest last: calls that have returned to an interrupt.
        self.open, self.late = {}, []
        self.awaited = {hart: {} for hart in range(HARTS)}
        self.is_resetting = False
        if self.tables:
            self.tables.fresh(HARTS)

    def stop_at(self, address):
        if address not in self.stops_at:
            self.stops_at.add(address)
            gdb.execute(f"hbreak *{address:#x}", to_string=True)

    def put(self, *words):
        self.sink.write(" ".join(map(str, words)) + "\n")
        self.sink.flush()

    def write(self, hart, *words):
        notes = [f"time={time_now():#x}", f"sie={register('sie'):#x}", f"sip={register('sip'):#x}", f"sstatus={register('sstatus') >> 1 & 1}"]
        if words[0] == "entry":
            notes.append(f"satp={register('satp'):#x}")
            notes += ["sstc=1"] if WRITES_STIMECMP and has_stimecmp() else []
        if self.tables and words[0] == "call":
            notes += [f"pc={register('mepc'):#x}", f"ra={register('ra'):#x}"]
            callers = self.tables.callers(register("satp"), register("s0"), register("sp")) if register("a7") == RFENCE else []
            notes += [f"ra{place}={address:#x}" for place, address in enumerate(callers, 2)]
        self.put(hart, *words, *notes)

    def stopped(self):
        hart, pc = gdb.selected_thread().num - 1, register("pc")
        if self.tables:
            self.tables.look(hart, register("satp"))
            if pc in self.tables.stops:
                self.tables.instruction(hart, pc, register)
            self.stop_at_fences()
        if pc in self.vectors:
            if register("mcause") == FROM_S_MODE:
                self.called(hart)
        elif pc in self.awaited[hart] or pc == register("mepc") == ENTRY:
            self.entered(hart, pc)
        else:
            self.came_back(hart, (pc, register("sp")))

    def called(self, hart):
        numbers = [register(name) for name in CALL_REGISTERS]
        behind = register("mepc") + 4
        self.stop_at(behind)
        self.was_interrupted(hart)
        self.calls += 1
        self.open[hart] = Call(hart, self.calls, numbers, behind, register("sp"))
        self.write(hart, "call", *(f"{number:#x}" for number in numbers))
        eid, fid, a0, a1 = numbers[:4]
        if (eid, fid) == (HSM, 0) and a0 & 0xFFFFFFFF < HARTS:
            self.await_entry(a0 & 0xFFFFFFFF, a1)
        elif (eid, fid) == (HSM, 3) and a0 & NON_RETENTIVE or (eid, fid) == (SUSP, 0):
            self.await_entry(hart, a1)
        elif (eid, fid) == (SRST, 0):
            self.is_resetting = True

    def was_interrupted(self, hart):
        """The hart does something else: its call has returned, and an interrupt was taken before the next instruction."""
        call = self.open.pop(hart, None)
        if call is not None:
            self.put(f"@{call.number}", hart)
            self.late.append(call)

    def await_entry(self, hart, address):
        self.stop_at(address & ~1)
        self.awaited[hart].setdefault(address & ~1, self.calls)

    def came_back(self, hart, back):
        """The hart is behind an ECALL: its own call has returned, or a late one goes on, perhaps on another hart."""
        call = self.open.get(hart)
        if call is not None and call.back == back:
            return self.returned(self.open.pop(hart))
        mine = [late for late in self.late if late.back == back and late.hart == hart]
        of_others = [late for late in self.late if late.back == back]
        if mine or of_others:
            self.was_interrupted(hart)
            late = (mine or of_others)[-1]
            self.late.remove(late)
            return self.returned(late, is_late=True)
        if call is not None and call.back[0] == back[0]:
            # (a firmware that doesn't keep the stack pointer)
            self.returned(self.open.pop(hart))

    def returned(self, call, is_late=False):
        error, value = register("a0"), register("a1")
        words = ("ret", error - (1 << 64) if error >> 63 else error, f"{value:#x}")
        if is_late:
            # (what its registers had when it returned is not known any more)
            self.put(f"@{call.number}", call.hart, *words)
        else:
            self.write(call.hart, *words)
        eid, fid = call.numbers[:2]
        if (eid, fid) == (SRST, 0):
            self.is_resetting = False
        if error:
            # (what this call alone had been waited for doesn't come)
            for awaited in self.awaited.values():
                for address in [address for address, number in awaited.items() if number == call.number]:
                    del awaited[address]

    def entered(self, hart, pc):
        if pc not in self.awaited[hart]:
            if self.has_begun and not self.is_resetting:
                self.put("m reset")
            self.has_begun = True
            self.fresh()
            if self.tables:
                self.tables.look_for_the_firmware()
                self.stop_at_fences()
        self.awaited[hart] = {}
        self.open.pop(hart, None)
        vector = register("mtvec") & ~3
        self.vectors.add(vector)
        self.stop_at(vector)
        self.write(hart, "entry", f"{pc:#x}", f"{register('a0'):#x}", f"{register('a1'):#x}")

    def stop_at_fences(self):
        """Where the supervisor and the firmware fence, once both are in memory."""
        for address in self.tables.stops.keys() - self.stops_at if self.has_begun else ():
            self.stop_at(address)


def watch(recorder):
    """Lets the machine run from stop to stop, and says how it ended."""
    while True:
        try:
            gdb.execute("continue", to_string=True)
            if gdb.selected_inferior().pid == 0:
                return "off"
            recorder.stopped()
        except gdb.error as error:
            print(error)
            return "closed"


def main():
    for line in ("set pagination off", "set confirm off", "set architecture riscv:rv64", "set print thread-events off"):
        gdb.execute(line, to_string=True)
    # (on a busy machine QEMU answers late: if gdb asks again, it takes each answer for that of the next question)
    gdb.execute("set remotetimeout unlimited", to_string=True)
    gdb.execute(f"target remote {os.environ['RECORD_GATE']}", to_string=True)
    gdb.execute("maintenance packet Qqemu.PhyMemMode:1", to_string=True)
    # (one step masks interrupts, but lets time go on: else QEMU's clock may stand still for ever)
    gdb.execute("maintenance packet Qqemu.sstep=0x3", to_string=True)
    with open(os.environ["RECORD_LINES"], "w", encoding="ascii") as sink:
        recorder = Recorder(sink)
        recorder.stop_at(ENTRY)
        recorder.put("@end", watch(recorder))


main()
