"""Tests of the report by the standard: its classes on small records, wrong records that must not pass, and the table of rules."""
import os
import random
import re
import subprocess
from collections import Counter
from itertools import zip_longest

from board_model import ALL, BASE, GONE, HSM, IPI, RFENCE, SRST, TIME, WAITING, Board
from liveness import LONG, SOON
from numbers_here import Numbers
from records import read as read_record
from reports import CLASSES, FAULTS, Report
from rules import RULES, by_this_state, certain
from standard import BREAKS, FUNCTIONS, LATER, LOWEST, PMU, UNEXPLAINED
from states import Difference
from traces import followed

from . import fixtures, random_records, test_recorder
from .fixtures import RECORDS, ROOT, TESTER, Test, must, named, ran, script, shown, write

TO_TRACE = os.path.join(ROOT, "tools/to-trace")
# The small stored records, and the statuses of their reports.
STORED = [("wrong-answers", 5), ("hangs", 5), ("entries", 5), ("boot-hart", 0), ("newer", 0), ("far-pages", 0), ("interrupted", 0), ("interrupts", 0)]

# ---- wrong records: with each of these a firmware is at fault, and a kernel isn't

BOOT = "record 3\n0 entry 0x80200000 0 0x87e00000\n"
TWO = BOOT + "0 call 0x48534d 0 1 0x80200100 7 0 0 0\n0 ret 0 0\n1 entry 0x80200100 1 7\n"
TIMER = "0 call 0x54494d45 0 100 0 0 0 0 0\n"
# The hart's stop is refused here and not there, so the model knows nothing of it any more.
LOST = TWO + "1 call 0x48534d 1 0 0 0 0 0 0 sstatus=1\n# it is gone\n"


def call(eid, fid, *numbers, hart=0):
    return f"{hart} call " + " ".join(map(str, (eid, fid, *numbers, *[0] * (6 - len(numbers))))) + "\n"


def answered(eid, fid, *numbers, ret="0 0", hart=0):
    return call(eid, fid, *numbers, hart=hart) + f"{hart} ret {ret}\n"


def noted(eid, fid, *numbers, was, now):
    """A call with notes, and its return with others."""
    return f"{call(eid, fid, *numbers)[:-1]} {was}\n0 ret 0 0 {now}\n"


def at(time, more="", hart=0):
    """A call of the hart at this time."""
    return f"{call(BASE, 0, hart=hart)[:-1]} time={time} {more}\n"


# A timer whose time has come behind a later return of its hart, and when it should surely have been seen.
DUE, LATE = noted(TIME, 0, 90, was="time=50", now="sip=0x0 time=60") + at(70, "sip=0x0") + "0 ret 0 0x1000000 time=90 sip=0x0\n", 10_000_090
# A hart that sleeps until an IPI comes, and the IPI.
DOZES, SENDS = call(HSM, 3, 0, hart=1)[:-1] + " sie=0x2 sip=0x0 time=50\n", call(IPI, 0, 2)[:-1] + " time=60\n0 ret 0 0 time=70\n"
# A state that is told so many ticks behind time 50.
TOLD_STARTED = f"{call(HSM, 2, 1)[:-1]} time={{}}\n0 ret 0 0 time={{}}\n"
# A suspend that an external interrupt may end.
SLEEPS = call(HSM, 3, 0, hart=1)[:-1] + " sie=0x200 sip=0x0\n"
# A kernel that may write stimecmp.
MAY_WRITE = TWO.replace("1 entry 0x80200100 1 7", "1 entry 0x80200100 1 7 sstc=1")
# A non-retentive suspend that one ends, and one that a deadline ends that no call set.
FAR_RESUME = call(HSM, 3, 1 << 31, 0x80200100, 9, hart=1) + "1 entry 0x80200100 1 9 sip=0x200"
OWN_DEADLINE = call(HSM, 3, 0, hart=1)[:-1] + " sie=0x20 sip=0x0\n1 ret 0 0 sie=0x20 sip=0x20\n"
# A stop whose hart is still STARTED for a while, and before that is seen, an answer that differs.
STOPS = TWO + call(HSM, 1, hart=1) + "..0 call 0x48534d 2 1 0 0 0 0 0\n0 ret 0 0\n"
# A suspend that fails, and what comes meanwhile.
FAILS = TWO + call(HSM, 3, 0x7FFFFFFF, hart=1) + "..1 ret -2 0\n"
# Hart 2 is started by an id that is cut, and enters: here it is stopped.
CUT = TWO + answered(HSM, 0, 1 << 32 | 2, 0x80200100, 7) + "2 entry 0x80200100 2 7\n"
# A hart that its deadline wakes at its very time; and one that enters while an IPI to it is under way.
AT_ITS_TIME = TWO + f"{call(TIME, 0, 20, hart=1)[:-1]} time=12 sie=0x20 sip=0x0\n1 ret 0 0 time=13\n{call(HSM, 3, 0, hart=1)[:-1]} time=15 sie=0x20 sip=0x0\n1 ret 0 0 time=20 sie=0x20 sip=0x20\n"
WITH_AN_IPI = TWO + f"{call(TIME, 0, 60, hart=1)[:-1]} time=12 sie=0x20 sip=0x0\n1 ret 0 0 time=13\n{call(HSM, 3, 1 << 31, 0x80200100, 9, hart=1)[:-1]} time=15 sie=0x20 sip=0x0\n"
WITH_AN_IPI += f"{call(IPI, 0, 2)[:-1]} time=65\n1 entry 0x80200100 1 9 time=70 sie=0x20 sip=0x22\n0 ret 0 0 time=75\n"
# An IPI of two harts that has woken hart 1 before it comes to hart 2, which has entered meanwhile.
TO_BOTH = TWO + answered(HSM, 0, 2, 0x80200100, 7) + f"{call(HSM, 3, 0, hart=1)[:-1]} sie=0x2 sip=0x0 time=50\n{call(IPI, 0, 6)[:-1]} time=60\n1 ret 0 0 sie=0x2 sip=0x2 time=65\n"
TO_BOTH += f"2 entry 0x80200100 2 7 sip=0x0 time=66\n{call(HSM, 3, 0, hart=2)[:-1]} sie=0x2 sip=0x0 time=67\n"
CHANGED = [("sie", "sie=0x2", "sie=0x0"), ("sie, in an IPI's bit", "sie=0x20", "sie=0x22"), ("sstatus", "sstatus=0", "sstatus=1")]

WRONG = [
    # (what is wrong, the record, the class, the line)
    ("an error of no list", TWO + answered(TIME, 0, 5, ret="-77 0"), "breaks", 6),
    ("a positive error", TWO + answered(TIME, 0, 5, ret="1 0"), "breaks", 6),
    ("an error of a later version", TWO + answered(HSM, 0, 2, 0x80200100, ret="-9 0"), "breaks", 6),
    ("an error of another function", TWO + answered(HSM, 2, 1, ret="-6 0"), "breaks", 6),
    ("an error of a function of Base", TWO + answered(BASE, 3, 0x4442434E, ret="-2 0"), "breaks", 6),
    ("an error of no list, of a hart that went on otherwise", LOST + answered(HSM, 2, 1, ret="-77 0"), "breaks", 8),
    ("a state that isn't one, of a hart that went on otherwise", LOST + answered(HSM, 2, 1, ret="0 7"), "breaks", 8),
    ("an error of no list, of a suspend", TWO + answered(HSM, 3, 0, ret="-77 0", hart=1), "breaks", 6),
    ("a version with bit 31", TWO + answered(BASE, 0, ret="0 0x81000000"), "breaks", 6),
    ("a version 0", TWO + answered(BASE, 0, ret="0 0"), "breaks", 6),
    ("a version that loosens nothing", BOOT + answered(BASE, 0, ret="0 0xff000000") + answered(TIME, 0, 5, ret="-9 0"), "breaks", 5),
    ("Base that isn't there by the probe", TWO + answered(BASE, 3, BASE), "breaks", 6),
    ("a function that Base hasn't", TWO + answered(BASE, 7), "breaks", 6),
    ("a function that IPI hasn't", TWO + answered(IPI, 1, 1), "breaks", 6),
    ("an extension that nobody has", TWO + answered(0x12345, 0), UNEXPLAINED, 6),
    ("an extension that is offered, and not there", BOOT + answered(BASE, 3, TIME, ret="0 1") + answered(TIME, 0, 5, ret="-2 0"), "breaks", 5),
    ("a later extension's positive error", TWO + answered(0x4442434E, 0, ret="5 0"), "breaks", 6),
    ("a later extension's error of a still later version", TWO + answered(0x4442434E, 0, ret="-14 0"), "breaks", 6),
    ("an error of Base, by an id that is cut", TWO + answered(1 << 32 | BASE, 0, ret="-6 0"), "breaks", 6),
    ("a state that isn't one, by an id that is cut", TWO + answered(1 << 63 | HSM, 2, 1, ret="0 7"), "breaks", 6),
    ("a valid list that is refused", TWO + answered(IPI, 0, 3, ret="-3 0"), "breaks", 6),
    *((f"a start beyond 56 bits that succeeds{what}", TWO + answered(HSM, 0, 2, 1 << 56, 9) + entry, "breaks", 6) for what, entry in (("", ""), (", and enters", f"2 entry {1 << 56:#x} 2 9\n"))),
    ("a list of all harts that is refused", TWO + answered(IPI, 0, 0, ALL, ret="-3 0"), "breaks", 6),
    ("a valid range that is refused", TWO + answered(RFENCE, 1, 1, 0, 0x1000, 0x1000, ret="-5 0"), UNEXPLAINED, 6),
    ("a hart that isn't there, started", TWO + answered(HSM, 0, 9, 0x80200100), "breaks", 6),
    ("a hart that isn't there, with a state", TWO + answered(HSM, 2, 9), "breaks", 6),
    ("an id that is cut", TWO + answered(HSM, 2, 1 << 32), "breaks", 6),
    ("a started hart, started", TWO + answered(HSM, 0, 1, 0x80200100), "breaks", 6),
    ("a started hart, started beyond the board's RAM", TWO + answered(HSM, 0, 1, 0x80a00000), "breaks", 6),
    ("a suspended hart, started beyond the board's RAM", TWO + DOZES + answered(HSM, 0, 1, 0x80a00000) + SENDS + "1 ret 0 0 sip=0x2\n", UNEXPLAINED, 7),
    ("a started hart that is invalid", TWO + answered(HSM, 0, 1, 0x80200100, ret="-3 0"), UNEXPLAINED, 6),
    ("a stopped hart that isn't available", TWO + answered(HSM, 0, 2, 0x80200100, ret="-6 0"), UNEXPLAINED, 6),
    ("an error of the timer", TWO + answered(TIME, 0, 5, ret="-3 0"), UNEXPLAINED, 6),
    ("another state", TWO + answered(HSM, 2, 1, ret="0 1"), UNEXPLAINED, 6),
    *((f"a state of {state} while a suspend fails", FAILS.replace("..", answered(HSM, 2, 1, ret=f"0 {state}")), UNEXPLAINED, 7) for state in (1, 2, 3)),
    ("a state of another hart while a suspend fails", FAILS.replace("..", answered(HSM, 2, 0, ret="0 4")), UNEXPLAINED, 7),
    ("a start of a hart whose suspend fails, that succeeds", FAILS.replace("..", answered(HSM, 0, 1, 0x80200100)), "breaks", 7),
    ("a state behind a suspend that failed", FAILS.replace("..", "") + answered(HSM, 2, 1, ret="0 4"), UNEXPLAINED, 8),
    ("a state before a suspend that fails", TWO + answered(HSM, 2, 1, ret="0 4") + FAILS.replace(TWO, "").replace("..", ""), UNEXPLAINED, 6),
    ("a start that is invalid behind a suspend that failed", FAILS.replace("..", "") + answered(HSM, 0, 1, 0x80200100, ret="-3 0"), UNEXPLAINED, 8),
    ("a stop that succeeds and returns", TWO + answered(HSM, 1, hart=1), "breaks", 6),
    ("a non-retentive suspend that succeeds and returns", TWO + answered(HSM, 3, 1 << 31, 0x80200100, hart=1), "breaks", 6),
    ("a reserved suspend that succeeds", TWO + answered(HSM, 3, 5, hart=1), "breaks", 6),
    ("a reserved non-retentive suspend", TWO + call(HSM, 3, 0x80000005, 0x80200100, 9, hart=1) + "1 entry 0x80200100 1 9\n", "breaks", 6),
    ("a suspend that nothing ends", TWO + answered(HSM, 3, 0, hart=1), UNEXPLAINED, 7),
    ("a reset that succeeds and returns", TWO + answered(SRST, 0, 1), "breaks", 6),
    ("a reserved type of a reset", TWO + call(SRST, 0, 5) + "0 entry 0x80200000 0 0x87e00000\n", "breaks", 6),
    ("a reserved reason of a reset", TWO + call(SRST, 0, 1, 5) + "0 entry 0x80200000 0 0x87e00000\n", "breaks", 6),
    ("a reserved type that is refused by FAILED's neighbour", TWO + answered(SRST, 0, 1, ret="-4 0"), "breaks", 6),
    ("sstatus.SIE at an entry", TWO.replace("1 entry 0x80200100 1 7", "1 entry 0x80200100 1 7 sstatus=1"), "breaks", 5),
    *((f"a call that changes {name}", TWO + noted(TIME, 0, 5, was=was, now=now), "breaks", 6) for name, was, now in CHANGED),
    ("an IPI that a call loses", TWO + noted(TIME, 0, 5, was="sip=0x2", now="sip=0x20"), "breaks", 6),
    ("a set_timer for ever that leaves STIP", TWO + noted(TIME, 0, ALL, was="sip=0x20", now="sip=0x20"), "breaks", 6),
    ("a set_timer that leaves STIP", TWO + noted(TIME, 0, 90, was="sip=0x20", now="sip=0x20 time=50") + call(BASE, 0)[:-1] + " time=80\n", "breaks", 6),
    ("a call that changes sie, of a hart that went on otherwise", LOST + noted(HSM, 2, 1, was="sie=0x2", now="sie=0"), "breaks", 8),
    ("a call that never returns, by its comment", TWO + TIMER + "# ended: the limit of 60 s\n", "return", 6),
    ("a call that never returns", TWO + TIMER + "m end limit\n", "return", 6),
    ("a fence that never returns", TWO + call(RFENCE, 0, 3) + "m end limit\n", "return", 6),
    ("a call that never returns, of a hart that enters again", TWO + call(IPI, 0, 1, hart=1) + answered(HSM, 0, 1, 0x80200100, 9) + "1 entry 0x80200100 1 9\n", "return", 6),
    ("a hart that never enters", BOOT + answered(HSM, 0, 1, 0x80200100, 7) + "m end limit\n", "enter", 3),
    ("a hart that never enters, and is STARTED", BOOT + answered(HSM, 0, 1, 0x80200100, 7) + answered(HSM, 2, 1) + "m end limit\n", "enter", 3),
    ("a hart that never enters, and is SUSPENDED", BOOT + answered(HSM, 0, 1, 0x80200100, 7) + answered(HSM, 2, 1, ret="0 4") + "m end limit\n", UNEXPLAINED, 5),
    ("a hart that never enters, and the machine is off", BOOT + answered(HSM, 0, 1, 0x80200100, 7) + call(SRST, 0, 0) + "m end off\n", "enter", 3),
    ("a hart that never enters, at a far page", BOOT + answered(HSM, 0, 1, 0x80a00000, 7) + "m end limit\n", "enter", 3),
    ("a hart that never enters before a reset", BOOT + answered(HSM, 0, 1, 0x80200100, 7) + "m reset\n0 entry 0x80200000 0 0x87e00000\n", "enter", 3),
    ("another a0", TWO.replace("1 entry 0x80200100 1 7", "1 entry 0x80200100 0 7"), "otherwise", 5),
    ("another a1", TWO.replace("1 entry 0x80200100 1 7", "1 entry 0x80200100 1 8"), "otherwise", 5),
    ("another address", TWO.replace("1 entry 0x80200100 1 7", "1 entry 0x80200104 1 7"), "otherwise", 5),
    ("an entry that nobody asked for", TWO + "2 entry 0x80200100 2 7\n", "otherwise", 6),
    ("a second entry for one start", TWO + "1 entry 0x80200100 1 7\n", "otherwise", 6),
    ("an entry of a hart that went on otherwise, with another a1", LOST + answered(HSM, 0, 1, 0x80200100, 9) + "1 entry 0x80200100 1 8\n", "otherwise", 10),
    ("a boot hart's other a0", BOOT.replace("0 0x87e00000", "1 0x87e00000"), "otherwise", 2),
    ("a reboot with another a1", TWO + "m reset\n0 entry 0x80200000 0 0x87e00001\n", "otherwise", 7),
    ("a resume at another address", TWO + call(HSM, 3, 1 << 31, 0x80200100, 9, hart=1) + "1 entry 0x80200108 1 9\n", "otherwise", 7),
    ("a resume of the system at another address", BOOT + call(0x53555350, 0, 0, 0x80200100, 9) + "0 entry 0x80200108 0 9\n", "otherwise", 4),
    *((f"what a payload tells by {fid}", TWO + answered(0x08000001, fid, 1, 0, ret="-2 0"), "breaks", 6) for fid in range(5, 10)),
    ("a timer that never comes", TWO + DUE + at(LATE, "sip=0x0"), "breaks", 6),
    ("a timer that never comes, whose time had come before", TWO + noted(TIME, 0, 90, was="time=95", now="sip=0x0 time=99") + at(LATE, "sip=0x0"), "breaks", 6),
    ("a timer that never comes, behind one that did", TWO + noted(TIME, 0, 20, was="time=10", now="time=30 sip=0x20") + DUE + at(LATE, "sip=0x2"), "breaks", 8),
    ("a wake without an interrupt that is pending", TWO + SLEEPS + "1 ret 0 0 sie=0x200 sip=0x0\n", UNEXPLAINED, 7),
    ("Base that isn't there by the probe, and is by another value", TWO + answered(BASE, 3, BASE, ret="0 2") + answered(BASE, 3, BASE), "breaks", 8),
    ("an extension that is offered by another value, and not there", BOOT + answered(BASE, 3, TIME, ret="0 2") + answered(TIME, 0, 5, ret="-2 0"), "breaks", 5),
    ("an extension that works, and then isn't there", TWO + answered(TIME, 0, 5) + answered(TIME, 0, 5, ret="-2 0"), "breaks", 8),
    ("an extension that isn't there, and then works", TWO + answered(IPI, 0, 1, ret="-2 0") + answered(IPI, 0, 1), "breaks", 6),
    ("an extension of which a function isn't there", TWO + answered(RFENCE, 0, 3) + answered(RFENCE, 1, 3, ret="-2 0"), "breaks", 8),
    ("a probe that denies what works", TWO + answered(TIME, 0, 5) + answered(BASE, 3, TIME), "breaks", 8),
    *((f"a probe that denies what {what}", TWO + answered(BASE, 3, eid) + made, "breaks", 6) for what, eid, made in (
        ("stopped a hart", HSM, call(HSM, 1, hart=1) + answered(HSM, 0, 1, 0x80200100, 9) + "1 entry 0x80200100 1 9\n"),
        ("rebooted", SRST, call(SRST, 0, 1) + "0 entry 0x80200000 0 0x87e00000\n"), ("switched off", SRST, call(SRST, 0, 0) + "m end off\n"))),
    ("a probe that denies what another one told", TWO + answered(BASE, 3, SRST, ret="0 1") + answered(BASE, 3, SRST), "breaks", 8),
    *((f"function {fid} of Base, which tells otherwise later", TWO + answered(BASE, fid, ret="0 0x1000000") + answered(BASE, fid, ret="0 0x2000000"), "breaks", 8) for fid in (0, 1, 2, 4, 5, 6)),
    ("a satp at an entry", TWO.replace("1 entry 0x80200100 1 7", "1 entry 0x80200100 1 7 satp=0x8000000000080400"), "breaks", 5),
    ("a satp at an entry that fits nowhere", TWO + "1 entry 0x80200100 1 7 satp=0x8000000000080400\n", "otherwise", 6),
    ("a timer that comes early", TWO + noted(TIME, 0, 90, was="time=50", now="sip=0x0 time=60") + at(70, "sip=0x20") + "0 ret 0 0x1000000 time=80\n", "breaks", 6),
    ("an IPI that nobody sent", TWO + noted(TIME, 0, 5, was="sip=0x0", now="sip=0x2"), "breaks", 6),
    ("an IPI that was sent to another hart", TWO + answered(IPI, 0, 2, hart=1) + noted(TIME, 0, 5, was="sip=0x0", now="sip=0x2"), "breaks", 8),
    ("two IPIs where one was sent", TWO + answered(IPI, 0, 1, hart=1) + 2 * noted(TIME, 0, 5, was="sip=0x0", now="sip=0x2"), "breaks", 10),
    ("an IPI that wakes its hart and is lost", TWO + DOZES + SENDS + "1 ret 0 0 sie=0x2 sip=0x0 time=80\n", "breaks", 7),
    ("a suspended hart that an IPI doesn't wake", TWO + DOZES + SENDS + at(LONG + 70) + "m end limit\n", "return", 6),
    ("a suspended hart that an IPI doesn't wake, and a reset", TWO + DOZES + SENDS + at(LONG + 70) + "m reset\n0 entry 0x80200000 0 0x87e00000\n", "return", 6),
    ("a hart in a non-retentive suspend that an IPI doesn't wake", TWO + DOZES.replace(" 3 0 0", " 3 0x80000000 0x80200100") + SENDS + at(LONG + 70) + "m end off\n", "return", 6),
    ("a suspended hart that an IPI wakes late", TWO + DOZES + SENDS + at(LONG + 70) + f"1 ret 0 0 sie=0x2 sip=0x2 time={LONG + 80}\n", "return", 6),
    *((f"a {what} that isn't done", TWO + made + TOLD_STARTED.format(LONG + 50, LONG + 60) + at(2 * LONG + 60) + "m end limit\n", "return", 6)
      for what, made in (("stop", DOZES.replace(" 3 0 ", " 1 0 ")), ("suspend", DOZES))),
    ("a shutdown behind which another hart goes on for long", TWO + call(SRST, 0, 0)[:-1] + " time=50\n" + at(LONG + 50, hart=1) + "1 ret 0 0x1000000\nm end limit\n", "return", 6),
    *((f"a {what} reboot that switches the machine off", TWO + call(SRST, 0, kind) + "m end off\n", "enter", 6) for what, kind in (("cold", 1), ("warm", 2))),
    *((f"a {what} of a hart that hasn't entered since a reboot", TWO + call(SRST, 0, 1) + "0 entry 0x80200000 0 0x87e00000\n" + made, UNEXPLAINED, 8)
      for what, made in (("fence", answered(RFENCE, 0, 1, hart=1)), ("reset", call(SRST, 0, 1, hart=1) + "0 entry 0x80200000 0 0x87e00000\n"), ("stop", call(HSM, 1, hart=1)))),
    ("a shutdown that reboots", TWO + call(SRST, 0, 0) + "0 entry 0x80200000 0 0x87e00000\n", UNEXPLAINED, 7),
    ("a list that is refused, by a hart whose stop was", TWO + answered(HSM, 1, hart=1, ret="-1 0") + answered(IPI, 0, 3, ret="-3 0", hart=1), "breaks", 8),
    ("a state behind a stop that was refused", TWO + answered(HSM, 1, hart=1, ret="-1 0") + answered(HSM, 2, 1, ret="0 1"), UNEXPLAINED, 8),
    ("a state behind a suspend that was refused", TWO + answered(HSM, 3, 0, hart=1, ret="-2 0") + answered(HSM, 2, 1, ret="0 4"), UNEXPLAINED, 8),
    ("a state behind a start that was refused", TWO + answered(HSM, 0, 2, 0x80200100, ret="-1 0") + answered(HSM, 2, 2, ret="0 2"), UNEXPLAINED, 8),
    ("a call that loses STIP", TWO + noted(HSM, 2, 1, was="sip=0x20", now="sip=0x0"), "breaks", 6),
    ("sstatus that a call changes, whatever a handler does", TWO + noted(TIME, 0, 5, was="sie=0x2 sip=0x2 sstatus=1", now="sie=0x2 sip=0x0 sstatus=0"), "breaks", 6),
    ("what a call changes where no interrupt is enabled", TWO + noted(TIME, 0, 5, was="sie=0x0 sip=0x2 sstatus=1", now="sie=0x2 sip=0x0 sstatus=1"), "breaks", 6),
    ("a suspend that loses STIP", TWO + noted(HSM, 3, 0, was="sie=0x20 sip=0x20", now="sie=0x20 sip=0x0"), "breaks", 6),
    ("a hypervisor's fence that refuses a valid list", TWO + answered(RFENCE, 3, 3, ret="-3 0"), "breaks", 6),
    ("a hypervisor's fence that refuses all harts", TWO + answered(RFENCE, 6, 0, ALL, ret="-3 0"), "breaks", 6),
    ("a probe that has what nobody has", TWO + answered(BASE, 3, 0x12345, ret="0 1"), UNEXPLAINED, 6),
    ("an extension by which a kernel tells, and that is there", TWO + answered(0x08000001, 5, 1, 0), UNEXPLAINED, 6),
    *((f"{what} at a resume that nothing of this board ends", TWO + FAR_RESUME + f"{more}\n", "breaks", 7) for what, more in (("sstatus.SIE", " sstatus=1"), ("satp", " satp=0x8000000000080400"))),
    *((f"{what} at an entry of a hart that went on otherwise", LOST + answered(HSM, 0, 1, 0x80200100, 9) + f"1 entry 0x80200100 1 9{more}\n", "breaks", 10)
      for what, more in (("sstatus.SIE", " sstatus=1"), ("satp", " satp=0x8000000000080400"))),
    ("a deadline that wakes a hart, and isn't enabled", MAY_WRITE + OWN_DEADLINE.replace("sie=0x20", "sie=0x2"), UNEXPLAINED, 7),
    ("a deadline that wakes a hart, and was set for ever", TWO + answered(TIME, 0, ALL, hart=1) + OWN_DEADLINE, UNEXPLAINED, 9),
    ("a suspend that nothing ends, behind an IPI that was taken", TWO + answered(IPI, 0, 1 << 63 | 2) + f"{call(BASE, 0, hart=1)[:-1]} sie=0x2 sip=0x0\n1 ret 0 0x1000000\n" + DOZES + "1 ret 0 0 sie=0x2 sip=0x0\n", UNEXPLAINED, 11),
    ("a suspend that a deadline ends which isn't enabled, as was seen before", TWO + answered(TIME, 0, 20, hart=1) + f"{call(BASE, 0, hart=1)[:-1]} sie=0x2 sip=0x0\n1 ret 0 0x1000000\n" + answered(HSM, 3, 0, hart=1), UNEXPLAINED, 11),
    ("a suspend that nothing ends, behind one that a fence ended", TWO + DOZES + answered(RFENCE, 0, 2) + "1 ret 0 0 sie=0x2 sip=0x0 time=80\n" + DOZES.replace("time=50", "time=90") + "1 ret 0 0 sie=0x2 sip=0x0 time=95\n", UNEXPLAINED, 11),
    ("a suspend that nothing ends, behind one that an external interrupt ended", TWO + SLEEPS + "1 ret 0 0 sie=0x200 sip=0x200\n" + answered(HSM, 3, 0, hart=1), UNEXPLAINED, 9),
    ("a suspend that ends without the IPI under way", TO_BOTH + "2 ret 0 0 sie=0x2 sip=0x0 time=80\n0 ret 0 0 time=85\n", UNEXPLAINED, 13),
    ("a suspend that ends behind an IPI which has returned", TO_BOTH + "0 ret 0 0 time=75\n2 ret 0 0 sie=0x2 sip=0x2 time=80\n", UNEXPLAINED, 14),
    ("a hart that a fence wakes which never returns", TWO + DOZES + call(RFENCE, 0, 2) + "1 ret 0 0 sie=0x2 sip=0x0 time=80\nm end limit\n", "open", 8),
    *((f"{what} of a hart that an id which is cut has started", CUT + made, "follows", at) for what, made, at in (("an entry", "", 8), ("a state", answered(HSM, 2, 2), 9), ("a call", answered(HSM, 2, 0, hart=2), 9))),
    ("another state of a hart that has stopped and begun anew", CUT + call(HSM, 1, hart=2) + answered(HSM, 0, 2, 0x80200100, 9) + "2 entry 0x80200100 2 9\n" + answered(HSM, 2, 2, ret="0 1"), UNEXPLAINED, 13),
    ("an entry behind a reserved reset", TWO + call(SRST, 0, 5) + "0 entry 0x80200000 0 0x87e00000\n", "follows", 7),
    ("a list of all harts that is refused, while a hart enters", TWO + call(IPI, 0, 0, ALL) + answered(HSM, 0, 2, 0x80200100, 7, hart=1) + "2 entry 0x80200100 2 7\n0 ret -3 0\n", "breaks", 6),
    ("a state behind a reset that was refused", TWO + answered(SRST, 0, 0, 0xE0000000, ret="-3 0") + answered(HSM, 2, 1, ret="0 1"), UNEXPLAINED, 8),
]  # fmt: skip


def reported(text, *more):
    follower, items = followed(read_record(text.encode()), *more)
    return Report(follower, items)


def must_add_up(what, report):
    total = sum(report.counts.values())
    must(f"{what}: {report.calls} calls and {report.entries} entries, and the classes are {dict(report.counts)}", total == report.calls + report.entries and report.compared <= total)
    for kind in FAULTS:
        must(f"{what}: {kind} is told, and no call or entry has it", not (report.items[kind] and not any(report.counts[other] for other in FAULTS)))
    # (of what is told of one call or entry the worst counts, in the order in which the report's faults stand)
    rank = [*FAULTS, "follows", "unjudged", "own", "open"]
    calls = {report.record.lines[line.reply].number: line.number for line in report.record.lines if line.reply is not None}
    told = {}
    for kind in rank[::-1]:
        told |= {calls.get(item.at, item.at): kind for item in report.items[kind]}
    must(f"{what}: the classes are {report.classes}, and told is {told}", {at: kind for at, kind in report.classes.items() if kind in rank} == told)


# ---- what is told, and is no fault

TOLD = [
    ("a suspend, a stop and a reset without a return", TWO + call(HSM, 3, 0, hart=1) + call(SRST, 0, 0) + "m end off\n", None, 0),
    ("an odd address, at whose even one the hart enters", BOOT + answered(HSM, 0, 1, 0x80200101, 7) + "1 entry 0x80200100 1 7\n", "own", 3),
    ("a call that is open where the machine is off", TWO + call(RFENCE, 0, 1, hart=1) + call(SRST, 0, 0) + "m end off\n", "unjudged", 6),
    ("a call that is open at a record's end that says nothing", TWO + TIMER, "unjudged", 6),
    ("a shutdown that doesn't come", TWO + call(SRST, 0, 0) + "m end limit\n", "unjudged", 6),
    ("an address beyond the board's RAM that is refused", TWO + answered(HSM, 0, 2, 0x80a00000, ret="-5 0"), "unjudged", 6),
    ("an answer that wasn't seen", TWO + answered(HSM, 2, 1, ret="- -"), "unjudged", 6),
    *((f"a {what} whose answer wasn't seen, and that did nothing", TWO + answered(*numbers, ret="- -", hart=1) + answered(HSM, 2, 1) + answered(IPI, 0, 1, hart=1), "unjudged", 6)
      for what, numbers in (("stop", (HSM, 1)), ("reset", (SRST, 0, 1)), ("suspend", (HSM, 3, 1 << 31, 0x80200100)))),
    ("a fence whose answer wasn't seen", TWO + answered(RFENCE, 0, 3, ret="- -"), "unjudged", 6),
    ("a reset that doesn't come", TWO + call(SRST, 0, 1) + answered(TIME, 0, 5, hart=1) + "m end limit\n", "unjudged", 6),
    ("sie at an entry by start", TWO.replace("1 entry 0x80200100 1 7", "1 entry 0x80200100 1 7 sie=0x2"), "open", 5),
    ("a value of a function that has none", TWO + answered(TIME, 0, 5, ret="0 5"), "open", 6),
    ("a value behind an error", TWO + answered(HSM, 2, 9, ret="-3 5"), "open", 6),
    ("a fence's value", TWO + answered(RFENCE, 0, 3, ret="0 5"), "open", 6),
    ("a retentive suspend's value", TWO + "0 call 0x735049 0 2 0 0 0 0 0\n0 ret 0 0\n1 call 0x48534d 3 0 0 0 0 0 0 sie=2 sip=2\n1 ret 0 5\n", "open", 8),
    ("a start that fails", TWO + answered(HSM, 0, 2, 0x80200100, ret="-1 0"), "open", 6),
    ("a stop that fails", TWO + answered(HSM, 1, hart=1, ret="-1 0"), "open", 6),
    ("a suspend that isn't there", TWO + answered(HSM, 3, 0, hart=1, ret="-2 0"), "open", 6),
    *((f"a state of {state} while a suspend fails", FAILS.replace("..", answered(HSM, 2, 1, ret=f"0 {state}")), "open", 7) for state in (4, 5, 6)),
    ("a start of a hart whose suspend fails", FAILS.replace("..", answered(HSM, 0, 1, 0x80200100, ret="-3 0")), "open", 7),
    ("a state that is asked before a suspend fails, and told behind it", TWO + call(HSM, 2, 1) + answered(HSM, 3, 0x7FFFFFFF, hart=1, ret="-2 0") + "0 ret 0 4\n", "open", 6),
    ("a platform's suspend", TWO + call(HSM, 3, 0x90000000, 0x80200100, 9, hart=1) + "m end off\n", "open", 6),
    ("a warm reboot that isn't there", TWO + answered(SRST, 0, 2, ret="-2 0"), "open", 6),
    ("an extension that is there by another value", TWO + answered(BASE, 3, TIME, ret="0 2"), "open", 6),
    ("Base by another value", TWO + answered(BASE, 3, BASE, ret="0 0xffffffffffffffff"), "open", 6),
    ("an extension that isn't offered", BOOT + answered(BASE, 3, TIME) + answered(TIME, 0, 5, ret="-2 0"), "open", 5),
    ("a strange base", TWO + answered(IPI, 0, 0, 7), "open", 6),
    ("ids that are cut to 32 bits", TWO + answered(1 << 32 | BASE, 0, ret="0 0x1000000"), "open", 6),
    ("a hart's life that went on otherwise", LOST + answered(HSM, 2, 1, ret="0 1"), "follows", 8),
    ("an IPI and a timer that come during a call", TWO + answered(IPI, 0, 1, hart=1) + noted(TIME, 0, 5, was="sie=0x22 sip=0 sstatus=1", now="sie=0x22 sip=0x22 sstatus=1"), None, 0),
    ("a time that comes behind the return", TWO + noted(TIME, 0, 70, was="sip=0x20", now="sip=0x20 time=50") + call(BASE, 0)[:-1] + " time=80\n", None, 0),
    ("a time that may have come by the record's end", TWO + noted(TIME, 0, 70, was="sip=0x20", now="sip=0x20 time=50"), None, 0),
    ("other bits of sie", TWO + noted(TIME, 0, 5, was="sie=0x222", now="sie=0x22"), None, 0),
    ("an IPI that the legacy extension clears", TWO + noted(3, 0, was="sip=0x2", now="sip=0x0"), None, 0),
    ("a return whose registers weren't seen", TWO + noted(TIME, 0, 5, was="sie=0x2 sip=0x2 sstatus=0", now=""), None, 0),
    ("user pages", TWO + answered(0x08000001, 4, 15, 3, ret="-2 0"), "own", 6),
    ("a wake by an external interrupt", TWO + SLEEPS + "1 ret 0 0 sie=0x200 sip=0x200\n", "own", 7),
    ("a resume by an external interrupt", TWO + FAR_RESUME + "\n", "own", 7),
    ("a wake by a deadline that no call set", TWO + OWN_DEADLINE, "own", 7),
    ("what a handler changes right behind a return", TWO + noted(TIME, 0, 5, was="sie=0x22 sip=0x2 sstatus=1", now="sie=0x20 sip=0x0 sstatus=1"), None, 0),
    ("STIP that a handler clears right behind a return", TWO + noted(HSM, 2, 1, was="sie=0x222 sip=0x20 sstatus=1", now="sie=0x222 sip=0x0 sstatus=1"), None, 0),
    ("an IPI that a handler clears right behind a suspend", TWO + DOZES.replace("sie=0x2", "sie=0x2 sstatus=1") + SENDS + "1 ret 0 0 sie=0x2 sip=0x0 time=80\n", None, 0),
    ("a wake by a deadline that the kernel has changed itself", MAY_WRITE + answered(TIME, 0, ALL, hart=1) + OWN_DEADLINE, "own", 9),
    ("a timer that comes early, by the kernel's own deadline", MAY_WRITE + noted(TIME, 0, 90, was="time=50", now="sip=0x0 time=60") + at(70, "sip=0x20") + "0 ret 0 0x1000000 time=80\n", "unjudged", 6),
    ("a timer that never comes, by the kernel's own deadline", MAY_WRITE + DUE + at(LATE, "sip=0x0"), "unjudged", 6),
    ("a vendor's extension", TWO + answered(0x09000001, 0, ret="0 7"), "unjudged", 6),
    ("a firmware's own extension that is there by the probe", TWO + answered(BASE, 3, 0x0A000001, ret="0 1"), "own", 6),
    ("an extension that is there by the probe of a cut id", TWO + answered(BASE, 3, 1 << 32 | TIME, ret="0 1"), "open", 6),
    ("a hypervisor's fence that refuses a list with a stopped hart", TWO + answered(RFENCE, 3, 6, ret="-3 0"), "open", 6),
    *((f"STIP that is cleared by {what}", TWO + noted(*numbers, was="sip=0x20", now="sip=0x0"), None, 0) for what, numbers in (("set_timer", (TIME, 0, ALL)), ("the legacy extension", (0, 0, ALL)))),
    ("a state behind a wake by an external interrupt", TWO + SLEEPS + answered(HSM, 2, 1, ret="0 4") + answered(HSM, 2, 1) + "1 ret 0 0 sip=0x200\n", "own", 9),
    ("a timer that is late", TWO + DUE + at(LATE - 1, "sip=0x0"), None, 0),
    ("a timer that came late, and then the kernel has cleared it", TWO + DUE + at(100, "sip=0x20") + "0 ret 0 0x1000000\n" + at(LATE, "sip=0x0"), None, 0),
    ("a timer that is set anew", TWO + DUE + noted(TIME, 0, ALL, was="time=100", now="sip=0x0 time=110") + at(LATE, "sip=0x0"), None, 0),
    ("a timer that is set anew, where the answer wasn't seen", TWO + DUE + answered(TIME, 0, ALL, ret="- -") + at(LATE, "sip=0x0"), None, 0),
    ("a timer that is set anew by the legacy extension", TWO + DUE + answered(0, 0, ALL) + at(LATE, "sip=0x0"), None, 0),
    ("a timer before a reset", TWO + DUE + "m reset\n0 entry 0x80200000 0 0x87e00000 time=5\n" + at(LATE, "sip=0x0"), None, 0),
    ("another hart's timer", TWO + DUE + at(LATE, "sip=0x0", hart=1), None, 0),
    ("a timer behind whose time its hart hasn't returned", TWO + noted(TIME, 0, 90, was="time=50", now="sip=0x0 time=89") + at(LATE, "sip=0x0"), None, 0),
    ("a timer where STIP isn't seen", TWO + DUE + at(LATE), None, 0),
    ("a timer that comes behind the hart's next line", TWO + noted(TIME, 0, 90, was="time=50", now="sip=0x0 time=60") + at(80, "sip=0x20") + "0 ret 0 0x1000000 time=90\n", None, 0),
    ("a timer that came before a reset", TWO + noted(TIME, 0, 90, was="time=50", now="sip=0x20 time=95") + "m reset\n0 entry 0x80200000 0 0x87e00000 time=5\n", None, 0),
    *((f"an IPI that a list with {what} may have sent", TWO + answered(*send, hart=1) + noted(TIME, 0, 5, was="sip=0x0", now="sip=0x2"), None, 0)
      for what, send in (("all harts", (IPI, 0, 0, ALL)), ("a strange base", (IPI, 0, 0, 9)), ("an address", (4, 0, 0x80300000)))),
    *((f"a list that is refused, of {what}", TWO + answered(*send, ret="-3 0"), "open", 6)
      for what, send in (("no hart", (IPI, 0, 0)), ("a stopped hart", (IPI, 0, 6)), ("a stopped hart to fence", (RFENCE, 1, 4, 0, 0x1000, 0x1000)))),
    ("a list that is refused, of a hart that enters meanwhile", TWO + call(IPI, 0, 4) + answered(HSM, 0, 2, 0x80200100, 7, hart=1) + "2 entry 0x80200100 2 7\n0 ret -3 0\n", "open", 6),
    ("a probe that denies a reset that may never come", TWO + answered(BASE, 3, SRST) + call(SRST, 0, 0) + "m end limit\n", "open", 6),
    ("a reset while the one hart sleeps", BOOT.replace("3", "1", 1) + call(HSM, 3, 0) + "m reset\n0 entry 0x80200000 0 0x87e00000\n" + answered(TIME, 0, 5), None, 0),
    ("a reset while all harts sleep", TWO + answered(HSM, 2, 1) + DOZES + answered(HSM, 2, 1, ret="0 4") + call(HSM, 3, 1 << 31, 0x80200100) + "m reset\n0 entry 0x80200000 0 0x87e00000\n", None, 0),
    ("a start that failed, and the next one", TWO + answered(HSM, 0, 2, 0x80200100, 7, ret="-1 0") + answered(HSM, 0, 2, 0x80200100, 7) + "2 entry 0x80200100 2 7\n", "open", 6),
    ("ids of two harts' machines", TWO + answered(BASE, 4, ret="0 1") + answered(BASE, 4, ret="0 2", hart=1), "open", 6),
    ("an IPI that comes behind a fence's wake", TWO + DOZES + answered(RFENCE, 0, 2) + SENDS + "1 ret 0 0 sie=0x2 sip=0x0 time=80\n", None, 0),
    ("a deadline that comes at the very time at which its hart goes on", AT_ITS_TIME, None, 0),
    ("a wake by an IPI whose list has a hart that isn't there", TWO + DOZES + answered(IPI, 0, 1 << 63 | 2) + "1 ret 0 0 sie=0x2 sip=0x2\n", "follows", 9),
    ("an IPI that comes late, and another one", TWO + DOZES.replace("time=50", "time=80").join((SENDS, "1 ret 0 0 sie=0x2 sip=0x2 time=85\n")) + SENDS.replace("=60", "=90").replace("=70", "=95"), None, 0),
    ("a wake by an IPI under way that isn't enabled", TWO + DOZES.replace("sie=0x2", "sie=0x20") + f"{call(IPI, 0, 2)[:-1]} time=60\n1 ret 0 0 sie=0x20 sip=0x2 time=65\n0 ret 0 0 time=70\n", "open", 8),
    ("a start of a suspended hart that goes on before the start returns", TWO + DOZES + SENDS + call(HSM, 0, 1, 0x80200100) + "1 ret 0 0 sie=0x2 sip=0x2 time=80\n0 ret -3 0\n", "open", 9),
    ("an IPI that comes to one hart after the other", TO_BOTH + "2 ret 0 0 sie=0x2 sip=0x2 time=80\n0 ret 0 0 time=85\n", "open", 13),
    ("a version that was seen the second time alone", TWO + answered(BASE, 0, ret="- -") + answered(BASE, 0, ret="0 0x1000000"), "unjudged", 6),
    ("a suspended hart that is late", TWO + DOZES + SENDS + at(LONG + 69), None, 0),
    ("a suspended hart that hasn't enabled the IPI", TWO + DOZES.replace("sie=0x2", "sie=0x20") + SENDS + at(LONG + 70), None, 0),
    ("a suspended hart, and the IPI of another one", TWO + DOZES + SENDS.replace(" 0 2 0", " 0 1 0") + at(LONG + 70), None, 0),
    ("a stop that is seen a little later", TWO + DOZES.replace(" 3 0 ", " 1 0 ") + TOLD_STARTED.format(LONG + 49, LONG + 49) + at(2 * LONG + 60), None, 0),
    ("a suspend that has ended when its state is told", TWO + DOZES + SENDS + TOLD_STARTED.format(LONG + 50, LONG + 60) + f"1 ret 0 0 sie=0x2 sip=0x2 time={LONG + 65}\n", None, 0),
    ("a shutdown behind which another hart goes on for a while", TWO + call(SRST, 0, 0)[:-1] + " time=50\n" + at(LONG + 49, hart=1) + "1 ret 0 0x1000000\nm end limit\n", "unjudged", 6),
    ("a vendor's reset that switches the machine off", TWO + call(SRST, 0, 0xF0000000) + "m end off\n", "open", 6),
    ("a state by another order, before an answer that differs by its numbers", STOPS.replace("..", answered(BASE, 3, 1, ret="0 1")), "own", 7),
    ("a state by another order, before an answer that differs by the board's state", STOPS.replace("..", answered(HSM, 0, 2, 0x80200100, ret="-1 0")), "open", 7),
]  # fmt: skip

# ---- the table of rules

ARGUMENTS = {
    BASE: [(0,), (3, BASE), (3, 0x54494D45), (3, 0x4442434E), (3, 0x0A000000), (3, 0x12345), (4,)],
    TIME: [(0, 5)],
    IPI: [(0, 3, 0), (0, 8, 0), (0, 0, 7), (0, 1, ALL)],
    RFENCE: [(0, 3, 0), (1, 3, 0, 0x1000, 0x1000), (2, 8, 0), (1, 1, 0, ALL - 1, 5), (3, 1), (4, 8), (6, 1)],
    HSM: [(0, 0, 0x80000000), (0, 1, 0x80000000), (0, 1, 1), (0, 9, 0x80000000), (0, 1 << 32, 0x80000000), (1,), (2, 0), (2, 9), (2, 1 << 32)]
    + [(3, kind, 0x80000000) for kind in (0, 5, 0x80000000, 0x80000005, 0x10000000, 0x90000000)] + [(3, 0x80000000, 1)],
    SRST: [(0, kind, reason) for kind in (0, 1, 2, 5, 0xF0000000) for reason in (0, 5, 0xE0000000)],
}  # fmt: skip
ERRORS = [*range(-15, 1), -77, 55]


def answers_of(op):
    """What a record may have of a call."""
    yield from (("ret", error, value) for error in ERRORS for value in ((0, 9) if error == 0 else (0,)))
    if op[1] in (HSM, SRST):
        yield GONE
    if op[1] in (RFENCE, HSM):
        yield WAITING


def must_have_verdict(op, there):
    board = Board(3, 4, 100, 0, 0x80000000, 0)
    board.step(0, ("advance",))
    here = board.step(0, op)
    if here == there:
        return None
    function = FUNCTIONS[op[1:3]]
    for is_offered in (True, False):
        verdict = certain(board, op, op[1:], here, there, (1, 0), is_offered) or by_this_state(board, op, here, there)
        must(f"{op} -> {there}: {verdict.kind} by {verdict.rule}", verdict.kind in CLASSES and not (verdict.rule and not RULES[verdict.rule].excuses(there)))
        error = there[1] if there[0] == "ret" else 0
        is_named = error in (0, *function.errors) or error == -2 and not is_offered or not function.tells and -9 < error < 0
        must(f"{op} -> {there} is {verdict.kind}, and SBI {function.section} names no such error", not (not is_named and verdict.kind != BREAKS))
        must(f"{op} -> {there} has no section", not (not verdict.section and verdict.kind != UNEXPLAINED))
    return verdict


# ---- random records

SEEDS = range(5000, 5040)


def mutants(lines, any_):
    """The record with one line wrong, in each way that its lines allow."""
    rets = [at for at, line in enumerate(lines) if line.split()[1] == "ret"]
    entries = [at for at, line in enumerate(lines) if line.split()[1] == "entry"]
    if rets:
        at = any_.choice(rets)
        hart, _, _, value, *notes = lines[at].split()
        yield "an error of no list", replaced(lines, at, " ".join([hart, "ret", "-77", value, *notes]))
    if entries:
        at = any_.choice(entries)
        hart, _, pc, a0, a1, *notes = lines[at].split()
        yield "another a0", replaced(lines, at, " ".join([hart, "entry", pc, str(int(a0, 0) + 1), a1, *notes]))
        yield "an entry twice", lines[: at + 1] + lines[at:]
        if at:
            yield "another a1", replaced(lines, at, " ".join([hart, "entry", pc, a0, str(int(a1, 0) ^ 1 << 63), *notes]))
    last = {line.split()[0]: at for at, line in enumerate(lines)}
    if ends := [at for at in last.values() if at in rets]:
        at = any_.choice(ends)
        yield "no last return, and the limit", lines[:at] + lines[at + 1 :] + ["m end limit"]


# Calls, with answers that aren't this board's and are excused.
EXCUSED = [((BASE, 3, 1), "0 1"), ((BASE, 3, TIME), "0 2"), ((IPI, 0, 1 << 63), "0 0")]


def with_excused(lines, any_):
    """The record, in which harts make such calls between their others, up to a reset."""
    made, running, is_over = [], set(), False
    for line in lines:
        hart, kind, eid = line.split()[:3]
        (running.discard if kind == "call" else running.add)(hart)
        is_over |= kind == "call" and int(eid, 0) == SRST
        made.append(line)
        if running and not is_over and any_.random() < 0.3:
            numbers, ret = any_.choice(EXCUSED)
            made += answered(*numbers, ret=ret, hart=any_.choice(sorted(running))).splitlines()
    return made


def replaced(lines, at, line):
    return lines[:at] + [line] + lines[at + 1 :]


# ---- ids of harts, and addresses


CONDITIONS = [
    # (what is asked, whether it holds, the line that the trace has)
    ("never _ ecall RFENCE 0 0xf", True, "never _ ecall 0x52464e43 0 0xf"),
    ("never _ ecall RFENCE 1 0x2 0", False, "never _ ecall 0x52464e43 1 0x2 0"),
    ("some _ ecall HSM 3 0x80000000", True, "some _ ecall 0x48534d 3 0x80000000"),
    ("some _ ecall SRST 0 1", False, "some _ ecall 0x53525354 0 1"),
    ("each _ ecall TIME -> ret 0", True, "each _ ecall 0x54494d45 -> ret 0"),
    ("never _ ecall IPI 0 0xff00", True, "never _ ecall 0x735049 0 0xff00"),
    ("each _ ecall BASE 0 -> ret 0 0x1000000", True, "each _ ecall 0x10 0 -> ret 0 0x1000000"),
]

# How a record says that it ended, and what the report says of that.
ENDS = (
    ("", "it doesn't say how"), ("m end off\n", "the machine was switched off, by no call"), ("m end limit\n", "by the recorder's limit of time"), ("m end closed\n", "the recorder lost the machine"),
    ("# ended: the limit of 60 s\n", "by the recorder's limit of time"), ("# ended: the machine was switched off\n", "the machine was switched off, by no call"),
    *((call(*numbers) + "m end off\n", "the machine was switched off") for numbers in ((SRST, 0, 0), (8, 0))), ("# it ended well\n", "it doesn't say how"),
)  # fmt: skip


class Reports(Test):
    def test_report__wrong_records(self):
        """Each is told in its class, at its line, and is bad; and so is it by the tool's status."""
        for what, text, kind, at in WRONG:
            report = reported(text)
            must(f"{what}: the report is {list(report.lines())}", report.is_bad and at in [item.at for item in report.items[kind]])
            must_add_up(what, report)
        for what, text in (("entries alone", BOOT), ("a call that can't be judged", BOOT + answered(PMU, 0, ret="-9 0"))):
            report = reported(text, None, (), (2, 0))
            must(f"{what}: the report is {list(report.lines())}", report.is_bad and any(line.endswith(", and no call") for line in report.lines()))
        for what, text, _, _ in WRONG[::9]:
            found = subprocess.run([TO_TRACE, "--report", script(self.room, text.encode())], stdout=subprocess.PIPE, stderr=subprocess.PIPE)
            must(f"{what}: status {found.returncode}, and it said {shown(found.stderr)}", found.returncode == 5)

    def test_report__what_is_told(self):
        """Each is told in its class, and isn't bad."""
        for what, text, kind, at in TOLD:
            report = reported(text)
            must(f"{what}: the report is {list(report.lines())}", not report.is_bad and not (kind and at not in [item.at for item in report.items[kind]]))
            must_add_up(what, report)
        for line, said in ENDS:
            told = [*reported(TWO + answered(TIME, 0, 5) + line).lines()]
            must(f"{line!r}: {told}", [it for it in told if it.startswith("the record ends: ")] == [f"the record ends: {said}"])
        for what, text in (("a stop", answered(HSM, 1, hart=1, ret="-1 0") + answered(HSM, 2, 1)), ("a reset", answered(SRST, 0, 0, 1, ret="-1 0") + answered(HSM, 2, 1, hart=1))):
            report = reported(TWO + text + answered(IPI, 0, 3, hart=1))
            must(f"behind {what} that was refused: {list(report.lines())}", report.counts == {"agree": 5, "open": 1} and not report.items["follows"])
        must(f"an entry during an IPI: {reported(WITH_AN_IPI).counts}", reported(WITH_AN_IPI).counts == {"agree": 7})
        for end in ("m end off\n", "m reset\n0 entry 0x80200000 0 0x87e00000\n"):
            text = BOOT + answered(HSM, 0, 1, 0x80200100, 7, ret="0 0 time=50") + f"{call(TIME, 0, 5)[:-1]} time={{}}\n0 ret 0 0\n" + end
            found = [[len(reported(text.format(time)).items[kind]) for kind in ("enter", "unjudged")] for time in (SOON + 49, SOON + 50)]
            must(f"a hart that hasn't entered before {end!r}: {found}", found == [[0, 1], [1, 0]])
        stopped = DOZES.replace(" 3 0 ", " 1 0 ") + answered(HSM, 0, 1, 0x80200100, 9) + TOLD_STARTED.format(LONG + 50, 2 * LONG) + TOLD_STARTED.format(2 * LONG, 3 * LONG) + "m end limit\n"
        report = reported(TWO + stopped)
        must(f"a stopped hart that is started again: {list(report.lines())}", [len(report.items[it]) for it in ("return", "enter")] == [0, 1])
        hangs = TWO + answered(TIME, 0, 5) + call(1, 0, 65) + "m end limit\n"
        must("a call that is passed over, and never returns", [item.at for item in reported(hangs, None, ("legacy",)).items["return"]] == [8])
        told = [*reported(TWO + 2 * "m reset\n0 entry 0x80200000 0 0x87e00000\n" + answered(TIME, 0, 5)).lines()]
        must(f"resets by no call: {told}", "resets by no call: 2, at line 6, 8" in told)
        must("an error of the version that has the extension is no fault", not reported(TWO + "0 call 0x535441 0 0 0 0 0 0 0\n0 ret -9 0\n", None, (), (1, 0)).is_bad)
        must("an error that the function's section doesn't name passes by --spec 2.0", reported(BOOT + answered(HSM, 2, 0, ret="-9 0"), None, (), (2, 0)).is_bad)
        path = script(self.room, (TWO + answered(PMU, 0, ret="-9 0")).encode())
        found = [subprocess.run([TO_TRACE, "--report", *words, path], stdout=subprocess.PIPE).returncode for words in ((), ("--spec", "2.0"))]
        must(f"an error of 2.0 has the statuses {found} without and with --spec 2.0", found == [5, 0])

    def test_report__each_answer_of_each_call(self):
        """Of each call each answer has a verdict, and the whole is the stored table: an error that the standard's list or the
        function's section hasn't breaks the standard, and nothing is excused but by a rule that names the answer."""
        lines = []
        for eid, arguments in ARGUMENTS.items():
            for fid, *numbers in arguments:
                op = ("ecall", eid, fid, *numbers, *[0] * (6 - len(numbers)))
                answers = {}
                for there in answers_of(op):
                    if verdict := must_have_verdict(op, there):
                        why = f"{verdict.kind} {verdict.section}: {verdict.rule or verdict.sentence}" if verdict.section else verdict.kind
                        answers.setdefault(why, []).append(f"{there[1]}/{there[2]}" if there[0] == "ret" and there[2] else str(there[1]) if there[0] == "ret" else there[0])
                lines.append(f"{FUNCTIONS[op[1:3]].name} {' '.join(f'{number:#x}' for number in numbers)}".rstrip())
                lines += [f"    {', '.join(found)}: {why}" for why, found in answers.items()]
        with open(os.path.join(RECORDS, "verdicts"), encoding="ascii") as file:
            for at, (line, stored) in enumerate(zip_longest(lines, file.read().splitlines()), 1):
                must(f"line {at} of tests/records-data/verdicts is {stored!r}, and the verdict {line!r}", line == stored)

    def test_report__each_rule_is_met(self):
        """Each rule of the table is one that a record of these tests meets."""
        texts = [text for _, text, _, _ in WRONG + TOLD]
        names = [*(name for name, _ in STORED), "kernel", "survey", "u-boot"]
        texts += [open(os.path.join(RECORDS, f"{name}.record"), encoding="ascii").read() for name in names]
        met = set()
        for text in texts:
            met |= {item.rule for item in followed(read_record(text.encode()))[1] if isinstance(item, Difference)}
        if unmet := set(RULES) - met:
            raise AssertionError(f"no record meets the rules {sorted(unmet)}")
        for eid in LATER:
            record = TWO + answered(eid, 0, ret="0 1")
            must(f"a call of {eid:#x} is told otherwise", [item.rule for item in reported(record).items["unjudged"]] == ["their calls"])
        must("the versions aren't those of --spec", PMU not in LATER and sorted(LOWEST) == [(1, 0), (2, 0), (3, 0)])

    def test_report__random_records_with_one_wrong_line(self):
        """A record of a right firmware has no fault but harts that have not entered yet; with one line wrong it is bad."""
        tried = Counter()
        for seed in SEEDS:
            head, *lines = random_records.Maker(seed).lines
            if not lines:
                continue
            report = reported("".join(line + "\n" for line in [head, *lines]))
            must_add_up(f"seed {seed}", report)
            must(f"seed {seed}: the report is {list(report.lines())}", not any(report.items[kind] for kind in FAULTS if kind != "enter"))
            for what, mutant in mutants(lines, random.Random(seed)):
                tried[what] += 1
                report = reported("".join(line + "\n" for line in [head, *mutant]))
                must_add_up(f"seed {seed}, {what}", report)
                must(f"seed {seed}, {what}: the report is {list(report.lines())}", any(report.items[kind] for kind in FAULTS if kind != "enter"))
        must(f"too little was tried: {tried}", len(tried) >= 5 and min(tried.values()) >= 10)

    def test_report__random_records_with_answers_that_are_excused(self):
        """Answers that differ by a rule, wherever they stand between others, leave each other answer its order."""
        for seed in range(5000, 5000 + fixtures.MANY // 3):
            head, *lines = random_records.Maker(seed).lines
            if lines:
                report = reported("".join(line + "\n" for line in [head, *with_excused(lines, random.Random(seed))]))
                must(f"seed {seed}: the report is {list(report.lines())}", not any(report.items[kind] for kind in ("follows", *FAULTS) if kind != "enter"))

    def test_ids_of_harts__hart_lists(self):
        """Of any ids, and any list, the board's list names the same harts; or is refused where a hart isn't there."""
        for seed in range(300):
            any_ = random.Random(seed)
            ids = sorted(any_.sample(range(any_.choice([4, 70, 130, 300])), any_.choice([1, 2, 3, 4])))
            text = f"record {len(ids)} {' '.join(map(str, ids))}\n{ids[0]} entry 0x80200000 {ids[0]} 0\n"
            numbers = Numbers(read_record(text.encode()), [], 256)
            for place, number in enumerate(ids):
                if (numbers.hart(number), numbers.hart(number | 3 << 40)) != (place, place | 3 << 40) or numbers.hart(301 + number) < len(ids):
                    raise AssertionError(f"of the ids {ids} hart {number} is {numbers.hart(number)}, and its cut id {numbers.hart(number | 3 << 40):#x}")
            for _ in range(20):
                base = any_.choice([*ids, any_.randrange(300)])
                mask = sum(1 << number - base for number in ids if 0 <= number - base < 64 and any_.random() < 0.6)
                mask |= any_.choice([0, 0, 1 << any_.randrange(64)])
                named = [base + i for i in range(64) if mask >> i & 1]
                here, at = numbers.hart_list(mask, base)
                got = [at + i for i in range(64) if here >> i & 1]
                is_valid = base in ids and all(number in ids for number in named)
                if is_valid != (at < len(ids) and all(number < len(ids) for number in got)) or is_valid and [ids[h] for h in got] != named:
                    raise AssertionError(f"of the ids {ids} the list {mask:#x} from {base} is {here:#x} from {at}")

    def test_ids_of_harts__without_a_list(self):
        """Ids without a list: of those who act, those that calls name, and the first that are free."""
        text, end = "record 4\n1 entry 0x80200000 1 0\n" + answered(IPI, 0, 0xD, 1, hart=1), "8 entry 0x80200000 8 0\n"
        for record, ids in ((text, [0, 1, 2, 3]), (text + end, [1, 3, 4, 8]), (text.replace("ret 0", "ret -3") + end, [0, 1, 2, 8])):
            must(f"of {record!r} the ids are {read_record(record.encode()).ids}", read_record(record.encode()).ids == ids)

    def test_addresses__more_pages_than_the_board_has(self):
        """256 pages have room; of others it is told."""
        lines = ["record 2", "0 entry 0x80200000 0 0"]
        for page in range(1, 260):
            lines += [f"0 call 0x48534d 0 1 {page << 20:#x} {page} 0 0 0", "0 ret 0 0", f"1 entry {page << 20:#x} 1 {page}", "1 call 0x48534d 1 0 0 0 0 0 0"]
            lines += ["0 call 0x48534d 2 1 0 0 0 0 0", "0 ret 0 1"]
        report = reported("\n".join(lines) + "\n")
        said = [line for line in report.lines() if "has no room here" in line]
        must(f"it said {said}, and {dict(report.counts)}", len(said) == 4 and said[0] == "line 1535: the page at 0x10000000 has no room here" and report.counts["own"] == 4)

    def test_interrupted_returns__the_stored_record(self):
        """The stored record of interrupts behind returns is the one that the recorder makes of its play."""
        stops = next(play.stops for play in test_recorder.PLAYS if play.name == "a task that goes on on another hart, right behind a return there")
        wanted = os.path.join(RECORDS, "interrupted.record")
        play = test_recorder.Play("", stops, [], harts=2)
        _, lines = test_recorder.recorded(self.room, play)
        with open(wanted, encoding="ascii") as file:
            stored = [line.rstrip("\n") for line in file if not line.startswith(("#", "record "))]
        must(f"the recorder has {lines}", lines == stored)

    def test_conditions_on_records(self):
        """Conditions stand in a file or in the record, with names of extensions, and `test` judges the trace by them."""
        conditions, own = (os.path.join(self.room, name) for name in ("conditions", "own.record"))
        write(conditions, "# a file of conditions\n" + "".join(f"  #! {text}  # why\n" for text, _, _ in CONDITIONS[1:]))
        with open(os.path.join(RECORDS, "kernel.record"), encoding="ascii") as kernel, open(own, "w", encoding="ascii") as file:
            file.write(f"#! {CONDITIONS[0][0]}\n" + kernel.read())
        found = subprocess.run([TO_TRACE, "--conditions", conditions, own], stdout=subprocess.PIPE, stderr=subprocess.PIPE)
        must(f"status {found.returncode}, and it said {shown(found.stderr)}", not found.returncode)
        trace = script(self.room, found.stdout)
        judged = ran([trace], program=TESTER, cwd=self.room)
        told = dict(reversed(it) for it in re.findall(r"^(ok|not ok) [0-9]+ - .*: line [0-9]+: (.*)$", judged.stdout.decode(), re.M))
        if told != {text: "ok" if holds else "not ok" for _, holds, text in CONDITIONS} or judged.returncode != 1:
            raise AssertionError(f"status {judged.returncode}, and the points are {told}; it said {shown(judged.stderr)}")
        found = subprocess.run([TO_TRACE, "--conditions", own + "x", own], stdout=subprocess.PIPE, stderr=subprocess.PIPE)
        empty = subprocess.run([TO_TRACE, "--conditions", os.path.join(RECORDS, "hangs.record"), own], stdout=subprocess.PIPE, stderr=subprocess.PIPE)
        must(f"a file without conditions passes: {shown(empty.stderr)}", (found.returncode, empty.returncode) == (1, 1) and b"so nothing is asked" in empty.stderr)
