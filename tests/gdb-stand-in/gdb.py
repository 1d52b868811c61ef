"""A stand-in for gdb's Python module: it plays the stops of a file, as a machine would make them, and stops only at addresses
where a breakpoint is. tests/test_recorder.py has the plays."""
import json
import os
import re
import time

with open(os.environ["STAND_IN_PLAY"], encoding="ascii") as file:
    PLAY = json.load(file)
BREAKPOINTS = set()
NOW = {"hart": 0, "time": 0}
# The seconds that gdb waits for an answer before it asks again, and what it was told last.
WAITS = {"seconds": 2, "told": 0}


class error(RuntimeError):
    """As gdb's own."""


class Inferior:
    def __init__(self, pid):
        self.pid = pid

    def read_memory(self, address, count):
        """The time; or a page of what the stop says of memory, by addresses of 8 bytes. Elsewhere there is nothing."""
        if count == 8:
            return memoryview(NOW["time"].to_bytes(count, "little"))
        ram = {int(at, 0): value for at, value in NOW.get("ram", {}).items() if address <= int(at, 0) < address + count}
        if not ram:
            raise error("no memory")
        return memoryview(b"".join(ram.get(at, 0).to_bytes(8, "little") for at in range(address, address + count, 8)))


class Thread:
    def __init__(self, num):
        self.num = num


def go_on():
    while PLAY:
        stop = PLAY.pop(0)
        if "waits" in stop:
            time.sleep(stop["waits"])
        elif "talks" in stop:
            while not os.path.exists(os.environ["STAND_IN_PLAY"] + ".typed"):
                time.sleep(0.02)
        elif "ends" in stop:
            NOW.clear()
            NOW["ends"] = stop["ends"]
            if stop["ends"] == "exits":
                # (QEMU ends, and tells gdb nothing)
                with open(os.environ["STAND_IN_PLAY"] + ".off", "w"):
                    raise error("Remote connection closed")
            if stop["ends"] != "off":
                raise error(stop["ends"])
            return
        elif stop["pc"] in BREAKPOINTS:
            time_now = stop.get("time", NOW["time"] + 1)
            NOW.clear()
            NOW.update(stop, time=time_now)
            return
    raise error("the play is over, and nothing said how the machine ended")


def execute(command, to_string=False):
    if command == "continue":
        go_on()
    elif found := re.fullmatch(r"hbreak \*(0x[0-9a-f]+)", command):
        BREAKPOINTS.add(int(found[1], 16))
    elif found := re.fullmatch(r"set remotetimeout (unlimited|[0-9]+)", command):
        WAITS["seconds"] = float("inf" if found[1] == "unlimited" else found[1])
    return ""


def parse_and_eval(expression):
    """A register. Where the answer comes so `late` that gdb asks again, it takes the answer before for this one."""
    value = NOW.get(expression.partition("$")[2], 0)
    told, WAITS["told"] = WAITS["told"], value
    return told if NOW.get("late", 0) > WAITS["seconds"] else value


def selected_inferior():
    return Inferior(0 if "ends" in NOW else 1)


def selected_thread():
    return Thread(NOW["hart"] + 1)
