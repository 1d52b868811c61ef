"""Each allocation of one call of the library refused in turn, by itself and with all after it: what that call itself answers, what
it hands back, and what it answers when it is made again. A program of tests, thread_rows, makes the calls."""
import itertools

from .fixtures import Test, add, allocating, calling, must, named, program_of, rows_of, shim

# The program, and the part of its rows that makes the calls.
PROGRAM, PART = program_of("thread_rows"), "memory"

# What the calls answer: of the board's faults and of a run's the name, of a script's the line and the number too.
NO_MEMORY, NO_THREAD = "NoMemory", "NoThread"
FAULT_9 = "(ScriptFault { line: 0, fault: NoMemory }, 9)"

# The run of a program, and how many threads it starts.
RUN, THREADS = "run", 4


def stored():
    return rows_of("thread_rows", PART)


def wanted(call, answer):
    """The lines of the program where that call is refused: what it had is shown once more, and it is made again."""
    lines = stored()
    at = lines.index(call)
    had = [it for it in lines[:at] if it.startswith(f"{call} has ")]
    begin = at - len(had)
    return [*lines[:begin], *had, call, f"{call}: {answer}", *lines[begin:]]


def must_print(found, lines, what):
    printed = found.stdout.decode("ascii", "replace").splitlines()
    if found.returncode or found.stderr or printed != lines:
        others = [(is_there, it) for is_there, it in itertools.zip_longest(printed, lines) if is_there != it]
        raise AssertionError(f"{what}: status {found.returncode}, it said {found.stderr[:200]}, and printed {others[:1]}")


def each_refused(room, call, answers, least):
    """Refuses the allocations of this call from the first one on, until it takes no more. `answers` has what is answered where the
    one of a number is refused. It must take at least so many."""
    made = shim(room)
    for number in itertools.count(1):
        for more in ({}, {"FROM": str(number)}):
            found, sizes = allocating(made, room, [PART], number, program=PROGRAM, WITHIN=call, **more)
            if len(sizes) < number:
                must_print(found, stored(), f"{call}, all memory")
                must(f"{call} takes memory {number - 1} times, and not {least} times or more", number > least)
                return
            what = f"{call}, allocation {number}{' and all after it' if more else ''} refused"
            must_print(found, wanted(call, answers(number)), what)


class Starts:
    """Which allocations of a run are of a thread's start, as they come with all memory."""

    def __init__(self, room):
        found, sizes, calls = calling(shim(room), room, [PART], program=PROGRAM, WITHIN=RUN)
        must_print(found, stored(), f"{RUN}, all memory")
        begun, started = calls["t"], calls["T"]
        must(f"{len(begun)} threads are started, and not {THREADS}", len(begun) == THREADS)
        # (what is taken for a thread before its start: between the last two nothing else is)
        own = begun[-1] - started[-2]
        self.places = {place for first, last in zip(begun, started) for place in range(first - own + 1, last + 1)}
        must(f"of {len(sizes)} allocations the threads begin at {begun}, and have started at {started}", own >= 1 and len(sizes) > started[-1])

    def answer(self, number):
        return NO_THREAD if number in self.places else NO_MEMORY


# Calls, with their answer to a refusal, and how often each takes memory at least.
CALLS = (
    ("parse of a program", FAULT_9, 4), ("parse of a schedule", FAULT_9, 4), ("parse of a trace", FAULT_9, 2), ("parse of a fault", FAULT_9, 2),
    ("Board::new", NO_MEMORY, 10), ("Board::cut", NO_MEMORY, 20), ("Board::cut, again", NO_MEMORY, 10), ("SharedBoard::open", NO_MEMORY, 12),
    ("SharedBoard::adopt", NO_MEMORY, 3), ("Record::split", NO_MEMORY, 20),
)  # fmt: skip


class RefusedCalls(Test):
    programs = (PROGRAM,)

    @named("refused calls: run")
    def test_refused_calls_run(self):
        """No memory for a thread's start is no thread; for anything else it is no memory."""
        each_refused(self.room, RUN, Starts(self.room).answer, 20)

    @named("refused calls: threads of a run")
    def test_refused_calls_threads_of_a_run(self):
        """Each thread refused in turn."""
        made = shim(self.room)
        for thread in range(1, THREADS + 1):
            found, _ = allocating(made, self.room, [PART], thread=thread, program=PROGRAM, WITHIN=RUN)
            must_print(found, wanted(RUN, NO_THREAD), f"thread {thread} refused")
        found, _ = allocating(made, self.room, [PART], thread=THREADS + 1, program=PROGRAM, WITHIN=RUN)
        must_print(found, stored(), "all threads")


for call, answer, least in CALLS:
    add(RefusedCalls, f"refused calls: {call}", lambda room, call=call, answer=answer, least=least: each_refused(room, call, lambda _: answer, least))
