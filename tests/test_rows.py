"""Refused memory and refused threads under the programs of rows, which say which of the two it was."""
import os
import re

from .fixtures import Test, allocating, at_once, must, named, program_of, rows_of, shim

# What a row says in place of what it shows.
NO_MEMORY, NO_THREAD = "no memory", "no thread"
REFUSED = re.compile(f"(line [0-9]+: )?{NO_MEMORY}|{NO_THREAD}")

# The program of rows with threads.
THREADS = program_of("thread_rows")


class Rows:
    """A part of the rows of threads, with what it must print where nothing is refused. Its first word is its name."""

    def __init__(self, room, words):
        self.words, self.room, self.made = words, room, shim(room)
        self.lines = rows_of("thread_rows", words[0])

    def run(self, refused=0, thread=0):
        """A run with that allocation or that thread refused, and how many allocations there were."""
        own = os.path.join(self.room, f"{refused}-{thread}")
        os.mkdir(own)
        found, sizes = allocating(self.made, own, self.words, refused, thread, program=THREADS)
        return found, len(sizes)

    def said(self, refused=0, thread=0):
        """The name of the row that the refusal reached, and whether it says that there is no memory, or no thread; or None, where
        each row shows what it must. What a gate was asked is not compared where its row ended early."""
        found, _ = self.run(refused, thread)
        lines = found.stdout.decode(errors="replace").splitlines()
        must(f"allocation {refused}, thread {thread} refused: status {found.returncode}, {len(lines)} lines: {lines[-1:]}", not found.returncode and len(lines) == len(self.lines))
        others = [place for place, line in enumerate(lines) if line != self.lines[place]]
        if len(others) == 2 and others[0] + 1 == others[1] and lines[others[1]].startswith("Questions "):
            others.pop()
        if not others:
            return None
        name = self.lines[others[0]].partition(": ")[0]
        row, _, text = lines[others[0]].partition(": ")
        must(f"allocation {refused}, thread {thread} refused: {[lines[it] for it in others]}", len(others) <= 1 and row == name and REFUSED.fullmatch(text))
        return name, text.rpartition(": ")[2]


def each_thread(rows, first):
    """Each thread refused in turn: its row says so, and the others show what they must. The first row with threads has so many."""
    said = []
    while not said or said[-1] is not None:
        said.append(rows.said(thread=len(said) + 1))
        must(f"thread {len(said)} refused: {said[-1]}", said[-1] is None or said[-1][1] == NO_THREAD)
    must(f"{said.count(said[0])} threads are refused in the first row, not {first}", said.count(said[0]) == first)


# The most that an allocation takes, in bytes, and how many are larger: those of texts of 16 MiB.
LARGEST, LARGER = 2_000_000, 23


class RowsWithoutThreads(Test):
    programs = (program_of("rows"),)

    @named("rows: allocations are small")
    def test_allocations_are_small(self):
        """The rows ask for much memory at once for their texts of 16 MiB alone."""
        found, sizes = allocating(shim(self.room), self.room, [], program=program_of("rows"))
        larger = sum(it > LARGEST for it in sizes)
        must(f"status {found.returncode}, {larger} allocations of more than {LARGEST} bytes", not found.returncode and larger == LARGER)


class ThreadRows(Test):
    programs = (THREADS,)

    def rows(self):
        """Where a thread is refused, one that a gate has wait for it gives up soon."""
        return Rows(self.room, ["threads", "soon"])

    @named("thread_rows: each thread refused")
    def test_thread_rows_each_thread_refused(self):
        each_thread(self.rows(), 3)

    @named("thread_rows: each allocation refused")
    def test_thread_rows_each_allocation_refused(self):
        """Each allocation refused in turn: its row says that there is no memory, or, where it is one of a thread's start, that
        there is no thread. In the first row three requests come after its last thread was started."""
        rows, last = self.rows(), 3
        _, count = rows.run()
        said = at_once(rows.said, range(1, count + 1))
        reached = [it for it in said if it]
        must(f"{count} allocations reach only the rows {sorted({row for row, _ in reached})}", len({row for row, _ in reached}) >= 10)
        first = [why for row, why in reached if row == reached[0][0]]
        must(f"the first row says {first}", first[: len(first) - last].count(NO_THREAD) >= 1 and first[-last:] == [NO_MEMORY] * last and first[-last - 1] == NO_THREAD)


class LockRows(Test):
    programs = (THREADS,)

    @named("thread_rows: each thread of locks refused")
    def test_thread_rows_each_thread_of_locks_refused(self):
        each_thread(Rows(self.room, ["locks"]), 9)
