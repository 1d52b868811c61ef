"""What the script does with what a program reads and prints, by the options that the program doesn't know: JSON lines, JUnit XML, pages,
the board at a line, what each step changed, and faults explained."""
import contextlib
import errno
import os
import select
import shutil
import signal
import stat
import subprocess
import sys
import tempfile
import threading
from concurrent.futures import ThreadPoolExecutor

from commands import AT, DIFF, EXPLAIN, HTML, JSON, JUNIT, NEEDED, PROGRAM, TAP, TAP_VERSION
from kinds import MOST_BYTES, lines_of, why_unread

# (what reads printed lines is of use where such an option is given alone)
sys.path.append(os.path.dirname(os.path.dirname(os.path.realpath(__file__))))

BAD_SCRIPT, USAGE, BAD_FILE = 1, 2, 7
FAILED_IO = "sbiboard: input or output failed\n"
# The statuses behind which there are points.
TOLD = (0, 1, 7, 8)
# The first lines of points.
TAP_13, TAP_14 = b"TAP version 13\n", b"TAP version 14\n"
# Of so many steps at most each is told with what it changed.
MOST_DIFFED = 10_000
STDIN = "/dev/stdin"
CLOSED = f"sbiboard: -: {os.strerror(errno.EBADF)}\n"


def is_asked(command, given):
    """Whether a call asks for something that the program doesn't do itself."""
    return any(it.name in given for it in command.own) or "-" in given[""]


def run_read(program, command, words, given):
    """Runs a program by its words, and does what the options of the script ask for. Returns the status, and what is said."""
    signal.signal(signal.SIGPIPE, signal.SIG_DFL)
    words = program_words(command, words)
    if sys.stdout is None:
        # (a file that is opened would take its number)
        return BAD_FILE, FAILED_IO
    try:
        if NEEDED.name in given:
            from needed import run_needed

            return run_needed(program, given)
        if command.program != PROGRAM:
            return Points(program, command, words, given).run()
        return Script(program, command, words, given).run()
    except OSError as error:
        return failed(error)


def failed(error):
    """The status and the words of a system call that failed."""
    return BAD_FILE, f"sbiboard: {error.filename}: {error.strerror}\n" if error.filename else FAILED_IO


def program_words(command, words):
    """The words without the script's own options and their values; the file `-` is standard input."""
    own, taking = {f"--{it.name}": it for it in command.own}, {f"--{it.name}" for it in command.options if it.value}
    left, words, is_behind = [], list(words), False
    while words:
        word = words.pop(0)
        name, has_value, _ = word.partition("=")
        if is_behind or not word.startswith("-") or word == "-":
            left.append(STDIN if word == "-" else word)
            continue
        is_behind = word == "--"
        value = [words.pop(0)] if name in taking and not has_value and words else []
        if name not in own:
            left += [word, *value]
    return left


def encoded(words):
    return [it.encode() for it in words]


def output(mode="w"):
    """Standard output. What can't be written fails here, and not once more when Python ends (which would be status 120)."""
    return open(1, mode, encoding=None if "b" in mode else "utf-8", closefd=False)


def written(text):
    with output() as file:
        file.write(text)


# ---- replays, checks and runs


class Script:
    """A call of the program of `run`, `replay` and `check`."""

    def __init__(self, program, command, words, given):
        self.program, self.command, self.words, self.given = program, command, words, given
        self.file = STDIN if given[""] == ["-"] else given[""][0]
        self.is_regular, self.text = True, b""

    def asks(self, option):
        return option.name in self.given

    def run(self):
        # (the program can't see whose text it is given)
        if self.file == STDIN and any(is_same(STDIN, it) for it in self.given.get("keep", ())):
            return BAD_FILE, FAILED_IO
        try:
            self.read()
        except OSError as error:
            why = why_unread(self.file.encode()) if self.asks(EXPLAIN) else ""
            said = CLOSED if error.errno == errno.EBADF else f"sbiboard: {self.file}: {why}\n" if why else FAILED_IO
            return self.tell(BAD_FILE, "", said) if self.asks(JSON) else (BAD_FILE, said)
        is_read = any(self.asks(it) for it in (JSON, AT, DIFF))
        status, out, said = self.done(None if self.is_regular else self.text, is_read)
        if is_read:
            # (of a script that has no replay nothing was printed)
            status, said = self.tell(status, out, said) if out or self.command.word == "check" or self.asks(JSON) else (status, said)
        # (one that a signal ended says nothing of a text)
        if self.asks(EXPLAIN) and status >= 0:
            from explain import explained

            told = explained(self.program, self.command, self.file, self.text)
            said = told if status == BAD_SCRIPT and told else told + said
        return status, said

    def read(self):
        """Reads the script; what isn't a regular file can be read but once."""
        self.is_regular = self.file != STDIN and stat.S_ISREG(os.stat(self.file.encode()).st_mode)
        with kept_input() if self.file == STDIN else open(self.file.encode(), "rb") as file:
            self.text = file.read(MOST_BYTES + 1)

    def done(self, given=None, is_captured=True):
        """Runs the program, on the file or on a text in its place."""
        words = [*self.words[:2], *(STDIN if given is not None and it == self.file else it for it in self.words[2:])]
        how = {"input": given} if given is not None else {"stdin": None}
        found = subprocess.run(encoded(words), executable=self.program, stdout=subprocess.PIPE if is_captured else None, stderr=subprocess.PIPE, check=False, **how)
        return found.returncode, (found.stdout or b"").decode(), found.stderr.decode()

    def tell(self, status, out, said):
        """Prints what is asked for. Returns the status, and what is said."""
        if self.command.word == "check" or not out:
            from json_lines import end, head, of_check

            written("".join([head(self.command.word, [self.file]), *(of_check(out, self.text) if out else ()), end(status, said)]))
            return status, said
        rows = [it.partition(b"#")[0].split() for it in lines_of(self.text)]
        places = [at for at, words in enumerate(rows, 1) if words]
        return Replay(self, places, status, out, said).tell()


class Replay:
    """What is asked of a replay. places: the lines of the script that have words, the first of which is the board line."""

    def __init__(self, script, places, status, out, said):
        self.script, self.places, self.status, self.out, self.said = script, places, status, out, said
        self.at = int(script.given[AT.name][0]) if script.asks(AT) else None
        self.is_json = script.asks(JSON)

    def tell(self):
        script, places = self.script, self.places
        last = len(lines_of(script.text)) - script.text.endswith(b"\n")
        if self.at is not None and not places[0] <= self.at <= last:
            return USAGE, f"sbiboard: --at {self.at}: {script.file} has a board from line {places[0]} on, and {last} lines\n"
        if script.asks(DIFF) and self.at is not None and self.at not in places[1:]:
            return USAGE, f"sbiboard: --at {self.at} --diff: this line of {script.file} has no step\n"
        if script.asks(DIFF) and self.at is None and len(places) > MOST_DIFFED + 1:
            return USAGE, f"sbiboard: --diff tells of at most {MOST_DIFFED:,} steps, and {script.file} has {len(places) - 1:,}: --at LINE --diff tells of one\n"
        lines = self.json_lines() if self.is_json else self.lines()
        with output() as file:
            file.writelines(lines)
        return self.status, self.said

    def printed_to(self, line):
        """What a replay prints of the script up to a line."""
        return self.script.done(b"\n".join(lines_of(self.script.text)[:line]) + b"\n")[1]

    def steps(self):
        """The printed lines of the steps that are told, and the script's lines of these."""
        printed = [it for it in self.out.splitlines()[1:] if not it.startswith("#")]
        chosen = [(place, line) for place, line in zip(self.places[1:], printed) if self.at in (None, place)]
        return [line for _, line in chosen], [place for place, _ in chosen]

    def changes(self, places):
        """What each of these steps changed in the table."""
        from board_table import Table

        before = {place: last for last, place in zip(self.places, self.places[1:])}
        wanted = sorted({*places, *(before[it] for it in places)})
        with ThreadPoolExecutor(os.cpu_count()) as threads:
            found = dict(zip(wanted, threads.map(lambda it: Table(table_of(self.printed_to(it))), wanted)))
        return [found[before[it]].changes(found[it]) for it in places]

    def lines(self):
        board = self.out.partition("\n")[0] + "\n"
        steps, places = self.steps()
        if not self.script.asks(DIFF):
            yield from (it + "\n" for it in table_of(self.printed_to(self.at)))
            return
        yield from [board] if self.at is None else []
        for line, changed in zip(steps, self.changes(places)):
            yield line + "\n"
            yield from (f"# ~ {it}\n" for it in changed)
        yield from (it + "\n" for it in table_of(self.out) if self.at is None)

    def json_lines(self):
        from json_lines import end, head, of_board, of_steps, of_table

        yield head("replay", [self.script.file])
        board = self.out.partition("\n")[0]
        yield of_board(board)
        steps, places = self.steps() if self.at is None or self.script.asks(DIFF) else ([], [])
        yield from of_steps("\n".join([board, *steps]), places, self.changes(places) if self.script.asks(DIFF) else None)
        yield from of_table(table_of(self.out if self.at is None else self.printed_to(self.at)))
        yield end(self.status, self.said)


def table_of(printed):
    return [it for it in printed.splitlines() if it.startswith("#")]


# ---- points


class Points:
    """A call of the program of `test` and `explore`."""

    def __init__(self, program, command, words, given):
        self.program, self.command, self.words, self.given = program, command, words, given
        self.files = [STDIN if it == "-" else it for it in given[""]]
        # What the program has said on standard error, where that is read.
        self.said = ""
        # Whether the script copies the points into their file, for a program that doesn't.
        self.copies = any(it.name == TAP.name for it in command.own)

    def asked(self, name):
        """The value of an option, or None."""
        return next(iter(self.given.get(name, ())), None)

    def run(self):
        if JSON.name not in self.given:
            return self.done()
        from json_lines import end, head

        written(head(self.command.word, self.files))
        try:
            status, said = self.done()
        except OSError as error:
            status, said = failed(error)
        written(end(status, self.said + said))
        return status, said

    def done(self):
        """Runs the program, and does what is asked for. Returns the status, and what is left to say."""
        tap, folder, junit = self.asked(TAP.name), self.asked(HTML.name), self.asked(JUNIT.name)
        if STDIN in self.files and sys.stdin is None:
            return BAD_FILE, CLOSED
        for path, others in ((junit, [*self.files, *([tap] if tap else [])]), (tap if self.copies else None, self.files)):
            if path and any(is_same(path, it) for it in others):
                return BAD_FILE, f"sbiboard: {path}: entity already exists\n"
        if folder and (why := why_no_folder(folder)):
            return BAD_FILE, f"sbiboard: {folder}: {why}\n"
        is_read = folder or junit or tap and self.asked(TAP_VERSION.name) == "14"
        if is_read and tap and os.path.exists(tap) and not os.path.isfile(tap):
            return BAD_FILE, f"sbiboard: {tap}: not a file, from which the points could be read\n"
        if folder and os.path.isdir(folder):
            # (what draws is of use here alone)
            from html_pages import others_list, take_away

            if other := others_list(folder):
                return BAD_FILE, f"sbiboard: {other}: not a page of --html, which overwrites no other\n"
            take_away(folder)
        with contextlib.ExitStack() as room:
            if junit:
                from junit import place

                room.enter_context(place(junit))
            if is_read and not tap:
                tap = os.path.join(room.enter_context(tempfile.TemporaryDirectory(prefix="sbiboard-points.")), "tap")
                self.words[1:1] = [] if self.copies else ["--tap", tap]
            stdin = room.enter_context(kept_input()) if STDIN in self.files else None
            before = written_at(tap)
            status = self.stream(stdin, room.enter_context(open(tap, "wb", buffering=0)) if self.copies and tap else None)
            # (an older file of points says nothing of this run)
            lines = read_lines(tap) if is_read and written_at(tap) != before else []
            said = self.behind(status, lines, folder, junit) + (self.explained(stdin) if EXPLAIN.name in self.given and status >= 0 else "")
        if self.asked("tap") and lines and self.asked(TAP_VERSION.name) == "14":
            with open(tap, "r+b") as file:
                file.write(TAP_14)
        if status == BAD_FILE and is_closed_pipe():
            os.kill(os.getpid(), signal.SIGPIPE)
        return status, said

    def stream(self, stdin, copy):
        """Runs the program, whose points go through as they come, also into a file where the script copies them. Returns its status."""
        how = {"executable": self.program, "stdin": stdin}
        is_json, is_14 = JSON.name in self.given, self.asked(TAP_VERSION.name) == "14" and not os.isatty(1)
        if not is_json and not is_14 and copy is None:
            return subprocess.run(encoded(self.words), check=False, **how).returncode
        # (on a terminal it shows the progress)
        is_heard = is_json and sys.stderr is not None and not os.isatty(2)
        with subprocess.Popen(encoded(self.words), stdout=subprocess.PIPE, stderr=subprocess.PIPE if is_heard else None, **how) as run:
            lines = run.stdout if copy is None else copied(run.stdout, copy)
            if is_json:
                from json_lines import of_items
                from points import read_points

                hearing = threading.Thread(target=self.hear, args=[run.stderr if is_heard else ()])
                hearing.start()
                for it in of_items(read_points((it.decode("utf-8", "surrogateescape") for it in lines), self.files)):
                    written(it)
                hearing.join()
            else:
                with output("wb") as file:
                    for line in lines:
                        file.write(TAP_14 if is_14 and line == TAP_13 else line)
                        file.flush()
        return run.returncode

    def hear(self, lines):
        """Passes on what the program says, and keeps it."""
        for line in lines:
            self.said += line.decode("utf-8", "replace")
            with contextlib.suppress(OSError):
                os.write(2, line)

    def behind(self, status, lines, folder, junit):
        """Draws pages and writes XML of the points. Returns what is said."""
        from points import Point, read_points

        items = list(read_points(lines, self.files))
        points, said = [it for it in items if isinstance(it, Point)], ""
        # (the plan stands behind all points)
        is_whole = status in TOLD and any(isinstance(it, int) for it in items)
        if junit:
            from junit import write

            write(junit, self.command.name, self.files, points, is_whole, status)
        if folder and status in TOLD:
            from html_pages import draw

            said = draw(self.program, folder, points) if is_whole else "sbiboard: not all points were told, so no page is written\n"
        return said

    def explained(self, stdin):
        """What is said of the files' faults."""
        from explain import explained

        said = ""
        for name in self.files:
            with contextlib.suppress(OSError):
                if stdin is not None and name == STDIN:
                    stdin.seek(0)
                    said += explained(self.program, self.command, name, stdin.read())
                elif os.path.isfile(name.encode()):
                    with open(name.encode(), "rb") as file:
                        said += explained(self.program, self.command, name, file.read(MOST_BYTES + 1))
        return said


def copied(lines, file):
    """The lines, each of which is written into the file."""
    for line in lines:
        left = line
        try:
            while left:
                left = left[file.write(left) :]
        except OSError as error:
            # (a write that fails doesn't name its file)
            raise OSError(error.errno, error.strerror, file.name) from None
        yield line


def kept_input():
    """Standard input as a file, which can be read again."""
    if sys.stdin is None:
        raise OSError(errno.EBADF, os.strerror(errno.EBADF))
    kept = tempfile.TemporaryFile()
    kept.write(sys.stdin.buffer.read(MOST_BYTES + 1))
    kept.seek(0)
    return kept


def is_closed_pipe():
    """Whether standard output is a pipe from which nobody reads."""
    poll = select.poll()
    poll.register(1, select.POLLOUT)
    return any(of & select.POLLERR for _, of in poll.poll(0))


def why_no_folder(path):
    """Why no page can be written into a folder, which may not be there yet; None: one can."""
    at = path
    while not os.path.lexists(at):
        at = os.path.dirname(at) or "."
    if not os.path.isdir(at):
        return "not a folder" if at == path else f"{at} is not a folder"
    return None if os.access(at, os.W_OK | os.X_OK) else os.strerror(errno.EACCES)


def is_same(path, other):
    """Whether two paths name one file, which may not be there yet. (One terminal can be both input and output.)"""
    path, other = path.encode(), other.encode()
    with contextlib.suppress(OSError):
        return os.path.samefile(path, other) and os.path.isfile(path)
    return os.path.realpath(path) == os.path.realpath(other)


def read_lines(path):
    with open(path, encoding="utf-8", errors="surrogateescape", newline="\n") as file:
        return file.read().split("\n")


def written_at(path):
    """When a file was written last; None: there is none."""
    return os.stat(path).st_mtime_ns if path is not None and os.path.isfile(path) else None
