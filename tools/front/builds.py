"""Proves and builds a program: the crates that it is made of, lowest first, two side by side where neither stands on the other."""
import contextlib
import ctypes
import os
import shutil
import signal
import subprocess
import sys
import tempfile
import time

from commands import ASSEMBLER, IS_INSTALLED, PROGRAM, ROOT, TESTER

# What a program is made of, in each crate.
PARTS = ("src", "specs", "proofs")
# So many crates are made one after the other as quickly as two at a time.
FEW = 4
# For so many seconds at most what was ended is waited for.
MOMENT = 2
# Linux's call for a signal that a process gets once its parent has ended, and its number there.
PRCTL, ON_PARENTS_END = getattr(ctypes.CDLL(None), "prctl", None), 1
# The most processors that the toolchain is asked to use.
MOST_JOBS = 4


class NotBuilt(Exception):
    """Why a program could not be built, or a checked run not be made."""


class Teller:
    """Says how far it is: on a terminal by one line that changes until `end`, else by a line for each part."""

    def __init__(self):
        self.begun, self.text, self.told = time.monotonic(), "", -1
        self.is_watched = sys.stderr.isatty()

    def say(self, text):
        self.text, self.told = text, -1
        if not self.is_watched:
            print(text, file=sys.stderr, flush=True)
        self.go_on()

    def go_on(self):
        seconds = int(time.monotonic() - self.begun)
        if self.is_watched and self.text and seconds != self.told:
            self.told = seconds
            print(f"\r\033[K{self.text}, {seconds // 60}:{seconds % 60:02} so far", end="", file=sys.stderr, flush=True)

    def end(self):
        if self.is_watched and self.text:
            print("\r\033[K", end="", file=sys.stderr, flush=True)
        self.text = ""


# ---- what a program is made of


def dependencies():
    """Each crate of crates.txt, with the crates and libraries that it uses."""
    found = {}
    with open(os.path.join(ROOT, "crates.txt"), encoding="utf-8") as file:
        for line in file:
            head, has_uses, uses = line.partition("#")[0].partition(":")
            if has_uses:
                found[head.split()[0]] = uses.split()
    return found


def made_of(top):
    """The crates that this one is made of, lowest first, itself the last."""
    uses, found = dependencies(), []

    def visit(name):
        if name in uses and name not in found:
            for low in uses[name]:
                visit(low)
            found.append(name)

    visit(top)
    return found


def size_of(name):
    """The size of a crate's files, which says about how long its proofs take."""
    folders = [os.path.join(ROOT, "crates", name, part) for part in PARTS]
    return sum(os.lstat(os.path.join(at, it)).st_size for folder in folders for at, _, files in os.walk(folder) for it in files)


def longest_first(names, uses):
    """The crates in the order in which they are begun: those with the longest chain above them first, but each behind those that it stands on."""
    chains = {}
    for name in reversed(names):
        chains[name] = size_of(name) + max((chains[it] for it in chains if name in uses[it]), default=0)
    return sorted(names, key=chains.get, reverse=True)


# The programs of an installed copy.
INSTALLED = {PROGRAM: "sbiboard-program", TESTER: "sbiboard-tester", ASSEMBLER: "sbiboard-assembly"}


def program_of(crate, name=None):
    if IS_INSTALLED:
        return os.path.join(ROOT, INSTALLED[crate])
    return os.path.join(ROOT, "crates", crate, "out", name or crate)


def is_current(program, crate):
    """Whether a program is there, and newer than all that it is made of."""
    if not os.access(program, os.X_OK):
        return False
    made = os.stat(program).st_mtime_ns
    folders = [os.path.join(ROOT, "crates", name, part) for name in made_of(crate) for part in PARTS]
    paths = [os.path.join(ROOT, "crates.txt"), os.path.join(ROOT, "HANDLES"), *(it for it in folders if os.path.isdir(it))]
    for folder in folders:
        for at, below, files in os.walk(folder):
            paths += [os.path.join(at, it) for it in below + files]
    return all(os.lstat(it).st_mtime_ns <= made for it in paths)


def processors():
    """How many processors there are, as `nproc` says it."""
    try:
        return int(subprocess.run(["nproc"], capture_output=True, check=True).stdout)
    except (OSError, ValueError, subprocess.CalledProcessError):
        return 1


def must_have_toolchain():
    if shutil.which("rt") is None:
        raise NotBuilt("the toolchain's rt is not on the path (README.md, 'What you need')")


# ---- lanes


class Lane:
    """A copy of the sources, in which one crate is made at a time."""

    def __init__(self, root, log):
        self.root, self.log, self.name, self.run = root, log, None, None

    def begin(self, name, words):
        with open(self.log, "wb") as said:
            # (a session of its own, so that it can be ended with all that it starts)
            how = {"stdin": subprocess.DEVNULL, "stdout": said, "stderr": subprocess.STDOUT, "start_new_session": True, "preexec_fn": end_with_parent}
            with unbroken():
                self.run = subprocess.Popen(words, cwd=os.path.join(self.root, "crates", name), **how)
        self.name = name

    def end(self):
        if self.run is not None:
            end_group(self.run)
        self.run = self.name = None


@contextlib.contextmanager
def unbroken():
    """Signals that come meanwhile are taken at its end: whoever begins a process here knows it, and can end it."""
    came, handlers = [], {it: signal.getsignal(it) for it in (signal.SIGINT, signal.SIGTERM, signal.SIGHUP)}
    handlers = {it: handler for it, handler in handlers.items() if callable(handler)}
    for it in handlers:
        signal.signal(it, lambda *given: came.append(given))
    try:
        yield
    finally:
        for it, handler in handlers.items():
            signal.signal(it, handler)
        if came:
            handlers[came[0][0]](*came[0])


def end_with_parent():
    """Has this process end with its parent, which can't see to that where it is killed."""
    if PRCTL:
        PRCTL(ON_PARENTS_END, signal.SIGTERM)


def end_group(run):
    """Ends a process that leads a group, with all others of it, which may take a moment longer."""
    until = time.monotonic() + MOMENT
    with contextlib.suppress(ProcessLookupError):
        os.killpg(run.pid, signal.SIGTERM)
        run.wait()
        while time.monotonic() < until:
            os.killpg(run.pid, 0)
            time.sleep(0.01)
    run.wait()


def hand_on(name, source, target):
    """Copies what was made of a crate to another copy of the sources, but for what a check kept on the way. An older library there
    goes first: with a file of its own beside the new ones, the toolchain would refuse it."""
    made, copy = (os.path.join(it, "crates", name, "out") for it in (source, target))
    if os.path.isdir(made):
        shutil.rmtree(os.path.join(copy, "rlib"), ignore_errors=True)
        unwanted = lambda at, names: [it for it in names if at == made and it == "incremental"]
        shutil.copytree(made, copy, symlinks=True, ignore=unwanted, copy_function=shutil.copy, dirs_exist_ok=True)


class Build:
    """The crates of a program on their way: which are left, and which are being made."""

    def __init__(self, top):
        self.top, self.names, self.uses, self.processors = top, made_of(top), dependencies(), processors()
        self.left, self.begun, self.teller, self.side = longest_first(self.names, self.uses), 0, Teller(), None
        self.log = made_file("sbiboard-build.")
        self.lanes = [Lane(ROOT, self.log + ".0")]

    def make(self):
        """Makes all of them, or says which can't be made, and leaves the log of that."""
        try:
            unmade = [it for it in self.names if not os.path.isdir(os.path.join(ROOT, "crates", it, "out"))]
            if len(unmade) > FEW and self.processors >= 2:
                self.add_side()
            while self.left or self.running():
                self.begin_some()
                self.wait_for_one()
        finally:
            self.end()
        # (where nothing had to be made anew, the program is as new as its sources all the same)
        os.utime(program_of(self.top))

    def running(self):
        return [it.name for it in self.lanes if it.name]

    def add_side(self):
        """A second copy of the sources: two runs in one wait for each other. What is made in one is handed on to the other."""
        self.side = tempfile.mkdtemp(prefix="sbiboard-side.")
        self.lanes.append(Lane(self.side, self.log + ".1"))
        shutil.copy(os.path.join(ROOT, "HANDLES"), self.side)
        names = self.names[:-1]
        with open(os.path.join(ROOT, "crates.txt"), encoding="utf-8") as file:
            # (the toolchain wants a folder for each crate that is named)
            lines = [line for line in file if line.partition(":")[0].split()[:1] in [[it] for it in names]]
        with open(os.path.join(self.side, "crates.txt"), "w", encoding="utf-8") as file:
            file.writelines(lines)
        for name in names:
            own, copy = os.path.join(ROOT, "crates", name), os.path.join(self.side, "crates", name)
            os.makedirs(copy)
            for part in PARTS:
                if os.path.isdir(os.path.join(own, part)):
                    shutil.copytree(os.path.join(own, part), os.path.join(copy, part), symlinks=True)
            hand_on(name, ROOT, self.side)

    def begin_some(self):
        """Begins a crate in each lane that has none, as far as one stands on nothing that isn't made."""
        unmade, chosen = {*self.left, *self.running()}, []
        for lane in (it for it in self.lanes if not it.name):
            # (the program is made in the checkout)
            name = next((it for it in self.left if not unmade & set(self.uses[it]) and (it != self.top or lane.root == ROOT)), None)
            if name:
                self.left.remove(name)
                chosen.append((lane, name))
        is_alone = len(chosen) + len(self.running()) < 2
        for lane, name in chosen:
            self.begun += 1
            self.teller.end()
            self.teller.say(f"sbiboard: proving and building {name}, crate {self.begun} of {len(self.names)}")
            lane.begin(name, ["rt", "run", "--", "--help"] if name == self.top else ["rt", "lib", *self.jobs(is_alone)])

    def jobs(self, is_alone):
        """How many jobs a crate is given. Of two each gets more than half of the processors, since jobs wait now and then."""
        if self.side is None:
            return []
        most = min(self.processors, MOST_JOBS)
        return ["--jobs", str(most if is_alone else (3 * most + 3) // 4)]

    def wait_for_one(self):
        while True:
            ended = [it for it in self.lanes if it.name and it.run.poll() is not None]
            for lane in ended:
                self.take(lane)
            if ended:
                return
            self.teller.go_on()
            time.sleep(0.02)

    def take(self, lane):
        """Takes what was made in a lane."""
        name, status = lane.name, lane.run.returncode
        lane.name = lane.run = None
        with open(lane.log, "rb") as said, open(self.log, "ab") as log:
            shutil.copyfileobj(said, log)
        if status:
            kept, self.log = self.log, None
            raise NotBuilt(f"{name} could not be proved or built; {kept} says why")
        for other in self.lanes:
            if other is not lane and name != self.top:
                hand_on(name, lane.root, other.root)

    def end(self):
        """Ends what runs, and takes away all but the log of a build that failed."""
        self.teller.end()
        for lane in self.lanes:
            lane.end()
            remove(lane.log)
        if self.log:
            remove(self.log)
        if self.side:
            shutil.rmtree(self.side, ignore_errors=True)


def made_file(prefix):
    handle, path = tempfile.mkstemp(prefix=prefix)
    os.close(handle)
    return path


def remove(path):
    try:
        os.remove(path)
    except FileNotFoundError:
        pass


# ---- the whole

# The minutes of a first build on four quick processors: of the program of `run`, of the tester behind it, and of the tester alone. On
# two they are so many times as many, and so they are on slow ones.
MINUTES, BEHIND, ALONE, ON_TWO, ON_SLOW = 16, 35, 51, 1.6, 2


def takes(crate):
    """How long a first build takes here, by what is known of it."""
    cores = processors()
    minutes = MINUTES if crate == PROGRAM else BEHIND if os.path.exists(program_of(PROGRAM)) else ALONE
    least = minutes if cores >= 4 else round(minutes * ON_TWO)
    return f"{least} to {ON_SLOW * least} minutes on {cores} processors" if cores > 1 else f"more than {least} minutes on 1 processor"


def build(crate, task):
    """Builds a program, once it is said how long that takes."""
    must_have_toolchain()
    long = f"at most as long as at first ({takes(crate)})" if os.path.exists(program_of(crate)) else takes(crate)
    print(f"sbiboard: the program is proved and built first, {long}; `./sbiboard --try {task} ..` runs it unproved, within four minutes", file=sys.stderr, flush=True)
    try:
        Build(crate).make()
    except OSError as error:
        raise NotBuilt(f"{crate} could not be built: {error}") from None
