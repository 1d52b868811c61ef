"""The one list of what `./sbiboard` can be asked: its subcommands and options, with the help that is made of it.

The words are those of the programs, whose sources have the long texts below a help; tests compare each with the program's own.
"""
import json
import os
import re
from dataclasses import dataclass, replace

HERE = os.path.dirname(os.path.realpath(__file__))
# The top of the clone, or the folder of an installed copy.
ROOT = os.path.dirname(os.path.dirname(HERE))
# What an installed copy has in place of the sources: the texts of their constants.
TEXTS = os.path.join(os.path.dirname(HERE), "texts.json")
IS_INSTALLED = os.path.exists(TEXTS)

# The crates of the programs: of `run`, `replay` and `check`, of `test` and `explore`, and of `explore` for programs in assembly.
PROGRAM, TESTER, ASSEMBLER = "sbiboard_cli", "sbiboard_test", "asm_orders"

# Where the texts below a help stand.
OF_PROGRAM, OF_TESTER = "command_line/src/words.rt", "sbiboard_test/src/command_line.rt"
# How the name of a program in assembly ends.
ASSEMBLY = ".s"


def constant(source, name):
    """The text of a constant of a crate's source, in which no character is escaped."""
    if IS_INSTALLED:
        with open(TEXTS, encoding="utf-8") as file:
            return json.load(file)[f"{source} {name}"]
    with open(os.path.join(ROOT, "crates", source), encoding="utf-8") as file:
        found = re.search(rf'^const {name}: &str = "(?:\\\n)?([^"\\]*)";$', file.read(), re.MULTILINE)
    if found is None:
        raise ValueError(f"{source} has no text {name}")
    return found[1]


@dataclass(frozen=True)
class Option:
    """An option, or FILE, which has no name."""

    name: str
    about: str
    value: str = ""
    short: str = ""
    default: str = ""
    is_number: bool = False
    # An empty value is none.
    is_path: bool = False
    is_many: bool = False
    is_needed: bool = True
    # The names of those that can't be given beside it.
    excludes: tuple = ()
    # The values that it may have, where these are few.
    choices: tuple = ()
    # What the script does with what the program reads and prints; the program doesn't know it.
    is_own: bool = False

    def __str__(self):
        if not self.name:
            return (f"<{self.value}>" if self.is_needed else f"[{self.value}]") + ("..." if self.is_many else "")
        return f"--{self.name}" + (f" <{self.value}>" if self.value else "")


HELP = Option("help", "Print help", short="h")
VERSION = Option("version", "Print version", short="V")


@dataclass(frozen=True)
class Command:
    """A subcommand, or the whole, which has subcommands and no FILE."""

    name: str
    about: str
    options: tuple
    # The source and the name of the text below its help.
    after: tuple = ()
    file: Option = None
    # The crate of its program, and the kinds of scripts that it takes.
    program: str = ""
    kinds: tuple = ()
    commands: tuple = ()

    @property
    def word(self):
        return self.name.split()[-1]

    @property
    def own(self):
        """The options that the program doesn't know."""
        return [it for it in self.options if it.is_own]

    def usage(self, used=(), with_own=False):
        """How it is called: with its options as one word, or with those alone that are used. A fault is told as the program does,
        which has no option of the script's own."""
        has_options = not used and self.file and any(it != HELP and (with_own or not it.is_own) for it in self.options)
        last = str(self.file) if self.file else "<COMMAND>"
        return " ".join([self.name, *(["[OPTIONS]"] if has_options else []), *(str(it) for it in used if it.name), last])

    def help(self):
        parts = [self.about, f"Usage: {self.usage(with_own=True)}"]
        if self.commands:
            parts.append(table("Commands", [(it.word, it.about) for it in (*self.commands, HELP_COMMAND)]))
        if self.file:
            parts.append(table("Arguments", [(str(self.file), self.file.about)]))
        if self.options:
            parts.append(table("Options", [option_row(it) for it in self.options]))
        return "\n\n".join([*parts, *([constant(*self.after)] if self.after else [])]) + "\n"


def option_row(option):
    default = f" [default: {option.default}]" if option.default else ""
    return (f"-{option.short}, " if option.short else "    ") + str(option), option.about + default


def table(head, rows):
    width = max(len(name) for name, _ in rows)
    return "\n".join([f"{head}:", *(f"  {name:{width}}  {about}" for name, about in rows)])


HELP_COMMAND = Command(
    "sbiboard help", "Print this message or the help of the given subcommand(s)", (),
    file=Option("", "Print help for the subcommand(s)", value="COMMAND", is_many=True, is_needed=False),
)  # fmt: skip


def of_file(word, about, file, kinds, *options):
    file = Option("", file, value="FILE")
    return Command(f"sbiboard {word}", about, (*options, HELP), (OF_PROGRAM, "NUMBERS"), file, PROGRAM, kinds)


def number(name, value, about, **more):
    return Option(name, about, value=value, is_number=True, **more)


SECONDS = number("seconds", "N", "Explore orders for at most N seconds")
FAILED = Option("failed", "The folder for records of conditions that fail, and of each `some` that is met", value="DIR", default=".", is_path=True)
TAP = Option("tap", "Also write the points into FILE", value="FILE", is_path=True)


def own(name, about, **more):
    return Option(name, about, is_own=True, **more)


TAP_VERSION = own("tap-version", "The version of the Test Anything Protocol", value="VERSION", default="13", choices=("13", "14"))
JUNIT = own("junit", "Also write the points into FILE as JUnit XML", value="FILE", is_path=True)
HTML = own("html", "Draw the order of each point that fails as a page in DIR, with a list of these pages", value="DIR", is_path=True)
JSON = own("json", "Print JSON lines instead, read from the program's output")
AT = own("at", "Print only the board's table behind line LINE of FILE", value="LINE", is_number=True)
DIFF = own("diff", "Print below each step its changes to the board's table")
EXPLAIN = own("explain", "Report each fault of a file by line and column, with suggestions")
OF_POINTS = (TAP_VERSION, JUNIT, HTML, JSON, EXPLAIN)
NEEDED = own(
    "needed", "Leave out each fence, each IPI and each hart of their masks in turn, and print which conditions then fail",
    excludes=(TAP.name, *(it.name for it in OF_POINTS)),
)  # fmt: skip

RUN = of_file(
    "run", "Run a program's blocks on threads, one for each hart and one for the clock, and print the record, the board and how it ended",
    "The file of the program, such as examples/three-harts.program", ("program",),
    Option("keep", "Write the record into FILE2 while it grows: what a killed run leaves there is a trace", value="FILE2"), EXPLAIN,
)  # fmt: skip
REPLAY = of_file("replay", "Replay a schedule on a new board, and print each reply and the board", "The file of the schedule, such as examples/version.sched", ("schedule",), JSON, AT, DIFF, EXPLAIN)
CHECK = of_file("check", "Check a trace on a new board, and print the first reply that differs", "The file of the trace, such as examples/version.trace", ("trace",), JSON, EXPLAIN)
TEST = Command(
    "sbiboard test", "Look at orders of programs, replay schedules and compare traces, and judge their conditions",
    (
        number("times", "N", "How many orders of each program to try", default="1000"),
        number("seed", "S", "The seed of the orders", default="0"),
        number("order", "K", "Try only order K of the seed", excludes=("times",)),
        number("jobs", "J", "How many orders to try at a time (default: one per processor)"),
        Option("threads", "Also run each program as often on real threads"),
        number("seconds", "N", "Try orders for at most N seconds"),
        FAILED, TAP, *OF_POINTS, HELP,
    ),
    (OF_TESTER, "AFTER"), Option("", "Programs, schedules and traces, with their conditions", value="FILE", is_many=True), TESTER, ("program", "schedule", "trace", "assembly"),
)  # fmt: skip
EXPLORE = Command(
    "sbiboard explore", "Look at all orders of a program, and judge its conditions",
    (
        number("states", "N", "The limit of states", default="1000000"),
        Option("no-outcomes", "Don't report what each load gave last"),
        SECONDS, FAILED, TAP, *OF_POINTS, NEEDED, HELP,
    ),
    (OF_TESTER, "AFTER_EXPLORE"), Option("", "Programs, with their conditions", value="FILE", is_many=True), TESTER, ("program", "assembly"),
)  # fmt: skip


def of_assembly(command, *names):
    """What a task knows where its FILEs are programs in assembly: of its own options those of these names. (Their program has no `--tap`: the
    script copies what it prints.)"""
    known = (FAILED, TAP, TAP_VERSION, JUNIT, HTML, JSON, HELP)
    options = tuple(replace(it, is_own=it.is_own or it == TAP) for it in command.options if it in known or it.name in names)
    return replace(command, options=options, program=ASSEMBLER, kinds=("program", "schedule", "trace"))


IN_ASSEMBLY = {TEST: of_assembly(TEST, "times", "seed"), EXPLORE: of_assembly(EXPLORE, "states")}

# What `./sbiboard` knows.
TRY = Option("try", "Do the following task at once, unproved, by the toolchain's checked run")
INSTALL = Option("install", "Build both programs and copy them to DIR, with a script that does all tasks without the sources", value="DIR")
COMPLETIONS = Option("completions", "Print the completions for a shell, bash or fish", value="SHELL", choices=("bash", "fish"))
MAN = Option("man", "Print the manual page")
# Those that are a task of their own: nothing comes before one, nor behind its value.
ALONE = (INSTALL, COMPLETIONS, MAN)
ALL = Command(
    "sbiboard", "Test and run programs, replay schedules and check traces on a proved SBI 1.0 firmware of a modelled RV64 board",
    (TRY, *ALONE, HELP, VERSION), (OF_PROGRAM, "EXAMPLE"), commands=(TEST, EXPLORE, RUN, REPLAY, CHECK),
)  # fmt: skip
# What an installed copy knows, which has no sources; and what is known here.
INSTALLED = replace(ALL, options=(HELP, VERSION))
KNOWN = INSTALLED if IS_INSTALLED else ALL


def version():
    return f"sbiboard {constant(OF_PROGRAM, 'VERSION')}\n"


def constants():
    """All texts of sources that are shown, by the source and the name."""
    named = {it.after for it in (ALL, *ALL.commands)} | {(OF_PROGRAM, "VERSION")}
    return {f"{source} {name}": constant(source, name) for source, name in sorted(named)}
