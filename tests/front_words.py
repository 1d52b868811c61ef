"""Words of command lines, and scripts, for tests of the script: what is said of them before there is a program."""

# A script of each kind, one that is empty, and one with a fault.
BOARD = "board 1 1 10 0 0x80000000 0\n"
SCRIPTS = {
    "a.sched": BOARD + "0 advance  # begins\r\ncut\n", "a.trace": BOARD + "0 advance -> entry 0x80000000 0 0x0\n", "a.program": BOARD + "at 0x80000000\nsip\nclock\ntick 1\n",
    "empty": BOARD, "faulty.sched": BOARD + "0 advance\n0 fly\n",
}  # fmt: skip

# Words that are a fault of usage, or ask for help or the version: said before there is a program as the program says it.
USAGES = (
    ["fly"], ["replya", "a"], ["--fly"], ["--hel"], ["-x"], ["--", "run", "a"], ["--kep", "run"], ["run"], ["replay"], ["check"], ["run", "a", "b"], ["check", "a", "b"],
    ["replay", "-x"], ["check", "-x", "a"], ["replay", "a", "--fly"], ["run", "--kep", "x", "a"], ["run", "--keep", "--fly"], ["run", "--keep", "x", "--keep", "y", "--fly"],
    ["run", "--keep"], ["run", "--keep", "x"], ["run", "--keep=x"], ["run", "--keep=x", "--keep=y", "a"], ["run", "--keep", "x", "a", "b"], ["replay", "--keep", "x", "a"],
    ["check", "--", "a", "b"], ["run", "--"], ["run", "--keep", "--", "a"], ["run", "--help=x"], ["-V"], ["--version"], ["run", "--help"], ["check", "-h"], ["help", "help"], ["help", "fly"],
    ["test"], ["explore"], ["test", "--tiems", "5", "a"], ["test", "--times"], ["test", "--times", "x", "a"], ["test", "--times="], ["test", "--seed", "18446744073709551616", "a"],
    ["test", "--seed", "99999999999999999999x"], ["test", "--jobs", "-1"], ["test", "--jobs", "+", "a"], ["test", "--times", "++5", "a"], ["explore", "--states", "+-1", "a"], ["test", "--seed", "+18446744073709551616", "a"], ["test", "--order", " 1", "a"], ["test", "--jobs", "0x1", "a"], ["test", "--times", "1", "--order", "1", "a"], ["test", "--order=1", "--times=1"],
    ["test", "--threads=1", "a"], ["test", "--threads", "--threads"], ["test", "--seed", "1", "--seed", "2", "--fly"], ["test", "a", "-xy"], ["test", "-V"], ["test", "--version"],
    ["explore", "--state", "1", "a"], ["explore", "--times", "1", "a"], ["explore", "--no-outcome", "a"], ["explore", "--seconds", "1.5", "a"], ["explore", "--tap", "--", "a"], ["explore", "--states"],
    ["test", "--failed", "", "a"], ["explore", "--failed=", "a"], ["test", "--tap", "", "a"], ["explore", "--tap=", "a"], ["test", "--failed", "x", "--failed", "", "a"], ["test", "--failed=", "--fly"], ["run", "--keep", "", "none"],
)  # fmt: skip

# Words that begin no build, with the status, and what is said in the end.
FAILED_IO, WRONG_KIND, UNBUILT = "sbiboard: input or output failed\n", "sbiboard: wrong kind of script\n", "sbiboard: so nothing is built\n"
UNWANTED = (
    (["tset", "a.sched"], 2, "  tip: a similar subcommand exists: 'test'\n"), (["replay", "--al", "a.sched"], 2, "unexpected argument '--al' found\n"),
    (["test", "--tiems", "5", "a.sched"], 2, "  tip: a similar argument exists: '--times'\n"), (["explore", "--times", "5", "a.program"], 2, "unexpected argument '--times' found\n"),
    (["a.sched"], 2, "error: unrecognized subcommand 'a.sched'\n\n  tip: a file comes behind a task: 'test a.sched'\n"), (["none"], 2, "error: unrecognized subcommand 'none'\n\nUsage: "),
    (["test", "a.sched", "--try"], 2, "error: unexpected argument '--try' found\n\n  tip: 'sbiboard --try test': it stands before the task\n"), (["check", "--try", "a.trace"], 2, "  tip: 'sbiboard --try check': it stands before the task\n"),
    (["run", "--install", "d", "a.program"], 2, "  tip: 'sbiboard --install <DIR>': it stands alone\n"), (["explore", "--man"], 2, "  tip: 'sbiboard --man': it stands alone\n"),
    (["run", "none"], 7, FAILED_IO), (["replay", "none"], 7, FAILED_IO), (["check", "none"], 7, FAILED_IO), (["replay", "."], 7, FAILED_IO), (["check", ""], 7, FAILED_IO),
    (["run", "--keep", "./a.program", "a.program"], 7, FAILED_IO), (["replay", "a.sched/x"], 7, FAILED_IO),
    (["test", "a.sched", "none"], 1, "sbiboard: none: no such file\n" + UNBUILT), (["test", "."], 1, "sbiboard: .: is a directory\n" + UNBUILT),
    (["test", "--html", "a.trace", "a.sched"], 7, "sbiboard: a.trace: not a folder\n" + UNBUILT), (["explore", "a.program", "--html", "a.trace/b/c"], 7, "sbiboard: a.trace/b/c: a.trace is not a folder\n" + UNBUILT),
    (["explore", "none", "a.program", "more"], 1, "sbiboard: none: no such file\nsbiboard: more: no such file\n" + UNBUILT), (["test", "a.sched/x"], 1, "sbiboard: a.sched/x: can't be read\n" + UNBUILT),
    (["run", "a.sched"], 1, WRONG_KIND), (["run", "a.trace"], 1, WRONG_KIND), (["replay", "a.trace"], 1, WRONG_KIND), (["replay", "a.program"], 1, WRONG_KIND),
    (["check", "a.sched"], 1, WRONG_KIND), (["check", "a.program"], 1, WRONG_KIND),
    (["explore", "a.sched"], 1, "sbiboard: a.sched: only a program has orders\n" + UNBUILT), (["explore", "a.program", "a.trace"], 1, "sbiboard: a.trace: only a program has orders\n" + UNBUILT),
    ([b"replay", b"caf\xe9"], 7, "sbiboard: 'caf\\xe9' is not UTF-8, and no file of such a name can be opened\n"), ([b"test", b"a.sched", b"\xff"], 7, "sbiboard: '\\xff' is not UTF-8, and no file of such a name can be opened\n"),
)  # fmt: skip
# Words whose build is wanted: a FILE that the task may take, or whose faults the program says.
WANTED = (
    ["run", "a.program"], ["run", "empty"], ["replay", "a.sched"], ["replay", "empty"], ["check", "a.trace"], ["check", "empty"], ["check", "faulty.sched"], ["run", "faulty.sched"],
    ["replay", "/dev/null"], ["run", "-"], ["replay", "-"], ["check", "--json", "-"], ["test", "a.sched", "a.trace", "a.program", "empty"], ["explore", "a.program", "empty"], ["explore", "faulty.sched"], ["test", "caf\u00e9"], ["replay", "--", "-x"],
)  # fmt: skip
