"""What `./sbiboard` does beyond running a built program: it looks at words and FILEs, answers help and faults of usage, and builds.

usage: python3 tools/front WORD.. (`./sbiboard` calls it)

Nothing is built as long as something is wrong with the words: a misspelt subcommand or option, a FILE that can't be read, a
script of another kind. What is said of them is what the program says, where it has words for it.
"""
import contextlib
import os
import signal
import subprocess
import sys
from dataclasses import replace

import usage
from builds import NotBuilt, build, is_current, program_of
from checked_run import run_unproved
from commands import ALL, ALONE, ASSEMBLY, COMPLETIONS, EXPLAIN, HELP, HTML, IN_ASSEMBLY, INSTALL, IS_INSTALLED, KNOWN, PROGRAM, VERSION, version
from completions import SHELLS
from installing import install
from kinds import kind_of, why_unread
from man_page import man_page
from reading import STDIN, is_asked, run_read, why_no_folder

# The statuses of the program, and that of a program that couldn't be built.
BAD_SCRIPT, USAGE, BAD_FILE, NO_BUILD = 1, 2, 7, 70
FAILED_IO, WRONG_KIND = "sbiboard: input or output failed\n", "sbiboard: wrong kind of script\n"

OWN_HELP = """
The first task proves and builds its program. For run, replay and check this takes 16 to 32 minutes on
four processors, 26 to 52 on two; for test and explore 35 to 70 more, 56 to 112 on two. --try runs a task without proof:
  ./sbiboard --try test examples/orders/lost-wakeup.program
Status 70: a program could not be built, or the checked run could not be made.
"""


class Ended(Exception):
    """Says nothing or one text, and ends with a status."""

    def __init__(self, status, said=""):
        super().__init__()
        self.status, self.said = status, said


class Killed(BaseException):
    """A signal that ends the script, once what runs is ended and taken away."""


def main(words):
    try:
        return done(decoded(words))
    except usage.Fault as fault:
        return ended(USAGE, str(fault))
    except usage.Asked as asked:
        return printed(help_of(asked.command))
    except Ended as end:
        return ended(end.status, end.said)
    except NotBuilt as why:
        return ended(NO_BUILD, f"sbiboard: {why}\n")


def decoded(words):
    """The words as text. A name that isn't UTF-8 can't be one of a FILE."""
    for word in words:
        try:
            os.fsencode(word).decode("utf-8")
        except UnicodeDecodeError:
            shown = os.fsencode(word).decode("utf-8", "backslashreplace")
            raise Ended(BAD_FILE, f"sbiboard: '{shown}' is not UTF-8, and no file of such a name can be opened\n") from None
    return [os.fsencode(word).decode("utf-8") for word in words]


def done(words):
    """Does what the words ask for, and returns the status."""
    if not words:
        raise Ended(USAGE, overview())
    first, has_value, value = words[0].partition("=")
    alone = next((it for it in ALONE if it in KNOWN.options and first == f"--{it.name}"), None)
    if alone:
        return done_alone(alone, [*([value] if has_value else []), *words[1:]])
    known, is_tried = KNOWN, words[0] == "--try" and not IS_INSTALLED
    if is_tried:
        known, words = replace(ALL, name="sbiboard --try", options=(HELP, VERSION)), words[1:]
    command, given, rest = usage.read(known, words)
    command = of_assembly(command, given)
    own = ["sbiboard", command.word] if command.program == PROGRAM else [command.name]
    call = [it.encode() for it in [*own, *rest]]
    program = program_of(command.program, "tried" if is_tried else None)
    if IS_INSTALLED:
        must_be_installed(program)
    elif not is_current(program, command.program):
        look_at(command, given)
        if not is_tried:
            build(command.program, command.word)
    if is_asked(command, given):
        task = lambda made: ended(*run_read(made, command, [*own, *rest], given))
    else:
        task = lambda made: subprocess.run(call, executable=made, check=False).returncode
    if is_tried:
        return run_unproved(command, task)
    if is_asked(command, given):
        return as_ended(task(program))
    # (Python passes this signal over, and so would the program)
    signal.signal(signal.SIGPIPE, signal.SIG_DFL)
    try:
        os.execv(program, call)
    except OSError as error:
        raise NotBuilt(f"{program} can't be run: {error.strerror}") from None


def must_be_installed(program):
    if not os.access(program, os.X_OK):
        raise NotBuilt(f"this copy has no program {os.path.basename(program)}")


def as_ended(status):
    """The status of a program that was run; where a signal ended it, that one ends the script too."""
    if status < 0:
        # (SIGKILL has no handler that could be set)
        with contextlib.suppress(OSError):
            signal.signal(-status, signal.SIG_DFL)
        os.kill(os.getpid(), -status)
    return status


def done_alone(option, words):
    """Does the task of an option, whose value and nothing else comes behind it."""
    if len(words) != bool(option.value) or words == [""] or option.choices and words[0] not in option.choices:
        wanted = " or ".join(option.choices) or ("a folder DIR" if option.value else "nothing else")
        raise usage.Fault(f"with --{option.name}, {wanted} is wanted", f"sbiboard {option}")
    if option == INSTALL and os.path.exists(os.path.join(words[0], "crates.txt")):
        raise usage.Fault("with --install, a folder DIR that is no clone is wanted", f"sbiboard {option}")
    if option == INSTALL:
        return installed(words[0])
    return printed(SHELLS[words[0]](ALL) if option == COMPLETIONS else man_page(ALL))


def installed(folder):
    try:
        has_assembler = install(os.fsdecode(folder.encode()))
    except OSError as error:
        raise Ended(BAD_FILE, f"sbiboard: {error.filename or folder}: {error.strerror or 'not all could be copied'}\n") from None
    said = f"sbiboard: {folder}/sbiboard runs the programs beside it, which need the C library alone; help, and options that these programs don't have, also Python 3\n"
    lack = "" if has_assembler else "sbiboard: without that of programs in assembly, which the first './sbiboard test FILE.s' here builds\n"
    return ended(0, said + lack)


# ---- FILEs


def of_assembly(command, given):
    """The task, of programs in assembly if its FILEs are such."""
    names = [it for it in given[""] if it.endswith(ASSEMBLY)]
    if not names:
        return command
    if command not in IN_ASSEMBLY:
        raise Ended(BAD_SCRIPT, f"sbiboard: {names[0]}: test and explore take programs in assembly, {command.word} doesn't\n")
    others = [it for it in given[""] if it not in names]
    if others:
        raise Ended(USAGE, f"sbiboard: {others[0]}: no program in assembly, and so not beside {names[0]}\n")
    of_it = IN_ASSEMBLY[command]
    known = {it.name for it in of_it.options}
    unknown = [it for it in command.options if it.name in given and it.name not in known]
    if unknown:
        raise Ended(USAGE, f"sbiboard: --{unknown[0].name} doesn't take programs in assembly, such as {names[0]}\n")
    return of_it


def look_at(command, given):
    """Looks at the FILEs of a task before its program is made. What the program can't do with them isn't worth a build."""
    files = given[""]
    if command.program != PROGRAM:
        files = [it for it in files if it != "-"]
        wrong = [f"sbiboard: {it}: {why}\n" for it in files if (why := why_untested(command, it))]
        if wrong:
            raise Ended(BAD_SCRIPT, "".join([*wrong, "sbiboard: so nothing is built\n"]))
        folder = next(iter(given.get(HTML.name, ())), None)
        if folder and (why := why_no_folder(folder)):
            raise Ended(BAD_FILE, f"sbiboard: {folder}: {why}\nsbiboard: so nothing is built\n")
        return
    file, is_explained = STDIN if files[0] == "-" else files[0], EXPLAIN.name in given
    why = why_unread(file.encode())
    if why or is_kept_over(file, given.get("keep")):
        raise Ended(BAD_FILE, f"sbiboard: {file}: {why or 'the record would be kept in its place'}\n" if is_explained else FAILED_IO)
    if file != STDIN and kind_of(file.encode()) not in (None, *command.kinds):
        raise Ended(BAD_SCRIPT, explained_kind(command, file) if is_explained else WRONG_KIND)


def explained_kind(command, file):
    from explain import of_kind, said_of

    with open(file.encode(), "rb") as script:
        return said_of(file, of_kind(command, script.read()))


def why_untested(command, file):
    """Why `test` or `explore` surely does nothing with a FILE, in their words."""
    why = why_unread(file.encode())
    if not why and kind_of(file.encode()) not in (None, *command.kinds):
        why = "only a program has orders"
    return why


def is_kept_over(file, kept):
    """Whether a record is to be kept in the place of the script that is run."""
    with contextlib.suppress(OSError):
        return bool(kept) and os.path.samefile(file.encode(), kept[0].encode())
    return False


# ---- texts


def overview():
    """What there is, for who says nothing."""
    rows = [*((it.word, it.about) for it in KNOWN.commands), *((str(it), it.about) for it in KNOWN.options)]
    width = max(len(name) for name, _ in rows)
    call = "sbiboard" if IS_INSTALLED else "./sbiboard [--try]"
    return "".join([f"usage: {call} COMMAND [OPTIONS] FILE..\n\n", *(f"  {name:{width}}  {about}\n" for name, about in rows)])


def help_of(command):
    if command is None:
        return version()
    return command.help() + (OWN_HELP if command.word in ("sbiboard", "--try") and not IS_INSTALLED else "")


def printed(text):
    signal.signal(signal.SIGPIPE, signal.SIG_DFL)
    try:
        write(1, text)
    except OSError:
        return ended(BAD_FILE, FAILED_IO)
    return 0


def ended(status, said):
    with contextlib.suppress(OSError):
        write(2, said)
    return status


def write(to, text):
    left = text.encode("utf-8")
    while left:
        left = left[os.write(to, left) :]


# ---- signals


ENDING = (signal.SIGINT, signal.SIGTERM, signal.SIGHUP)


def kill(number, _):
    # (a second one, as `timeout` sends, would break off what takes all away)
    for it in ENDING:
        signal.signal(it, signal.SIG_IGN)
    raise Killed(number)


def guarded(words):
    """Ends by the signal that ends it, once all is taken away; a signal that was ignored stays ignored."""
    for number in ENDING:
        if signal.getsignal(number) != signal.SIG_IGN:
            signal.signal(number, kill)
    try:
        return main(words)
    except Killed as killed:
        if sys.stderr.isatty():
            ended(0, "\n")
        signal.signal(killed.args[0], signal.SIG_DFL)
        os.kill(os.getpid(), killed.args[0])


if __name__ == "__main__":
    # (a parent may have left it ignored, and then the status of each program and of each proof would be 0)
    signal.signal(signal.SIGCHLD, signal.SIG_DFL)
    sys.exit(guarded(sys.argv[1:]))
