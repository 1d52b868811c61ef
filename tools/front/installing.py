"""`--install`: copies both programs to a folder, with a script that does all tasks without the sources, its completions and its manual
page, and what it needs of the tools."""
import glob
import json
import os
import re
import shutil

from builds import NotBuilt, build, is_current, program_of, remove
from commands import ASSEMBLER, HERE, INSTALLED, PROGRAM, TESTER, constants
from completions import SHELLS
from man_page import man_page

TOOLS = os.path.dirname(HERE)
# What is needed of tools/, beside the modules that it imports.
NEEDED = ("timeline", "timeline.html")


def install(folder):
    """Copies the programs, which are built first where that is needed. Where SBIBOARD_PROGRAM names one, nothing is built. Returns
    whether that of programs in assembly is among them: it is only if it is built."""
    # (what can't be a folder isn't worth a build)
    os.makedirs(folder, exist_ok=True)
    program, tester = os.environ.get("SBIBOARD_PROGRAM") or program_of(PROGRAM), program_of(TESTER)
    for crate, task in ((PROGRAM, "run"), (TESTER, "test")):
        if program == program_of(PROGRAM) and not is_current(program_of(crate), crate):
            build(crate, task)
    if not (os.path.isfile(program) and os.access(program, os.X_OK)):
        raise NotBuilt(f"there is no program to install: {program}")
    script = os.path.join(folder, "sbiboard")
    remove(script)
    put(program, os.path.join(folder, "sbiboard-program"))
    # (that of programs in assembly isn't built for this)
    for crate, made, name in ((TESTER, tester, "sbiboard-tester"), (ASSEMBLER, program_of(ASSEMBLER), "sbiboard-assembly")):
        copy = os.path.join(folder, name)
        remove(copy)
        if is_current(made, crate):
            put(made, copy)
    put_tools(os.path.join(folder, "sbiboard-tools"))
    for ending, made in (*SHELLS.items(), ("1", man_page)):
        with open(os.path.join(folder, f"sbiboard.{ending}"), "w", encoding="utf-8") as file:
            file.write(made(INSTALLED))
    # (the last, so that a copy that has it is whole)
    put(os.path.join(HERE, "launcher"), script)
    return is_current(program_of(ASSEMBLER), ASSEMBLER)


def put(source, target):
    # (not into a file that is there: a program that runs can't be written)
    remove(target)
    shutil.copyfile(source, target)
    os.chmod(target, 0o755)


def put_tools(folder):
    """The tools in a folder of their own, in place of those of an earlier copy."""
    shutil.rmtree(folder, ignore_errors=True)
    shutil.copytree(os.path.join(TOOLS, "front"), os.path.join(folder, "front"), ignore=shutil.ignore_patterns("__pycache__", "launcher"))
    for name in sorted({*NEEDED, *(f"{it}.py" for it in imported())}):
        shutil.copy(os.path.join(TOOLS, name), folder)
    with open(os.path.join(folder, "texts.json"), "w", encoding="utf-8") as file:
        json.dump(constants(), file)


def imported():
    """The modules of tools/ that the script imports, and those that these import."""
    left, found = [*glob.glob(os.path.join(glob.escape(HERE), "*.py")), os.path.join(TOOLS, "timeline")], set()
    while left:
        with open(left.pop(), encoding="utf-8") as file:
            names = set(re.findall(r"^ *(?:from|import) (\w+)", file.read(), re.M))
        more = {it for it in names - found if os.path.isfile(os.path.join(TOOLS, f"{it}.py"))}
        found |= more
        left += [os.path.join(TOOLS, f"{it}.py") for it in more]
    return found
