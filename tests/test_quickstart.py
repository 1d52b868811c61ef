"""The page for the first five minutes: its commands, as they are written, print what it shows."""
import os
import re
import subprocess

from .fixtures import HANG, PROGRAM, ROOT, TESTER, Test, must, read, write

PAGE = os.path.join(ROOT, "docs/QUICKSTART.md")
# What stands for the script `./sbiboard`: the built programs, which print what those of `--try` do.
STANDS_IN = f'#!/bin/bash\n[ "$1" != --try ] || shift\nif [ "$1" = test ]; then shift; exec {TESTER} "$@"; fi\nexec -a sbiboard {PROGRAM} "$@"\n'


def commands():
    """The page's commands, in order, with all the lines that it shows of what each prints (`...`: any lines)."""
    found, shows = [], None
    for line in read(PAGE).split("\n"):
        if shows is None and line.startswith("    "):
            found.append((line.strip(), []))
        elif line == "```":
            shows = [] if shows is None else None
            if shows is None and found:
                found[-1][1].append("...")
        elif shows is not None and found:
            found[-1][1].append(line)
    return found


def is_shown(printed, shown):
    """Whether lines are these, where `...` stands for any, also for none."""
    pattern = "".join("(?:.*\n)*?" if it == "..." else re.escape(it) + "\n" for it in shown)
    return re.match(pattern, printed) is not None


class Quickstart(Test):
    programs = (PROGRAM, TESTER)

    def test_the_first_five_minutes(self):
        """Each command of the page ends as it should and prints the lines that the page shows."""
        os.symlink(os.path.join(ROOT, "examples"), os.path.join(self.room, "examples"))
        os.symlink(os.path.join(ROOT, "tools"), os.path.join(self.room, "tools"))
        os.chmod(write(os.path.join(self.room, "sbiboard"), STANDS_IN), 0o755)
        asked = commands()
        must(f"{asked}", len(asked) == 7 and sum(bool(shown) for _, shown in asked) == 4)
        for place, (command, shown) in enumerate(asked):
            found = subprocess.run(["bash", "-c", command], cwd=self.room, stdin=subprocess.DEVNULL, capture_output=True, text=True, timeout=HANG)
            must(f"{command}: {found}", found.returncode == (place == 0) and not found.stderr)
            must(f"{command}: {found.stdout}, and not {shown}", is_shown(found.stdout, shown))
        must("the page of the order", "<svg" in read(os.path.join(self.room, "order.html")) or "<html" in read(os.path.join(self.room, "order.html")))


class QuickstartPage(Test):
    programs = ()

    def test_the_page_for_the_first_five_minutes(self):
        """It is short, and what it quotes of the program stands there."""
        text = read(PAGE)
        must(f"it has {len(text.split())} words", len(text.split()) <= 450)
        before = text.partition("## Find the bug")[0]
        quoted = [line for block in before.split("```\n")[1::2] for line in block.splitlines()]
        program = read(os.path.join(ROOT, "examples/orders/forgotten-hart.program")).splitlines()
        must(f"{quoted}", len(quoted) == 3 and set(quoted) <= set(program))
