"""The completions and the manual page that `./sbiboard` makes of its list of subcommands and options."""
import functools
import os
import re
import shutil
import subprocess
from unittest import SkipTest

from .fixtures import ROOT, Test, must, read, write

SCRIPT = os.path.join(ROOT, "sbiboard")

# What a shell has done: the words are completed behind the last of them, and each completion is printed on a line.
ASKS = 'source "$1"; shift; COMP_WORDS=("$@"); COMP_CWORD=$(($# - 1)); _sbiboard; printf "%s\\n" "${COMPREPLY[@]}"'
FILES = ("a.program", "b c.sched", "d.trace", "e.program.2.failed", "f.program.3.reached", "notes.txt")
RECORDS = ["d.trace", "e.program.2.failed", "f.program.3.reached"]


@functools.cache
def said(*words):
    """What the script prints for these words, without a build."""
    found = subprocess.run([SCRIPT, *words], stdin=subprocess.DEVNULL, capture_output=True, text=True, timeout=60)
    must(f"{words}: {found}", found.returncode == 0 and not found.stderr)
    return found.stdout


def helped():
    """The options of each subcommand, and of the whole by no name, with the values that they take, as its help tells them."""
    tasks = re.findall(r"^  (\w+) ", said("--help").partition("Commands:\n")[2].partition("\n\n")[0], re.M)
    texts = {task: said(task, "--help") for task in tasks if task != "help"} | {"": said("--help")}
    rows = {task: re.findall(r"^ +(?:-(\w), )?--([\w-]+)(?: <(\w+)>)?", text.partition("\nOptions:\n")[2].partition("\n\n")[0], re.M) for task, text in texts.items()}
    must(f"{tasks}, {rows}", len(tasks) > 5 and all(rows.values()))
    return tasks, rows


class Completions(Test):
    programs = ()

    def setUp(self):
        super().setUp()
        for name in FILES:
            write(os.path.join(self.room, name), "")
        os.mkdir(os.path.join(self.room, "folder"))

    def completed(self, made, *words):
        """What bash completes, in a folder with these files."""
        call = ["bash", "--norc", "-c", ASKS, "bash", made, "./sbiboard", *words]
        found = subprocess.run(call, stdin=subprocess.DEVNULL, cwd=self.room, capture_output=True, text=True, timeout=60)
        must(f"{words}: {found}", not found.stderr)
        return sorted(set(found.stdout.split("\n")) - {""})

    def test_bash_completes_each_option(self):
        """In bash each subcommand and each option of a help is completed, and nothing else; one that was given isn't again."""
        made, (tasks, rows) = write(os.path.join(self.room, "made"), said("--completions", "bash")), helped()
        must("subcommands", tasks and self.completed(made, "") == sorted(tasks) == self.completed(made, "--try", "") == self.completed(made, "help", ""))
        for task, options in rows.items():
            words = [task] if task else []
            names = sorted([f"--{name}" for _, name, _ in options] + [f"-{short}" for short, _, _ in options if short])
            must(f"{task}: {names}", "--help" in names and self.completed(made, *words, "-") == names)
            must(f"{task}: --help again", task == "" or "--help" not in self.completed(made, *words, "--help", "-"))
        must("a prefix", self.completed(made, "ex") == ["explore"] and self.completed(made, "test", "a.program", "--se") == ["--seconds", "--seed"])

    def test_bash_completes_values(self):
        """In bash a number has no completion, a folder is one, and a file any; a FILE is one of a kind that the task takes."""
        made, (_, rows) = write(os.path.join(self.room, "made"), said("--completions", "bash")), helped()
        files = sorted([*FILES, "folder", "made"])
        wanted = {"DIR": ["folder"], "FILE": files, "FILE2": files, "SHELL": ["bash", "fish"], "VERSION": ["13", "14"]}
        for task, options in rows.items():
            for _, name, value in options:
                for given in (["--" + name, ""], ["--" + name, "="]) if value else ():
                    found = self.completed(made, *([task] if task else []), *given)
                    must(f"{task} {given}: {found}", found == wanted.get(value, []))
        kinds = {"run": ["a.program"], "explore": ["a.program"], "replay": ["b c.sched"], "check": RECORDS, "test": ["a.program", "b c.sched", *RECORDS]}
        for task, names in kinds.items():
            for words in ([""], ["--", ""], ["--help", ""]):
                must(f"{task} {words}", self.completed(made, task, *words) == sorted([*names, "folder"]))
        # (where no file has such an ending, any)
        must("notes", self.completed(made, "check", "no") == ["notes.txt"])
        must("behind what stands alone", not self.completed(made, "--install", "folder", "") and not self.completed(made, "--man", ""))

    def completed_in_fish(self, line):
        """What fish completes, in the same folder."""
        call = ["fish", "--no-config", "-c", f"source made; complete -C 'sbiboard {line}'"]
        found = subprocess.run(call, stdin=subprocess.DEVNULL, cwd=self.room, capture_output=True, text=True, timeout=60, env={**os.environ, "HOME": self.room})
        must(f"{line}: {found}", not found.stderr)
        return [it.split("\t")[0] for it in found.stdout.splitlines()]

    def test_fish_completes_each_option(self):
        """In fish each subcommand and each option of a help is completed, and values are."""
        if shutil.which("fish") is None:
            raise SkipTest("fish is missing")
        write(os.path.join(self.room, "made"), said("--completions", "fish"))
        tasks, rows = helped()
        for task, options in rows.items():
            for word, names in (("", tasks if not task else []), ("--", [f"--{name}" for _, name, _ in options])):
                line = " ".join([*([task] if task else []), word])
                found = self.completed_in_fish(line)
                must(f"{line}: {found}", set(found) >= set(names))
        values = (("--completions ", ["bash", "fish"]), ("--install fo", ["folder/"]), ("test --failed fo", ["folder/"]), ("test --tap no", ["notes.txt"]), ("run no", ["notes.txt"]), ("test --seed no", []))
        for line, wanted in values:
            found = self.completed_in_fish(line)
            must(f"{line}: {found}", found == wanted)

    def test_the_manual_page(self):
        """The manual page is formatted without a complaint, and has each subcommand, option and text of the helps."""
        made, (tasks, rows) = write(os.path.join(self.room, "sbiboard.1"), said("--man")), helped()
        if shutil.which("groff") is None:
            raise SkipTest("groff is missing")
        # (no colours, bold or lines, hyphens or justified lines, so that texts can be looked for)
        call = ["groff", "-man", "-Tutf8", "-wall", "-P-c", "-P-b", "-P-u", "-P-o", "-rLL=300n", "-rHY=0", "-dAD=l", made]
        found = subprocess.run(call, stdin=subprocess.DEVNULL, capture_output=True, text=True, timeout=60, env={**os.environ, "LC_ALL": "C.UTF-8"})
        must(f"{found.stderr}", found.returncode == 0 and not found.stderr)
        text = " ".join(found.stdout.replace("\u2010", "-").replace("\u2212", "-").split())
        for task in tasks:
            must(f"the page lacks {task}", f"sbiboard {task} " in text)
        for task, options in rows.items():
            usage = re.search(r"^Usage: (.*)$", said(*([task] if task else []), "--help"), re.M)[1]
            must(f"the page lacks {usage}", not task or text.count(re.sub(r"<(\w+)>", r"\1", usage)) == 2)
            for _, name, value in options:
                must(f"the page lacks --{name}", f"--{name} {value}".strip() in text)
            for line in said(*([task] if task else []), "--help").partition("\nOptions:\n")[2].splitlines():
                if task and line.strip():
                    words = re.sub(r"^ +(-\w, )?--[\w-]+( <\w+>)? +", "", line).replace("[default: ", "(default: ").replace("]", ")").split()
                    must(f"the page lacks {words}", " ".join(words) in text)
        if shutil.which("man"):
            shown = subprocess.run(["man", "-l", made], stdin=subprocess.DEVNULL, capture_output=True, text=True, timeout=60)
            must(f"{shown}", shown.returncode == 0 and "SBIBOARD(1)" in shown.stdout)

    def test_completions_are_asked_for_rightly(self):
        """What isn't a shell, and any word more, is a fault of usage."""
        for words in (["--completions"], ["--completions", "zsh"], ["--completions=bash", "x"], ["--man", "x"], ["--man=x"]):
            found = subprocess.run([SCRIPT, *words], stdin=subprocess.DEVNULL, capture_output=True, text=True, timeout=60)
            must(f"{words}: {found}", found.returncode == 2 and not found.stdout and found.stderr.startswith(f"error: with {words[0].partition('=')[0]}, "))
        must("by =", said("--completions=bash") == said("--completions", "bash"))

    def test_an_installed_copy_has_its_own(self):
        """An installed copy has completions and a manual page beside it, without what it can't do; a program that is named is asked for neither."""
        env = {"PATH": os.environ.get("PATH", ""), "SBIBOARD_PROGRAM": shutil.which("true")}
        asked = lambda *words: subprocess.run([SCRIPT, *words], stdin=subprocess.DEVNULL, capture_output=True, text=True, timeout=60, env=env)
        must("it isn't installed", asked("--install", os.path.join(self.room, "new")).returncode == 0)
        made = os.path.join(self.room, "new/sbiboard.bash")
        must("its options", self.completed(made, "-") == ["--help", "--version", "-V", "-h"] and "--keep" in self.completed(made, "run", "-"))
        for ending, whole in (("fish", said("--completions", "fish")), ("1", said("--man"))):
            text = read(os.path.join(self.room, f"new/sbiboard.{ending}"))
            must(f"sbiboard.{ending}", "install" in whole and "install" not in text and len(text) > len(whole) / 2)
        must("a program that is named", asked("--man").stdout == said("--man") and asked("--completions", "fish").stdout == said("--completions", "fish") == asked("--completions=fish").stdout)
