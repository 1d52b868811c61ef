"""Copies of crates and of the checkout, in which wrong bodies are planted."""
import contextlib
import os
import shutil
import threading

from edits import FOLDER, ROOT, TABLE

# Held while a file is written. A command that is started meanwhile has the file open, too, and what is open for writing can't be run.
WRITING = threading.Lock()


def below(crate, deps):
    """The repository's crates that this one stands on, lowest first, and itself."""
    found = []
    for it in deps[crate]:
        if it in deps:
            found += [low for low in below(it, deps) if low not in found]
    return [*found, crate]


def dependencies():
    deps = {}
    with open(os.path.join(ROOT, "crates.txt"), encoding="utf-8") as file:
        for line in file:
            name, found, words = line.partition("#")[0].partition(":")
            if found:
                deps[name.split()[0]] = words.split()
    return deps


def copied(crates, room, source=ROOT, top=None):
    """Copies these crates, with what is proved of them, to a repository of its own. It can change those in `top`, or the last."""
    os.mkdir(room)
    shutil.copy(os.path.join(source, "HANDLES"), room)
    with open(os.path.join(source, "crates.txt"), encoding="utf-8") as file:
        lines = [it for it in file if it.partition(":")[0].split()[:1] in [[name] for name in crates]]
    with open(os.path.join(room, "crates.txt"), "w", encoding="utf-8") as file:
        file.writelines(lines)
    for name in crates:
        folder = os.path.join("crates", name)
        # of a crate below only its library is used, and not what was proved on the way to it
        passed = [FOLDER, TABLE, *(["incremental"] if name not in (top or crates[-1:]) else [])]
        shutil.copytree(os.path.join(source, folder), os.path.join(room, folder), ignore=shutil.ignore_patterns(*passed))
    return room


@contextlib.contextmanager
def planted(texts, folder):
    """Has the files of this folder hold these texts for a while."""
    kept = {}
    for path, text in texts.items():
        file = os.path.join(folder, path)
        with open(file, encoding="utf-8") as it:
            kept[file] = it.read()
        with WRITING, open(file, "w", encoding="utf-8") as it:
            it.write(text)
    try:
        yield
    finally:
        for file, text in kept.items():
            with WRITING, open(file, "w", encoding="utf-8") as it:
                it.write(text)


def unneeded(folder, names):
    """What a copy of the checkout lacks: of what is made of a crate it has the program alone."""
    if os.path.basename(folder) == "out":
        return [it for it in names if it != os.path.basename(os.path.dirname(folder))]
    return [it for it in names if it in (".git", "__pycache__")]
