"""What the crates' public calls promise: their clauses, the definitions that these name, and the files that have them."""
import os
import re
import sys

ROOT = os.path.dirname(os.path.dirname(os.path.realpath(__file__)))
IMPORT = re.compile(
    r"^ *(?:ghost )?(?:pub )?use Rattle\.(\w+)\.specs\.([A-Za-z]\w*(?:\.[A-Za-z]\w*)*)(?:\.\{([^}]*)\}|(?: as (\w+))?)", re.M
)
# What a type or a trait says in proofs: what its values are for clauses, and what clauses name of a trait.
GHOST = re.compile(r" +ghost (\w+) *[:=] *\{(.*)")
# Members that are proofs, or that speak of private fields alone.
PRIVATE = {"also_owns", "also_shares", "eq", "hash_input", "invariant", "inverse", "inverse_ok", "laws", "same", "same_place", "view"}


def read(path):
    with open(path, encoding="utf-8") as file:
        return file.read()


def sources(names):
    """The .rt files of folders and files below crates/."""
    for name in names:
        path = os.path.join(ROOT, "crates", name)
        if os.path.isdir(path):
            yield from (os.path.join(folder, it) for folder, _, files in sorted(os.walk(path)) for it in sorted(files) if it.endswith(".rt"))
        elif os.path.exists(path):
            yield path
        else:
            sys.exit(f"crates/{name} isn't there")


def functions(text):
    """Of each public function, and of each of a public trait, its type or trait (or None), its name, and its clauses."""
    lines, owner = iter(text.split("\n")), ""
    for line in lines:
        begun = re.match(r"impl(?:<.*?>)? (?:.* for )?&?(\w+)", line) or re.match(r"pub (trait \w+)", line)
        if begun or line == "}":
            owner = begun.group(1) if begun else ""
        found = re.match(r" *(pub )?fn (\w+)", line)
        if not found or not (found.group(1) or owner.startswith("trait ")):
            continue
        indent = line[: len(line) - len(line.lstrip())]
        kept = [line]
        while not (kept[-1] in (indent + "{", indent + "{}") or kept[-1].endswith((" {", " {}", ";")) and " ensures" not in kept[-1] and " requires" not in kept[-1]):
            following = next(lines, None)
            if following is None:
                break
            kept.append(following)
        yield owner.removeprefix("trait ") or None, found.group(2), "\n".join(kept)


def ghosts(text):
    """Of each type and trait what it says in proofs: what its values are for clauses, and what clauses name of a trait."""
    lines, owner = iter(text.split("\n")), ""
    for line in lines:
        begun = re.match(r"impl(?:<.*?>)? (?:.* for )?&?(\w+)", line) or re.match(r"pub trait (\w+)", line)
        if begun or line == "}":
            owner = begun.group(1) if begun else ""
        found = GHOST.match(line)
        if not found or not owner or found.group(1) in PRIVATE:
            continue
        kept = [found.group(2)]
        while sum(part.count("{") - part.count("}") for part in kept) >= 0:
            kept.append(next(lines))
        yield owner, None, "\n".join(kept)


def file_of(crate, parts):
    """The file of a module of specs/, which may be handed on from a crate below."""
    path = f"crates/{crate}/specs/{'/'.join(parts)}.antt"
    if os.path.exists(os.path.join(ROOT, path)):
        return path
    root = os.path.join(ROOT, "crates", crate, "specs/Lib.antt")
    handed = re.search(rf"^pub use Rattle\.(\w+)\.specs\.{parts[0]}$", read(root), re.M) if os.path.exists(root) else None
    return file_of(handed.group(1), parts) if handed else None


def imports(text):
    """Of each imported name its file and what it is called there; and the files themselves."""
    by_name, files = {}, []
    for crate, module, names, alias in IMPORT.findall(text):
        parts = module.split(".")
        while parts and not file_of(crate, parts):
            parts.pop()
        if not parts:
            continue
        path = file_of(crate, parts)
        files.append(path)
        for it in re.split(r",\s*", names or alias or module.rsplit(".", 1)[-1]):
            called, _, here = it.strip().partition(" as ")
            by_name[here or called] = path, called
    return by_name, files


def exported(crate):
    """The names that a library hands out."""
    text = read(os.path.join(ROOT, "crates", crate, "src/lib.rt"))
    lists = re.findall(r"^pub use \w+(?:::\w+)*::(?:\{([^}]*)\}|(\w+));", text, re.M)
    return {name for several, one in lists for name in re.findall(r"\w+", several or one)}


def named(source):
    """Of each definition that a public call of a file names in a clause: the call's type and name, the definition, its file."""
    text, public = read(source), exported(os.path.relpath(source, os.path.join(ROOT, "crates")).split(os.sep)[0])
    by_name, _ = imports(text)
    for owner, name, clause in (*functions(text), *ghosts(text)):
        if (owner or name) in public:
            words = set(re.findall(r"[^\s(){},;.&]+", clause))
            yield from ((owner, name, called, path) for path, called in sorted({by_name[it] for it in words & set(by_name)}))


def libraries():
    """The crates that are libraries, by name."""
    return [it for it in sorted(os.listdir(os.path.join(ROOT, "crates"))) if os.path.exists(os.path.join(ROOT, "crates", it, "src/lib.rt"))]
