"""Reads the words of a command line by the list of commands, as the programs read them: what is asked for, or the fault of usage."""
import os

from commands import ALONE, HELP, HELP_COMMAND, KNOWN, TRY, VERSION

# A word is taken for a misspelt one from this likeness on.
ALIKE = 0.7
MOST = (1 << 64) - 1


class Fault(Exception):
    """A fault of usage, in the program's words."""

    def __init__(self, what, usage=None, has_help=True):
        parts = [f"error: {what}", *([f"Usage: {usage}"] if usage else []), *(["For more information, try '--help'."] if has_help else [])]
        super().__init__("\n\n".join(parts) + "\n")


class Asked(Exception):
    """Help is asked for, of a command, or the version (of none)."""

    def __init__(self, command):
        super().__init__()
        self.command = command


class Reader:
    """The words of one command, taken one after the other."""

    def __init__(self, command):
        self.command = command
        # The values of what was given, by its name; FILE has none.
        self.given = {}
        # What was begun last and isn't checked yet, with its values, and whether it waits for one.
        self.pending, self.waits = None, False
        self.by_name = {it.name: it for it in command.options}
        if command.file:
            self.by_name[""] = command.file

    def read(self, words):
        """Reads the words. Returns the subcommand that they name and the words behind it; of a command of FILEs there is none."""
        words, is_behind = list(words), False
        while words:
            word = words.pop(0)
            if not is_behind and not self.waits and self.named(word):
                return self.named(word), words
            if is_behind:
                self.take_file(word, True)
            elif word == "--":
                is_behind = True
            elif word.startswith("--"):
                self.take_long(word, words)
            elif word.startswith("-") and word != "-":
                self.take_short(word)
            elif self.waits:
                self.pending[1].append(word)
                self.waits = False
            else:
                self.take_file(word, False)
        self.check_pending()
        self.check_all()
        return None, []

    def named(self, word):
        """The subcommand of this name, or the word `help`."""
        if self.command.commands and word == "help":
            return word
        return next((it for it in self.command.commands if it.word == word), None)

    # ---- words

    def take_long(self, word, rest):
        name, has_value, value = word[2:].partition("=")
        option = self.by_name.get(name) if name else None
        if option is None:
            raise self.unknown_long(name, rest)
        if option.value and not has_value:
            self.check_pending()
            self.pending, self.waits = (option, []), True
        elif option.value or not has_value:
            self.check_pending()
            self.check(option, [value] if has_value else [])
            self.waits = False
        else:
            used = [it for it in self.given if it]
            self.pass_over_pending()
            raise self.fault(f"unexpected value '{value}' for '{option}' found; no more were expected", [*used, name])

    def take_short(self, word):
        for letter in word[1:]:
            option = next((it for it in self.command.options if it.short == letter), None)
            if option is None:
                self.pass_over_pending()
                raise self.unexpected(f"-{letter}", as_value=True)
            self.check_pending()
            self.check(option, [])

    def take_file(self, word, is_behind):
        if not self.command.file:
            self.pass_over_pending()
            raise self.unknown_command(word, is_behind)
        self.waits = False
        if not self.command.file.is_many and self.has_file():
            self.pass_over_pending()
            raise self.unexpected(word)
        self.check_pending()
        self.pending = (self.command.file, [word])

    def has_file(self):
        return "" in self.given or bool(self.pending) and not self.pending[0].name

    # ---- what was given

    def check_pending(self):
        pending, self.pending = self.pending, None
        if pending:
            self.check(*pending)

    def pass_over_pending(self):
        """Checks what was begun last, for the sake of what is said of another word."""
        try:
            self.check_pending()
        except Fault:
            pass

    def check(self, option, values):
        if option.value and not values:
            raise without_value(option)
        if option in (HELP, VERSION):
            raise Asked(self.command if option == HELP else None)
        if not option.is_many and self.given.pop(option.name, None) is not None:
            raise self.fault(f"the argument '{option}' cannot be used multiple times")
        self.given.setdefault(option.name, []).extend(values)
        for value in values:
            if option.is_path and not value:
                raise without_value(option)
            if option.is_number and (reason := why_no_number(value)):
                raise Fault(f"invalid value '{value}' for '{option}': {reason}")
            if option.choices and value not in option.choices:
                raise Fault(f"invalid value '{value}' for '{option}'\n  [possible values: {', '.join(option.choices)}]")

    def check_all(self):
        if self.command.commands:
            words = ", ".join([*(it.word for it in self.command.commands), "help"])
            raise self.fault(f"'{self.command.name}' requires a subcommand but one was not provided\n  [subcommands: {words}]")
        for name in self.given:
            others = [it for it in self.given if excluding(self.by_name[name], self.by_name[it])]
            if others:
                used = [it for it in self.given if it not in others]
                raise self.fault(f"the argument '{self.by_name[name]}' cannot be used with '{self.by_name[others[0]]}'", used)
        if "" not in self.given:
            raise self.fault(f"the following required arguments were not provided:\n  {self.command.file}", [*self.given, ""])

    # ---- faults

    def fault(self, what, used=()):
        return Fault(what, self.command.usage([self.by_name[it] for it in used]))

    def unexpected(self, word, tip="", used=(), as_value=False):
        if as_value and self.command.file:
            tip = f"\n\n  tip: to pass '{word}' as a value, use '-- {word}'"
        return self.fault(f"unexpected argument '{word}' found{tip}", used)

    def unknown_long(self, name, rest):
        self.pass_over_pending()
        first = next((it for it in (TRY, *ALONE) if it.name == name and it in KNOWN.options), None)
        if first and self.command.file:
            tip = f"'sbiboard --{name} {self.command.word}': it stands before the task" if first == TRY else f"'sbiboard {first}': it stands alone"
            return self.unexpected(f"--{name}", f"\n\n  tip: {tip}", self.given)
        likest = likest_option(self.command, name)
        if likest:
            self.given.setdefault(likest, [])
            return self.unexpected(f"--{name}", f"\n\n  tip: a similar argument exists: '--{likest}'", self.given)
        found = [(rest.index(it.word), it.word, likest_option(it, name)) for it in self.command.commands if it.word in rest]
        for _, word, option in sorted(it for it in found if it[2]):
            return self.unexpected(f"--{name}", f"\n\n  tip: '{word} --{option}' exists", self.given)
        return self.unexpected(f"--{name}", "", self.given, as_value=True)

    def unknown_command(self, word, is_behind):
        if is_behind and self.named(word):
            return self.unexpected(word, f"\n\n  tip: subcommand '{word}' exists; to use it, remove the '--' before it")
        alike = most_alike(word, [*(it.word for it in self.command.commands), "help"])
        tip = ""
        if alike:
            tip = "\n\n  tip: " + ("a similar subcommand exists: " if len(alike) == 1 else "some similar subcommands exist: ")
        elif os.path.exists(word.encode()):
            tip = f"\n\n  tip: a file comes behind a task: 'test {word}'"
        return self.fault(f"unrecognized subcommand '{word}'{tip}" + ", ".join(f"'{it}'" for it in alike))


def without_value(option):
    return Fault(f"a value is required for '{option}' but none was supplied")


def excluding(option, other):
    return option.name and other.name and (other.name in option.excludes or option.name in other.excludes)


def help_of(command, words):
    """Help of the subcommand that the words behind `help` name."""
    for word in words:
        below = [it for it in (*command.commands, HELP_COMMAND) if command.commands and it.word == word]
        if not below:
            raise Fault(f"unrecognized subcommand '{word}'", command.usage(), command is not HELP_COMMAND)
        command = below[0]
    raise Asked(command)


def read(command, words):
    """What the words ask for: the subcommand, the values of what is given, and the words behind its name."""
    chosen, rest = Reader(command).read(words)
    if chosen == "help":
        help_of(command, rest)
    reader = Reader(chosen)
    reader.read(rest)
    return chosen, reader.given, rest


# ---- numbers, and words that are alike


def why_no_number(word):
    """Why a word is no number of 64 bits, or nothing."""
    digits, value = word[1:] if word.startswith("+") else word, 0
    if not word:
        return "cannot parse integer from empty string"
    if not digits:
        return "invalid digit found in string"
    for digit in digits:
        if digit not in "0123456789":
            return "invalid digit found in string"
        value = value * 10 + int(digit)
        if value > MOST:
            return "number too large to fit in target type"
    return ""


def likest_option(command, name):
    """The name of the option that is most like this one, if any is alike. (The program doesn't know those of the script: these
    must also begin alike, so that what is said of other words is what it says.)"""
    return (most_alike(name, [it.name for it in command.options if not it.is_own or it.name[:1] == name[:1]]) or [None])[-1]


def most_alike(word, names):
    """The names that are like a word, the likest last."""
    alike = [(likeness(word, it), it) for it in names]
    return [name for _, name in sorted((it for it in alike if it[0] > ALIKE), key=lambda it: it[0])]


def likeness(one, other):
    """The Jaro similarity of two words, from 0 to 1."""
    if one == other:
        return 1.0
    reach = max(max(len(one), len(other)) // 2 - 1, 0)
    matched, taken = [], set()
    for at, letter in enumerate(one):
        near = range(max(at - reach, 0), min(at + reach + 1, len(other)))
        place = next((it for it in near if other[it] == letter and it not in taken), None)
        if place is not None:
            matched.append(letter)
            taken.add(place)
    if not matched:
        return 0.0
    turned = sum(a != other[b] for a, b in zip(matched, sorted(taken))) // 2
    found = len(matched)
    return (found / len(one) + found / len(other) + (found - turned) / found) / 3.0
