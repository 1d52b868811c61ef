"""The manual page, made of the list of subcommands and options: in the macros of man(7), without others."""
import re

from commands import ALONE, HELP_COMMAND, constant, version

# A row of a table of numbers, and a line that goes on with one.
ROW, GOES_ON = re.compile(r"  (\d+)  (.*)"), re.compile(r"     (\S.*)")


def escaped(text):
    """A text of which no letter means something to the formatter."""
    text = text.replace("\\", "\\e").replace("-", "\\-").replace("`", "\\(ga").replace("^", "\\(ha").replace("~", "\\(ti")
    return re.sub(r"^([.'])", r"\\&\1", text, flags=re.M)


def word(text):
    """A word of a command line: its names bold, its values italic."""
    parts = re.split(r"<(\w+)>|(\[OPTIONS\]|\[COMMAND\])", text)
    made = []
    for names, value, optional in zip(parts[::3], [*parts[1::3], None], [*parts[2::3], None]):
        made.append(f"\\fB{escaped(names)}\\fR" if re.search(r"\w", names) else escaped(names))
        made.append(f"\\fI{value}\\fR" if value else f"[\\fI{optional[1:-1]}\\fR]" if optional else "")
    return "".join(made)


def item(head, text):
    return [".TP", head, escaped(text)]


def option_item(option):
    names = f"-{option.short}, {option}" if option.short else str(option)
    return item(word(names), option.about + (f" (default: {option.default})." if option.default else "."))


def as_lines(text):
    """What stands below a help: its paragraphs are filled, the rows of its tables are items, and other lines that begin with a
    blank stand as they are."""
    made, way = [], ""
    for line in text.rstrip("\n").split("\n"):
        row, more = ROW.fullmatch(line), GOES_ON.fullmatch(line)
        now = "row" if row or way == "row" and more else "as it is" if line.startswith(" ") else "filled" if line else ""
        if way == "as it is" and now != way:
            made.append(".EE")
        if now == "as it is" and now != way:
            made.append(".EX")
        elif now == "filled" and now != way:
            made.append(".PP")
        if now == "row":
            made += item(row[1], row[2]) if row else [escaped(more[1])]
        elif now:
            made.append(escaped(line))
        way = now
    return made + ([".EE"] if way == "as it is" else [])


def command_lines(command):
    lines = [f".SS {escaped(command.word)}", f"{word(command.usage(with_own=True))}", ".PP", escaped(command.about + ".")]
    lines += item(word(str(command.file)), command.file.about + ".")
    for it in command.options:
        lines += option_item(it)
    return lines


def man_page(known):
    """The manual page of a command and its subcommands. A text that several of these share stands once."""
    shared = {}
    for it in (*known.commands, known):
        shared.setdefault(it.after, []).append(it.word)
    lines = [f'.TH SBIBOARD 1 "" "{escaped(version().strip())}" "User Commands"', ".SH NAME", f"sbiboard \\- {escaped(known.about[0].lower() + known.about[1:])}"]
    calls = [*(it.usage(with_own=True) for it in (*known.commands, HELP_COMMAND)), *(f"sbiboard {it}" for it in known.options if it in ALONE)]
    lines += [".SH SYNOPSIS", "\n.br\n".join(map(word, calls)), ".SH OPTIONS"]
    lines += [line for it in known.options for line in option_item(it)]
    lines += [".SH COMMANDS"] + [line for it in known.commands for line in command_lines(it)]
    lines += [".SH NOTES"]
    for after, words in shared.items():
        lines += [f".SS {escaped(', '.join(words))}", *as_lines(constant(*after))]
    return "\n".join(lines) + "\n"
