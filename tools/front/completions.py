"""Completions for shells, made of the list of subcommands and options."""
from commands import ALONE, HELP_COMMAND

# How a file's name ends whose script is of a kind. The records of `test` and `explore` are traces.
ENDINGS = {"schedule": ("sched",), "trace": ("trace", "failed", "reached"), "program": ("program",), "assembly": ("s",)}


# ---- bash

BASH = r"""# Completions of sbiboard for bash, made by `./sbiboard --completions bash`.

# The files of these endings that begin like a word, with the folders; where there are none, all files.
_sbiboard_files() {
    local ending
    mapfile -t COMPREPLY < <(for ending in $1; do compgen -f -X "!*.$ending" -- "$2"; done)
    [ ${#COMPREPLY[@]} -gt 0 ] || mapfile -t COMPREPLY < <(compgen -f -- "$2")
    mapfile -t -O ${#COMPREPLY[@]} COMPREPLY < <(compgen -d -- "$2")
    compopt -o filenames 2> /dev/null
}

_sbiboard() {
    local current=${COMP_WORDS[COMP_CWORD]} before=${COMP_WORDS[COMP_CWORD - 1]} task= behind= options= words= endings= given at word
    # (`=` parts words, and is one)
    case $current,$before in
        =,*) current= ;;
        *,=) before=${COMP_WORDS[COMP_CWORD - 2]} ;;
    esac
    for ((at = 1; at < COMP_CWORD; at++)); do
        case $task$behind,${COMP_WORDS[at]} in
            *,--) behind=-- ;;
            @TASKS@) task=${COMP_WORDS[at]} ;;
        esac
    done
    COMPREPLY=()
    case $behind$task,$before in
@VALUES@
    esac
    case $task in
@OPTIONS@
        *) return ;;
    esac
    case $behind,$current in
        ,-*)
            words= endings= given=" ${COMP_WORDS[*]:1:COMP_CWORD-1} "
            for word in $options; do case $given in *" $word "*) ;; *) words+=" $word" ;; esac; done ;;
        --,*) words= ;;
    esac
    if [ -n "$endings" ]; then
        _sbiboard_files "$endings" "$current"
    else
        mapfile -t COMPREPLY < <(compgen -W "$words" -- "$current")
    fi
}
complete -F _sbiboard sbiboard
"""


def names_of(option):
    return [f"--{option.name}", *([f"-{option.short}"] if option.short else [])]


def values_in_bash(task, option):
    """How the value of an option is completed, where it has one."""
    if option.choices:
        how = f"mapfile -t COMPREPLY < <(compgen -W '{' '.join(option.choices)}' -- \"$current\")"
    elif option.value == "DIR":
        how = 'mapfile -t COMPREPLY < <(compgen -d -- "$current"); compopt -o filenames 2> /dev/null'
    else:
        how = "" if option.is_number else '_sbiboard_files "" "$current"'
    return f"        {task},--{option.name}) {f'{how}; ' if how else ''}return ;;"


def bash(known):
    """The completions of a command for bash."""
    tasks = [*known.commands, HELP_COMMAND]
    words = " ".join(it.word for it in tasks)
    values, options = [], [f"        '') options='{' '.join(it for option in known.options for it in names_of(option))}' words='{words}' ;;"]
    for option in known.options:
        if option.value:
            values.append(values_in_bash(f"--{option.name}", option))
    for task in tasks:
        values += [values_in_bash(task.word, it) for it in task.options if it.value]
        taken = f"words='{words}'" if task is HELP_COMMAND else f"endings='{' '.join(it for kind in task.kinds for it in ENDINGS[kind])}'"
        options.append(f"        {task.word}) options='{' '.join(it for option in task.options for it in names_of(option))}' {taken} ;;")
    alone = [f"--{it.name}" for it in known.options if it in ALONE]
    begun = " | ".join(f",{it}" for it in [*(it.word for it in tasks), *alone])
    return BASH.replace("@TASKS@", begun).replace("@VALUES@", "\n".join(values)).replace("@OPTIONS@", "\n".join(options))


# ---- fish


def quoted(text):
    """A word of fish."""
    return "'" + text.replace("\\", "\\\\").replace("'", "\\'") + "'"


def option_in_fish(option, where):
    if option.choices:
        value = f" -x -a {quoted(' '.join(option.choices))}"
    elif option.value == "DIR":
        value = " -x -a '(__fish_complete_directories)'"
    else:
        value = "" if not option.value else " -x" if option.is_number else " -r -F"
    short = f" -s {option.short}" if option.short else ""
    return f"complete -c sbiboard -n {quoted(where)}{short} -l {option.name}{value} -d {quoted(option.about)}"


def fish(known):
    """The completions of a command for fish."""
    tasks = [*known.commands, HELP_COMMAND]
    words = " ".join(it.word for it in tasks)
    first = f"not __fish_seen_subcommand_from {words}"
    alone = "".join(f" --{it.name}" for it in known.options if it in ALONE)
    lines = ["# Completions of sbiboard for fish, made by `./sbiboard --completions fish`.", "complete -c sbiboard -e", "complete -c sbiboard -f"]
    lines += [f"complete -c sbiboard -n {quoted(first + alone)} -a {it.word} -d {quoted(it.about)}" for it in tasks]
    lines += [option_in_fish(it, first) for it in known.options]
    for task in known.commands:
        where = f"__fish_seen_subcommand_from {task.word}"
        lines += [option_in_fish(it, where) for it in task.options]
        lines.append(f"complete -c sbiboard -n {quoted(where)} -F")
    lines.append(f"complete -c sbiboard -n '__fish_seen_subcommand_from help' -a {quoted(words)}")
    return "\n".join(lines) + "\n"


# The shells, by their names.
SHELLS = {"bash": bash, "fish": fish}
