"""From what gdb wrote (record_gdb.py), the lines of a record: returns that were seen late are put in their places."""
from board_model import HSM, SRST
from records import OF_TABLES

SUSP = 0x53555350
# Calls that needn't return.
LEAVES = ((HSM, 1), (HSM, 3), (SRST, 0), (SUSP, 0))


def assembled(text):
    """The lines, and how the machine's run ended by gdb's account (None where gdb itself was ended)."""
    lines, places, how = [], {}, None
    # (where gdb was ended in the middle of a line)
    for line in text[: text.rfind("\n") + 1].splitlines():
        mark, _, rest = line.partition(" ")
        if mark == "@end":
            how = rest
        elif not mark.startswith("@"):
            lines.append(line)
        elif mark not in places:
            places[mark] = len(lines)
            lines.append(f"{rest} ret - -")
        else:
            lines[places[mark]] = rest
    return lines, how


def pending(lines):
    """Places of calls that have not returned and should, and of starts whose hart has not entered."""
    calls, started, entered = {}, {}, {}
    for place, line in enumerate(lines):
        hart, kind, *words = line.split()
        if kind in OF_TABLES:
            continue
        if hart == "m":
            calls, started, entered = {}, {}, {}
        elif kind == "call":
            calls[hart] = place
        elif kind == "entry":
            calls.pop(hart, None)
            started.pop(hart, None)
            entered[hart] = place
        else:
            place = calls.pop(hart)
            eid, fid, target = numbers_of(lines[place])[:3]
            if (eid, fid) == (HSM, 0) and words[0] == "0" and entered.get(str(target), -1) < place:
                started[str(target)] = place
    return {place for place in calls.values() if numbers_of(lines[place])[:2] not in LEAVES} | set(started.values())


def numbers_of(line):
    return tuple(int(word, 16) for word in line.split()[2:10])


def until(before, after):
    """The lines up to where all that was pending in the lines `before` has come, or None where something hasn't: `after`
    begins with those. Calls that began later and are still open are left out."""
    waited = pending(before)
    end = next((end for end in range(len(before), len(after) + 1) if not waited & pending(after[:end])), None)
    if end is None:
        return None
    kept = after[:end]
    late = {place for place in pending(kept) if place >= len(before) and numbers_of(kept[place])[:2] != (HSM, 0)}
    return [line for place, line in enumerate(kept) if place not in late]
