"""`--junit FILE`: points as JUnit XML: a suite for each file under test, with a case for each of its points."""
import contextlib
import json
import os
import re
from xml.etree import ElementTree

# What XML can't have.
NO_XML = re.compile("[^\\t\\n\\r\\x20-\\ud7ff\\ue000-\\ufffd\\U00010000-\\U0010ffff]")


def plain(text):
    return NO_XML.sub("?", text)


def name_of(point):
    """The name of its case, which is the same however it ends."""
    if point.condition is not None:
        return f"line {point.line}: {point.condition}" if point.line else point.condition
    return "is read" if point.why else point.text[len(point.file or "") :].strip() or point.text


def case(point):
    made = ElementTree.Element("testcase", {"classname": plain(point.file or ""), "name": plain(name_of(point))})
    why = plain(point.why or ("holds" if point.is_ok else "fails"))
    if point.is_ok:
        ElementTree.SubElement(made, "system-out").text = why
        return made
    # (an error says that it wasn't judged)
    is_judged = point.condition is None and not point.why or not why.startswith("not judged") and point.condition is not None
    below = ElementTree.SubElement(made, "failure" if is_judged else "error", {"message": why})
    below.text = plain("\n".join(f"{name}: {value if isinstance(value, (str, int)) else json.dumps(value, indent=1)}" for name, value in point.details.items()))
    return made


def suite(name, cases):
    counts = {"tests": len(cases), "failures": sum(it.find("failure") is not None for it in cases), "errors": sum(it.find("error") is not None for it in cases)}
    made = ElementTree.Element("testsuite", {"name": plain(name)} | {key: str(many) for key, many in counts.items()})
    made.extend(cases)
    return made


def junit(name, files, points, is_whole, status):
    """The XML of these points. Where these aren't all, a case says so, and so it does where there is none."""
    suites = [suite(file or name, cases) for file in dict.fromkeys([*files, None]) if (cases := [case(it) for it in points if it.file == file])]
    if not is_whole or not points:
        lost = ElementTree.Element("testcase", {"classname": name, "name": "all points are told"})
        ElementTree.SubElement(lost, "error", {"message": f"not all points were told: the program ended with status {status}"})
        suites.append(suite(name, [lost]))
    whole = ElementTree.Element("testsuites", {"name": name} | {key: str(sum(int(it.get(key)) for it in suites)) for key in ("tests", "failures", "errors")})
    whole.extend(suites)
    ElementTree.indent(whole)
    return ElementTree.tostring(whole, encoding="unicode", xml_declaration=False)


@contextlib.contextmanager
def place(path):
    """FILE can be written meanwhile, or this fails. An older file is taken away, so that a run that is interrupted leaves none."""
    with open(path, "ab"):
        if os.path.isfile(path) and not os.path.islink(path):
            with contextlib.suppress(OSError):
                os.remove(path)
        yield


def write(path, *of):
    """Writes the XML into FILE: where there is none, by a new file that is renamed once it is whole."""
    made = path if os.path.lexists(path) else f"{path}.{os.getpid()}.new"
    try:
        with open(made, "w", encoding="utf-8") as file:
            file.write('<?xml version="1.0" encoding="UTF-8"?>\n' + junit(*of) + "\n")
        if made != path:
            os.replace(made, path)
    except OSError as error:
        # (a write that fails doesn't name its file)
        raise OSError(error.errno, error.strerror, path) from None
    finally:
        if made != path:
            with contextlib.suppress(OSError):
                os.remove(made)
