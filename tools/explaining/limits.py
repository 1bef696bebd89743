"""Refused lines of limits texts: which word, and what is due."""
import re
from collections import namedtuple

from .scripts import HASH, NUMERAL, Line, similar, words_with_places, write
from .table import Phrase

NAME = re.compile(r"[A-Za-z_][A-Za-z0-9_]*")
ENABLED = re.compile(r"irq ([A-Za-z_][A-Za-z0-9_]*) \d+ \d", re.MULTILINE)
Bound, Row = namedtuple("Bound", "text"), namedtuple("Row", "binds")


class Rows:
    """The enabled interrupts of a listing, as tasks that bind them."""

    def __init__(self, text):
        self.tasks = [Row(Bound(name)) for name in ENABLED.findall(text)]

    def task(self, name):
        """No interrupt of a listing is a task of a name."""
        return None


def limits_line(app, number, source, lines, size, table, takes):
    """What is wrong with the last of these lines of a limits text that is refused with this number."""
    said = Line(source)
    words = words_with_places(source)
    if number == 1:
        said.cause = table.cause("limits 1", A=Phrase(f"{size:,}"))
        said.helps = [table.mending("limits 1")]
    elif number == 3:
        unknown(app, said, words[1], table)
    else:
        bad_line(said, words, lines, table)
        write(said, ("every I N",), {"I": [task.binds.text for task in app.tasks if task.binds]}, takes)
    if said.cause is None:
        said.cause, said.helps = table.cause("limits 2"), [table.mending("limits 2")]
    return said


def is_loose(said):
    """Whether a line has a tab, or a blank at an end, which is said then."""
    source = said.source
    if "\t" in source.strip(" \t\r"):
        said.at("\t", "words are separated by spaces, and this is a tab")
    elif source != source.strip(" \t") or source.endswith("\r"):
        said.at(source.strip(" \t"), "a blank comes before the first word, or after the last")
    return said.cause is not None


def bad_line(said, words, lines, table):
    """What is wrong with a line that is of no form, or the second one for its interrupt."""
    if is_loose(said):
        return said
    forms = table.mending("limits 2")
    if words[0] != "every":
        said.at(words[0], f"no line of limits begins with `{words[0]}`")
        said.helps = [HASH if words[0].startswith(("//", "--", ";", "/*")) else forms]
    elif len(words) != 3:
        said.at(words[-1] if len(words) < 3 else words[3], "the form is `every I N`")
        if len(words) > 3 and words[3].lower() in ("jitter", "jit", "j"):
            said.helps = ["N is the least distance of two requests: a period less its jitter"]
    elif not NAME.fullmatch(words[1]):
        said.at(words[1], f"`every` wants the name of an interrupt, and `{words[1]}` is none")
        if NAME.fullmatch(words[2]) and NUMERAL.fullmatch(words[1]):
            said.helps = ["the interrupt comes first, and then the number"]
    elif not NUMERAL.fullmatch(words[2]) or len(words[2]) > 9:
        said.at(words[2], f"`{words[2]}` is no number of one to nine digits")
        said.helps = ["it is a number of core steps, and has no unit"]
    elif int(words[2]) == 0:
        said.at(words[2], "requests lie at least 1 core step apart")
        said.helps = ["an interrupt that is not requested has no line"]
    else:
        first = next(at for at, line in enumerate(lines, 1) if line.split()[:2] == words[:2])
        said.at(words[1], f"`{words[1]}` has a limit already, in line {first}")
        said.helps = ["an interrupt has one line at most"]
    return said


def unknown(app, said, name, table):
    """No task binds the interrupt."""
    bound = [task.binds.text for task in app.tasks if task.binds]
    told = ", ".join(f"`{one}`" for one in bound[:12]) + (" and others" if len(bound) > 12 else "")
    said.at(name, f"no interrupt `{name}` is enabled" if isinstance(app, Rows) else table.cause("limits 3", N=name))
    enabled = f"those that are enabled are {told or 'none'}"
    said.helps = [enabled if isinstance(app, Rows) else table.mending("limits 3", I=Phrase(told or "none"))]
    task = app.task(name)
    if task and task.binds:
        said.helps = [f"`{name}` is a task, and binds the interrupt `{task.binds.text}`"]
    else:
        similar(said, "an interrupt", name, bound)
