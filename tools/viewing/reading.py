"""Reads an output of `run` or `live`, or a trace alone, and what `rtic` writes in its place."""
import os
import re

from .told import BAD_LINE, NOT_A_RUN, NOT_READ, REFUSED, USAGE, Told

NAME = r"[A-Za-z_][A-Za-z0-9_]*"
NUMBER = r"(?:0|[1-9][0-9]*)"
SECTION = rf"(?:free\.{NAME}|ready\.{NUMBER}|timer\.0)"
WHAT = re.compile(
    rf"tick|alarm|set|(?:pend|ret|post|ok|full|ready|free|fire|end) {NAME}"
    rf"|take {NAME} {NUMBER}|enter (?:{NAME}|{SECTION})|leave (?:{NAME} {NUMBER}|{SECTION})"
    rf"|(?:emit|clock|trap) {NUMBER}|start {NAME}(?: {NUMBER}){{0,4}}"
    rf"|arm {NAME} {NUMBER}|cancel {NAME} {NUMBER}|move {NAME} {NUMBER} {NUMBER}|input {NAME} {NUMBER}"
)
TOTAL = re.compile(rf"total ({NUMBER})")
UNREAD = re.compile(r"[A-Za-z0-9_.; -]*")
STEPS = 1 << 31
VALUES = 1 << 32

REPORT = re.compile(r"(?:ceiling|frame|cost|wait|stack) ")
RESPONSES = re.compile(r"(?:irq|task|never|load) ")

# The first line of what `rtic` writes in place of a run, what it is, and the status that `rtic` ended with.
IN_PLACE = (
    (re.compile(r"\d+:\d+ E\d\d "), "the application was refused", REFUSED),
    (re.compile(r"usage: "), "the words were no command that is built", USAGE),
    (re.compile(r"script:\d+ \d "), "the script was refused", BAD_LINE),
    (re.compile(r"trace:\d+ \d "), "the trace was refused", BAD_LINE),
    (re.compile(r"limits:\d+ \d "), "the limits were refused", BAD_LINE),
    (re.compile(r"board:\d+ \d "), "the board was refused", BAD_LINE),
    (re.compile(r"no \d+$"), "`audit` found the trace not right", NOT_A_RUN),
    (re.compile(r"no$"), "the application is not of the form of the command", NOT_A_RUN),
    (re.compile(r"runs \d+$"), "an output of `soak` has no items", BAD_LINE),
    (re.compile(r"time \d+ "), "an output of `times` has no items", BAD_LINE),
    (re.compile(r"yes \d+$"), "an answer of `audit` has no items", BAD_LINE),
    (REPORT, "an output of `check` has no items", BAD_LINE),
    (RESPONSES, "an output of `respond` has no items", BAD_LINE),
    (re.compile(r"app "), "an application has no items", BAD_LINE),
)


# How an output begins that is wanted itself.
OWN = {"check": REPORT, "respond": RESPONSES}


class Output:
    """The lines of an output: a listing or none, the items of its trace, and the total of core steps.

    `lines` has all lines, so that `lines[first:last]` are the items; `steps` is the total, None where it is missing.
    """

    def __init__(self, name, lines, listing, first, last, steps):
        self.name = name
        self.title = os.path.basename(name)
        self.lines = lines
        self.listing = listing
        self.first = first
        self.last = last
        self.steps = steps


def read_file(path, standard_input):
    """The text of a file, or of standard input where the path is `-`."""
    try:
        if path == "-":
            data = standard_input.buffer.read()
        else:
            with open(path, "rb") as file:
                data = file.read()
    except OSError as failure:
        raise Told(NOT_READ, f"{path} could not be read: {failure.strerror}") from failure
    return data.decode("latin-1")


def tell_in_place(name, text, wanted):
    """Tells of an empty text, and of what `rtic` writes in place of what is wanted."""
    if not text.strip():
        raise Told(NOT_READ, f"{name} is empty: the command that was to write it wrote nothing, as `rtic` does where "
                             "a file could not be read (status 5) and where memory ended (status 7)")
    line = text.partition("\n")[0]
    for form, cause, status in IN_PLACE:
        if form.match(line) and form is not OWN.get(wanted):
            shown = line if len(line) <= 100 else line[:97] + ".."
            raise Told(status, f"{name} is no output of `{wanted}`: {cause}\n  {shown}")


def read_output(name, text):
    """The output of a run; else what it is instead is told."""
    tell_in_place(name, text, "run")
    lines = text.split("\n")
    if lines[-1] == "":
        lines.pop()
    first = 0
    if lines[0].startswith("image "):
        if "trace" not in lines:
            raise Told(BAD_LINE, f"{name}:{len(lines) + 1}: a listing without a trace: an output of `build`, or one "
                                 "that was cut off")
        first = lines.index("trace") + 1
    last = len(lines)
    while last > first and lines[last - 1].startswith("account "):
        last -= 1
    total = TOTAL.fullmatch(lines[last - 1]) if last > first else None
    if total is not None:
        last -= 1
        if len(total[1]) > 10 or int(total[1]) >= VALUES:
            bad_line(name, last, lines[last])
    elif last < len(lines):
        bad_line(name, last, lines[last])
    for number in (*range(first), *range(last, len(lines))):
        if UNREAD.fullmatch(lines[number]) is None:
            bad_line(name, number, lines[number])
    listing = lines[:max(first - 1, 0)]
    return Output(name, lines, listing, first, last, int(total[1]) if total else None)


def bad_line(name, number, line):
    """Tells of a line that is of no form; lines are numbered from 0 here and from 1 for people."""
    shown = line if len(line) <= 60 else line[:57] + ".."
    raise Told(BAD_LINE, f"{name}:{number + 1}: no line of an output of `run`: {shown!r}")


def words_of(what):
    """The words of an item after its step, or None where it is of no form."""
    if WHAT.fullmatch(what) is None:
        return None
    words = what.split(" ")
    if words[0] in ("pend", "ret", "post", "ok", "full", "ready", "free", "fire", "end"):
        return words
    small = words[0] == "trap" or words[-1].startswith("ready.")
    limit = 256 if small else VALUES
    numbers = [word.removeprefix("ready.") for word in words[1:]]
    fits = all(len(word) <= 10 and int(word) < limit for word in numbers if word.isdigit())
    return words if fits else None
