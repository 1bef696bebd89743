"""Reads an output of `rtic check`: ceilings, frames, costs, waiting bounds and the stack bound."""
import re

from .reading import NAME, NUMBER, SECTION, tell_in_place
from .told import BAD_LINE, Told

LINE = re.compile(
    rf"(?:(ceiling) ({NAME}|{SECTION})|(frame|cost) ({NAME})|(wait) ({NUMBER})|(stack)) ({NUMBER})"
)


class Report:
    """What `check` printed, each table in the order of its lines; the stack bound is in bytes."""

    def __init__(self):
        self.ceilings = {}
        self.frames = {}
        self.costs = {}
        self.waits = {}
        self.stack = None

    def take(self, match):
        """Adds one line."""
        number = int(match[8])
        if match[1]:
            self.ceilings[match[2]] = number
        elif match[3]:
            (self.frames if match[3] == "frame" else self.costs)[match[4]] = number
        elif match[5]:
            self.waits[int(match[6])] = number
        else:
            self.stack = number


def read_report(name, text):
    """The report of an output of `check`; else what it is instead is told."""
    tell_in_place(name, text, "check")
    report = Report()
    for number, line in enumerate(text.rstrip("\n").split("\n"), 1):
        match = LINE.fullmatch(line)
        if match is None or report.stack is not None:
            raise Told(BAD_LINE, f"{name}:{number}: no line of an output of `check`: {line[:60]!r}")
        report.take(match)
    if report.stack is None:
        raise Told(BAD_LINE, f"{name}: an output of `check` ends with its line `stack`; this one was cut off")
    return report
