"""Reads an output of `rticx respond`: how long a response of each task takes at most, and the room of its messages."""
import re

from .reading import NAME, NUMBER, tell_in_place
from .told import BAD_LINE, NOT_A_RUN, Told

BOUND = rf"(?:{NUMBER}|- (?:cycle|over|form))"
LINE = re.compile(
    rf"(irq|task) ({NAME}) {NUMBER} ({BOUND})|(?:met|late) {NAME} {NUMBER}|(?:never|merge) {NAME}"
    rf"|room ({NAME}) ({NUMBER}|-) {NUMBER}|from {NAME} {NAME} {BOUND}|load (?:{NUMBER}|-)"
)


class Responses:
    """What `respond` printed: the most core steps that a response takes, or None where there is no such number, by the
    word and the name of its line: `irq` and the interrupt of a hardware task, or `task` and a software task; and the
    most places that are out at once, or None, by the software task."""

    def __init__(self, name):
        self.name = name
        self.bounds = {}
        self.rooms = {}

    def bound(self, task):
        """The bound of a task, or None."""
        return self.bounds.get(self.key(task))

    def room(self, task):
        """The most places of a software task that are out at once, or None."""
        return self.rooms.get(task.name)

    @staticmethod
    def key(task):
        """What `respond` calls a task: an interrupt and a software task may have one name."""
        return ("task", task.name) if task.is_software() else ("irq", task.interrupt)

    def agree(self, application):
        """Tells where the report has a task that the application lacks; without a listing nothing is known of it."""
        known = {self.key(task) for task in application.tasks}
        strange = [name for name in self.bounds if name not in known]
        if strange and application.listed:
            raise Told(NOT_A_RUN, f"{self.name} is of another application: the run has no `{strange[0][1]}`")


def read_responses(name, text):
    """The report of an output of `respond`; else what it is instead is told."""
    tell_in_place(name, text, "respond")
    found = Responses(name)
    for number, line in enumerate(text.rstrip("\n").split("\n"), 1):
        match = LINE.fullmatch(line)
        if match is None:
            raise Told(BAD_LINE, f"{name}:{number}: no line of an output of `respond`: {line[:60]!r}")
        if match[1]:
            found.bounds[match[1], match[2]] = int(match[3]) if match[3].isdigit() else None
        if match[4]:
            found.rooms[match[4]] = int(match[5]) if match[5].isdigit() else None
    return found
