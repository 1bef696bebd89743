"""Reads BOARD texts and scripts beside devices, each by what the documents say of it.

A board is a list of inputs, each a task and a local resource by number; what it says of a chip is apart (chips.py). A
script is a list of lines: `step`, `tick`, `pend` and `device` as the reference has them, `("give", LOCAL, WORD)`, and
`("from", ..)` or `("seed", ..)` with DEVICE, WORD, LOCAL, IRQ, TIMES for a device's requests that come with words.
"""
import re

from . import chips
from .chips import Wrong

MOST_BYTES, MOST_EVENTS, DEVICES, WORD = 1_048_576, 1_000_000, 16, 1 << 32
NAME = re.compile(rb"[A-Za-z_][A-Za-z0-9_]*")
COUNT = re.compile(rb"[0-9]{1,9}")
SOURCES = (b"from", b"seed")
NUMBER = re.compile(rb"0|[1-9][0-9]{0,9}")
WORDS = {
    "board": ("", "too long", "bad line", "unknown task", "software task", "unknown local", "local of another",
              "named twice", "unknown interrupt", "unknown input", "out of range", "overlap", "too few bits",
              "unbound interrupt", "no flash", "no ram", "no port", "no bits", "too few lines", "ram too small",
              "flash too small", "branch too far", "file too long"),
    "script": ("", "too long", "bad line", "unknown interrupt", "too many events", "too many devices",
               "unknown input", "no input", "many inputs"),
    "trace": ("", "too long", "bad line", "unknown name", "unknown input"),
}


class Refused(Exception):
    """A text is refused at a line, for the cause of a number."""

    def __init__(self, which, line, number):
        super().__init__(f"{which}:{line} {number} {WORDS[which][number]}\n")


def name(word):
    """A word that is a name."""
    if not NAME.fullmatch(word):
        raise Wrong(2)
    return word


def count(word):
    """The number of a word of one to nine digits."""
    if not COUNT.fullmatch(word):
        raise Wrong(2)
    return int(word)


def number(word):
    """The number of 32 bits that a word spells without a leading zero."""
    if not NUMBER.fullmatch(word) or int(word) >= WORD:
        raise Wrong(2)
    return int(word)


def said(which, data):
    """The words of each line that says something, with the line's number; none where blanks stand at its ends."""
    if len(data) > MOST_BYTES:
        raise Refused(which, 1, 1)
    lines = re.findall(rb"[^\n]*\n|[^\n]+\Z", data)
    for at, line in enumerate(lines, 1):
        line = re.sub(rb"\r?\n\Z", b"", line)
        if re.fullmatch(rb"[ \t]*", line) or line.startswith(b"#"):
            continue
        loose = line.startswith(b" ") or line.endswith(b" ")
        yield at, None if loose else re.findall(rb"[^ ]+", line)


def numbered(rows):
    """The number of each row by its name."""
    return {row.name: at for at, row in enumerate(rows)}


def read_board(data, app):
    """The inputs that a BOARD text names, in its order."""
    return read_chip(data, app)[0]


def read_chip(data, app):
    """The inputs that a BOARD text names, in its order, and what it says of the chip."""
    board, chip = [], chips.Chip(app)
    for at, words in said("board", data):
        try:
            if words and words[0].decode("latin-1") in chips.FORMS:
                chip.add(words, {app.locals[local].name: local for _, local in board})
            else:
                board.append(input_of(words, app, [local for _, local in board]))
        except Wrong as wrong:
            raise Refused("board", at, wrong.number) from None
    return board, chip


def read_target(data, app):
    """The same of a text for a program, which says all that a program takes."""
    board, chip = read_chip(data, app)
    for number, form in zip((14, 15, 16, 17), ("flash", "ram", "port", "bits")):
        if form not in chip.said:
            raise Refused("board", len(re.findall(rb"[^\n]*\n|[^\n]+\Z", data)) + 1, number)
    return board, chip


def refused_at(data, number):
    """The refusal of a text for a program that does not fit, at the line that is too small for it."""
    form = {18: b"bits", 19: b"ram"}.get(number, b"flash")
    return Refused("board", next(at for at, words in said("board", data) if words[0] == form), number)


def input_of(words, app, taken):
    """The input that the words of a line name: a hardware task, and a local resource that is its own and new."""
    if words is None or len(words) != 3 or words[0] != b"input":
        raise Wrong(2)
    task, local = numbered(app.tasks).get(name(words[1])), numbered(app.locals).get(name(words[2]))
    if task is None:
        raise Wrong(3)
    if app.tasks[task].binds is None:
        raise Wrong(4)
    if local is None:
        raise Wrong(5)
    if local not in app.tasks[task].body.local:
        raise Wrong(6)
    if local in taken:
        raise Wrong(7)
    return task, local


def read_script(data, app, board):
    """The lines of a script."""
    script, events = [], 0
    for at, words in said("script", data):
        try:
            line = line_of(words, app, board)
            events += 0 if line[0] == "give" else line[-1]
            if events > MOST_EVENTS:
                raise Wrong(4)
        except Wrong as wrong:
            raise Refused("script", at, wrong.number) from None
        script.append(line)
    return script


def line_of(words, app, board):
    """What the words of a line ask for."""
    if words is None:
        raise Wrong(2)
    first, rest = words[0], words[1:]
    if first in (b"step", b"tick") and len(rest) == 1:
        return first.decode(), count(rest[0])
    if first == b"give" and len(rest) == 2:
        local, word = name(rest[0]), number(rest[1])
        inputs = {app.locals[each].name: each for _, each in board}
        if local not in inputs:
            raise Wrong(6)
        return "give", inputs[local], word
    if first == b"pend":
        return ("pend", *pends(rest, app))
    if first == b"device" and len(rest) > 1 and rest[1] == b"pend":
        if len(rest) == 6 and rest[4] in SOURCES:
            word, (_, device, irq, times) = number(rest[5]), device_of(rest[:4], app)
            return rest[4].decode(), device, word, only_input(irq, app, board), irq, times
        return device_of(rest, app)
    raise Wrong(2)


def device_of(words, app):
    """The requests of a device, by the words behind `device`."""
    device, (irq, times) = count(words[0]), pends(words[2:], app)
    if device >= DEVICES:
        raise Wrong(5)
    return "device", device, irq, times


def only_input(irq, app, board):
    """The local resource of the one input whose task is that of an interrupt."""
    inputs = [local for task, local in board if app.irqs[app.tasks[task].binds].number == irq]
    if len(inputs) != 1:
        raise Wrong(8 if inputs else 7)
    return inputs[0]


def pends(words, app):
    """An interrupt's number, and how often it is requested."""
    if len(words) not in (1, 2):
        raise Wrong(2)
    irq, times = name(words[0]), count(words[1]) if len(words) == 2 else 1
    numbers = {row.name: row.number for row in app.irqs}
    if irq not in numbers:
        raise Wrong(3)
    return numbers[irq], times
