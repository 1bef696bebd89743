"""Refused lines of boards that say something of a chip: which word, and what is due."""
import re

from .advice import advised_line
from .scripts import similar
from .table import Phrase

# the words behind the first of each line
FORMS = {"flash": "A S", "ram": "A S", "port": "A", "tick": "N", "bits": "N", "word": "R A", "call": "I"}
NUMBER = re.compile(r"0x[0-9A-Fa-f]+|[0-9]+")
UNIT = re.compile(r"([0-9]+)(K|M|KB|MB|KiB|MiB)", re.I)
# what each line takes, for a number that is out of range
RANGES = {
    "flash": "flash begins at a multiple of 1,024, has a byte or more, and ends at 0xE0000000 at the latest",
    "ram": "RAM begins at a multiple of 8 above 0, has a byte or more, and ends at 0xE0000000 at the latest",
    "port": "the port is at a multiple of 4, and not from 0xE000E000 to 0xE000EFFF, where the core's own registers are",
    "tick": "the number is one less than the cycles of a tick, and 1 to 16,777,215",
    "bits": "a core has 3 to 8 priority bits",
    "word": "a register is at a multiple of 4",
}


def is_of_chip(words):
    """Whether these are the words of such a line."""
    return bool(words) and words[0] in FORMS


def value(word):
    """The number that a word spells, or none."""
    return int(word, 16 if word.startswith("0x") else 10) if NUMBER.fullmatch(word) else None


def bad_line(said, words, takes):
    """What is wrong with a line that is of no form."""
    form, wanted = words[0], FORMS[words[0]].split()
    if len(words) != 1 + len(wanted):
        return said.at(words[-1] if len(words) <= len(wanted) else words[1 + len(wanted)],
                       f"the form is `{form} {FORMS[form]}`")
    for letter, word in zip(wanted, words[1:]):
        if letter in "RI":
            if not re.fullmatch(r"[A-Za-z_][A-Za-z0-9_]*", word):
                return said.at(word, f"`{form}` wants a name, and `{word}` is none")
        elif (value(word) or 0) >= 1 << 32 or value(word) is None:
            said.at(word, f"`{word}` is no number of 32 bits, decimal or behind `0x`")
            if unit := UNIT.fullmatch(word):
                size = int(unit[1]) << (10 if unit[2][0] in "kK" else 20)
                told = advised_line(takes, " ".join(hex(size) if one == word else one for one in words))
                said.helps = [told] if told else []
            return said
    return said


def key_of(words):
    """What a line speaks of: its first word, and for an input or an interrupt its name too."""
    return tuple(words[:2]) if words[0] in ("word", "call") else words[0]


def rows(lines):
    """The lines before that say something of a chip: their numbers and words."""
    for at, line in enumerate(lines, 1):
        if is_of_chip(words := line.split()):
            yield at, words


def extent(words):
    """The bytes of a memory or a register."""
    if words[0] in ("flash", "ram"):
        return range(value(words[1]), value(words[1]) + value(words[2]))
    return range(value(words[-1]), value(words[-1]) + 4) if words[0] in ("port", "word") else range(0)


def chip_line(app, said, number, words, lines, table):
    """What is wrong with a line that is of a form, or with the end of the text, for causes from 7 on."""
    before, key = list(rows(lines[:-1] if is_of_chip(words) else lines)), f"board {number}"
    declared = [row[0].text for row in app.interrupts]
    bound = [task.binds.text for task in app.tasks if task.binds]
    inputs = [line.split()[2] for line in lines[:-1] if line.split()[:1] == ["input"] and len(line.split()) == 3]
    if number == 7:
        first = next((at for at, other in before if key_of(other) == key_of(words)), 0)
        return said.at(words[0], f"line {first} says this already")
    values = {"N": words[1]} if number in (8, 9, 13) else {}
    if number == 11:
        other = next((at for at, row in before if meet(extent(row), extent(words))), 0)
        values["A"] = Phrase(str(other))
    if number == 12:
        values["A"] = Phrase(str(app.bits))
    told = {"I": Phrase(", ".join(f"`{name}`" for name in (bound if number == 13 else declared)) or "none"),
            "R": Phrase(", ".join(f"`{name}`" for name in inputs) or "none")}
    word = words[1] if number in (8, 9, 13) else words[0] if words else ""
    said.at(word, table.cause(key, **values))
    said.helps = [table.mending(key, **values, **told)]
    if number == 10:
        said.helps = [RANGES[words[0]]]
    if number in (8, 9):
        similar(said, "an interrupt" if number == 8 else "an input", words[1], declared if number == 8 else inputs)
    return said


def meet(one, other):
    """Whether some byte is in both."""
    return max(one.start, other.start) < min(one.stop, other.stop)
