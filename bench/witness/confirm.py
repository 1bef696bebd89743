"""Whether the text of an answer of `why` is a witness that an image breaks a rule."""

from contexts import MOST_OPEN, after
from rules import MOST_STACK, NOTES, OPERANDS, named


class Wrong(Exception):
    """The answer is no witness; says why."""


def need(holds, what):
    if not holds:
        raise Wrong(what)


class Reader:
    """Reads the lines of an answer, one behind the other."""

    def __init__(self, image, points, text):
        need(text.endswith("\n"), "the last line has no end")
        self.image, self.points = image, points
        self.lines = text.split("\n")[:-1]

    def next(self):
        need(self.lines, "a line is missing")
        return self.lines.pop(0)

    def point(self, first):
        """A point under these words. It is one of the image, and its line says what stands there."""
        line = self.next()
        need(line.startswith(first + " "), f"`{line}` in place of {first}")
        words = line[len(first) + 1:].split(" ")
        if words[0] == "handler":
            owner = next((row for row in self.image.rows if row.name == words[1]), None)
            need(owner is not None and owner.value is not None, f"no handler {words[1]}")
            words = words[1:]
        else:
            need(words[0] in ("init", "thread"), f"no owner {words[0]}")
            owner = words[0]
        address = int(words[1])
        there = self.image.line(address)
        need(" ".join(words[2:]) == (there.text if there else ""), f"`{line}` is not what stands there")
        inside = self.inside()
        need((owner, address, inside) in self.points, f"`{line}` is no point")
        return owner, address, inside, there

    def inside(self):
        """The open sections, innermost first."""
        inside = []
        while self.lines and self.lines[0].startswith("open "):
            _, name, *kind = self.next().split(" ")
            inside.append((name, (kind[0], *map(int, kind[1:]))))
        return tuple(inside)


def nesting(reader, words):
    if words == ["depth"]:
        _, _, inside, _ = reader.point("point")
        need(len(inside) > MOST_OPEN, "not too many are open")
    else:
        need(words == ["ways"], "no reason")
        one, other = reader.point("point"), reader.point("other")
        need(one[:2] == other[:2] and one[2] != other[2], "the ways do not differ")


def numbers(reader, words):
    image = reader.image
    if words[0] == "numbers":
        one, other = ([row for row in image.rows if row.name == name] for name in words[1:])
        need(len(one) == len(other) == 1 and words[1] != words[2] and one[0].number == other[0].number, "numbers")
    elif words[0] == "value":
        row = next(row for row in image.rows if row.name == words[1])
        need(row.value is not None and row.value % (1 << (8 - image.bits)), "the value has implemented bits alone")
    else:
        need(int(words[1]) == image.stack, "another stack")
        if words[0] == "pairs":
            need(image.stack % 8 != 0, "whole pairs")
        elif words[0] == "large":
            need(image.stack > MOST_STACK, "not too large")
        else:
            need(words[0] == "stack" and int(words[2]) == image.need() > image.stack, "not too small")


def addresses(reader, words):
    need(words == ["past"], "no reason")
    need(reader.point("point")[3] is None, "an instruction is there")


def part(parts):
    def confirm(reader, words):
        owner, _, inside, line = reader.point("point")
        need(line and parts[words[0]](reader.image, owner, inside, line), "that part holds")

    return confirm


def ceilings(reader, words):
    image = reader.image
    owner, _, inside, line = reader.point("point")
    need(line and line.entered, "no section is entered")
    if words == ["again"]:
        need(line.entered in named(inside), "it is not open")
        return
    other, _, _, entering = reader.point("other")
    need(other != "init" and entering and entering.entered == line.entered, "the other does not enter it")
    value = image.execution(owner, after(line, inside))
    need(words == ["weak", str(value), str(image.value(other))], "other values")
    need(value > image.value(other), "it holds off")


def guards(reader, words):
    image, cell = reader.image, int(words[1])
    need(words[0] == "guard" and words[2] == image.cells[cell], "no such cell")
    store, one, other = reader.point("store"), reader.point("point"), reader.point("other")
    outside = [reader.point(f"without {name}") for name in named(one[2])]
    for owner, _, _, line in (store, one, other, *outside):
        need(owner != "init" and line and line.cell == cell, "the cell is not touched")
    need(store[3].word == "store", "it is no store")
    need(image.value(one[0]) != image.value(other[0]), "one priority value")
    for name, point in zip(named(one[2]), outside):
        need(name not in named(point[2]), f"{name} is open")


CONFIRM = (nesting, numbers, addresses, part(OPERANDS), part(NOTES), ceilings, guards)


def confirm(image, points, least, text):
    """Raises Wrong where the text is not the answer for an image whose least broken rule is this."""
    if least is None:
        need(text == "yes\n", "the image is checked")
        return
    reader = Reader(image, points, text)
    need(reader.next() == f"no {least}", f"the least broken rule is {least}")
    CONFIRM[least - 1](reader, reader.next().split(" "))
    need(not reader.lines, "more lines")
