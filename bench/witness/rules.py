"""The seven rules, and whether a witness shows that one is broken."""

from contexts import MOST_OPEN, REFUSED, after

MOST_STACK = 1 << 20


def named(inside):
    return [name for name, _ in inside]


def fails_support(image, owner, inside, line):
    return line.word in REFUSED


def fails_slots(image, owner, inside, line):
    return any(slot >= image.frame(owner) for slot in line.slots)


def fails_cell(image, owner, inside, line):
    return line.cell is not None and line.cell >= len(image.cells)


def fails_end(image, owner, inside, line):
    if line.word == "ret":
        return isinstance(owner, str) or bool(inside)
    return line.word == "serve" and (owner != "init" or bool(inside))


def fails_place(image, owner, inside, line):
    if not line.note:
        return False
    if line.note[0] == "enter":
        return line.word not in ("mark", "raise", "mask")
    if line.note[0] == "leave":
        if not inside or inside[0][0] != line.note[1]:
            return True
        kind = inside[0][1]
        closing = {"mark": ("mark",), "raise": ("restore", *kind[1:2]), "mask": ("unmask", *kind[1:2])}[kind[0]]
        return (line.word, *line.operands) != closing
    if line.note == ["end", "init"]:
        return line.word != "serve"
    return line.note != ["end", "idle"] or line.word != "jump" or owner != "thread"


def fails_note(image, owner, inside, line):
    told = line.note[:1]
    if line.word in ("raise", "mask"):
        return told != ["enter"]
    if line.word in ("restore", "unmask"):
        return told != ["leave"]
    return line.word == "serve" and line.note != ["end", "init"]


def fails_saved(image, owner, inside, line):
    return line.written is not None and any(line.written in kind[1:2] for _, kind in inside)


def fails_mask(image, owner, inside, line):
    if line.word == "raise":
        return not 0 < line.operands[1] < image.execution(owner, inside)
    return line.word == "mask" and (owner == "init" or any(kind[0] == "mask" for _, kind in inside))


OPERANDS = {"support": fails_support, "slots": fails_slots, "cell": fails_cell, "end": fails_end}
NOTES = {"place": fails_place, "note": fails_note, "saved": fails_saved, "mask": fails_mask}


def nests(image, points):
    ways = {}
    for owner, address, inside in points:
        if len(inside) > MOST_OPEN or ways.setdefault((owner, address), inside) != inside:
            return False
    return True


def numbers(image, points):
    apart = len({row.number for row in image.rows}) == len(image.rows)
    unit = 1 << (8 - image.bits)
    values = all(row.value is None or row.value % unit == 0 for row in image.rows)
    return apart and values and image.stack % 8 == 0 and image.need() <= image.stack <= MOST_STACK


def addresses(image, points):
    return all(image.line(address) for _, address, _ in points)


def lines(image, points):
    return [(owner, address, inside, image.line(address)) for owner, address, inside in points if image.line(address)]


def keep(image, points, parts):
    return not any(fails(image, owner, inside, line) for owner, _, inside, line in lines(image, points)
                   for fails in parts.values())


def ceilings(image, points):
    entering = [(owner, inside, line) for owner, _, inside, line in lines(image, points) if line.entered]
    for owner, inside, line in entering:
        if line.entered in named(inside):
            return False
        value = image.execution(owner, after(line, inside))
        if any(other != "init" and one.entered == line.entered and value > image.value(other)
               for other, _, one in entering):
            return False
    return True


def touches(image, points, cell):
    return [(owner, inside, line) for owner, _, inside, line in lines(image, points)
            if owner != "init" and line.cell == cell]


def guards(image, points):
    for cell in range(len(image.cells)):
        some = touches(image, points, cell)
        stored = any(line.word == "store" for _, _, line in some)
        if stored and len({image.value(owner) for owner, _, _ in some}) > 1:
            if not set.intersection(*(set(named(inside)) for _, inside, _ in some)):
                return False
    return True


RULES = (
    nests, numbers, addresses, lambda image, some: keep(image, some, OPERANDS),
    lambda image, some: keep(image, some, NOTES), ceilings, guards,
)


def least_broken(image, points):
    """The number of the least rule that is broken, or None."""
    return next((number for number, rule in enumerate(RULES, 1) if not rule(image, points)), None)
