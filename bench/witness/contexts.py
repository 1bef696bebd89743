"""An image and its points, walked from what docs/VERIFY.md says and from nothing else.

A point is an owner, an address and the open sections, innermost first; a section is its name and its kind, which is
the words `mark`, `raise SLOT VALUE` or `mask SLOT`. An owner is `init`, `thread` or a row of the table of interrupts.
"""

SLOTS = {
    "set": "s-", "copy": "ss", "load": "s-", "store": "-s", "loadat": "s-s", "storeat": "-ss", "jump": "-",
    "jumpz": "s-", "emit": "s", "post": "-", "clock": "s", "alarm": "s-", "noalarm": "", "raise": "s-", "restore": "s",
    "mask": "s", "unmask": "s", "mark": "", "serve": "", "wait": "", "call": "--", "back": "", "ret": "",
}
THREE = "sss"
WRITES = {"set", "copy", "load", "loadat", "clock", "raise", "mask"}
REFUSED = {"loadat", "storeat", "alarm", "noalarm", "call", "back"}
MOST_OPEN = 16
MOST_POINTS = 40_000


class Line:
    """An instruction with its note."""

    def __init__(self, text):
        self.text = text
        front, _, note = text.partition(" ; ")
        self.word, *operands = front.split(" ")
        self.operands = [int(one) if one.isdigit() else one for one in operands]
        self.note = note.split(" ") if note else []

    @property
    def slots(self):
        return [n for n, what in zip(self.operands, SLOTS.get(self.word, THREE)) if what == "s"]

    @property
    def written(self):
        return self.operands[0] if self.word in WRITES or self.word not in SLOTS else None

    @property
    def cell(self):
        """The cell that is touched by its number, or None."""
        return {"load": lambda: self.operands[1], "store": lambda: self.operands[0]}.get(self.word, lambda: None)()

    @property
    def entered(self):
        return self.note[1] if self.note[:1] == ["enter"] else None

    @property
    def kind(self):
        """How a section that is entered on it holds others off."""
        return (self.word, *self.operands) if self.word in ("raise", "mask") else ("mark",)


class Row:
    """A row of the table of interrupts."""

    def __init__(self, words):
        self.name, self.number = words[0], int(words[1])
        self.value, self.entry, self.frame = (None,) * 3 if words[2] == "-" else map(int, words[2:])


class Image:
    """An image by its listing."""

    def __init__(self, text):
        head, *lines = text.rstrip("\n").split("\n")
        _, form, bits, stack, thread, _, _ = head.split(" ")
        self.pushed = {"1": 8, "2": 26}[form]
        self.bits, self.stack, self.thread = int(bits), int(stack), int(thread)
        words = [line.split(" ") for line in lines]
        self.cells = [one[3] for one in words if one[0] == "cell"]
        self.rows = [Row(one[1:]) for one in words if one[0] == "irq"]
        self.code = [Line(line.split(" ", 2)[2]) for line in lines if line.startswith("code ")]

    def line(self, address):
        return self.code[address] if address < len(self.code) else None

    def value(self, owner):
        return {"init": 0, "thread": 256}[owner] if isinstance(owner, str) else owner.value

    def frame(self, owner):
        return self.thread if isinstance(owner, str) else owner.frame

    def execution(self, owner, inside):
        """The execution priority's value with these sections open."""
        raised = [kind[2] for _, kind in inside if kind[0] == "raise"]
        masked = [0 for _, kind in inside if kind[0] == "mask"]
        return min([self.value(owner), *raised, *masked])

    def need(self):
        """The bytes that the stack needs."""
        frames = {}
        for row in self.rows:
            if row.value is not None:
                frames.setdefault(row.value, []).append(row.frame)
        return 4 * self.thread + sum(4 * (self.pushed + max(some)) for some in frames.values())


def after(line, inside):
    """The open sections behind a line."""
    if line.note[:1] == ["enter"]:
        return ((line.note[1], line.kind), *inside)
    return inside[1:] if line.note[:1] == ["leave"] else inside


def leads(line, address):
    """The addresses to which an instruction leads."""
    if line.word in ("ret", "call", "back"):
        return []
    if line.word == "jump":
        return [line.operands[0]]
    if line.word == "jumpz":
        return [address + 1, line.operands[1]]
    return [address] if line.word == "wait" else [address + 1]


def points(image):
    """All points, but none behind one with too many sections open; None where they are too many to be looked at."""
    waiting = [("init", 0, ())] + [(row, row.entry, ()) for row in image.rows if row.value is not None]
    seen = set()
    while waiting:
        point = waiting.pop()
        if point in seen:
            continue
        seen.add(point)
        owner, address, inside = point
        line = image.line(address)
        if line is None or len(inside) > MOST_OPEN:
            continue
        owner = "thread" if line.word == "serve" and owner == "init" else owner
        waiting += [(owner, to, after(line, inside)) for to in leads(line, address)]
        if len(seen) > MOST_POINTS:
            return None
    return seen
