"""An image, as a listing that the program has read tells it: rows, cells and code, each with its line."""
from dataclasses import dataclass

ENTRY_WORDS = {"1": 8, "2": 26}
OPERATIONS = frozenset("add sub mul div rem and or xor shl shr eq ne lt le gt ge".split())
UNSUPPORTED = frozenset("loadat storeat alarm noalarm call back".split())
# which operands of an instruction are slots, and which of them is written
SLOTS = {
    "set": (0,), "copy": (0, 1), "load": (0,), "store": (1,), "loadat": (0, 2), "storeat": (1, 2), "jumpz": (0,),
    "emit": (0,), "clock": (0,), "alarm": (0,), "raise": (0,), "restore": (0,), "mask": (0,), "unmask": (0,),
    **{word: (0, 1, 2) for word in OPERATIONS},
}
WRITES_FIRST = OPERATIONS | {"set", "copy", "load", "loadat", "clock", "raise", "mask"}
CELLS = {"load": 1, "store": 0}


@dataclass(frozen=True)
class Row:
    """A declared interrupt; value, entry and frame are None where nothing serves it."""

    name: str
    number: int
    value: int
    entry: int
    frame: int
    line: int


@dataclass(frozen=True)
class Instr:
    """An instruction: its word, its operands as they are written, and its note's words, none where it has none."""

    word: str
    operands: tuple
    note: tuple
    line: int

    @property
    def text(self):
        return " ".join((self.word,) + self.operands)

    @property
    def slots(self):
        return [int(self.operands[place]) for place in SLOTS.get(self.word, ())]

    @property
    def written(self):
        """The slot that is written, or None."""
        return int(self.operands[0]) if self.word in WRITES_FIRST else None

    @property
    def cell(self):
        """The cell that is named, or None."""
        return int(self.operands[CELLS[self.word]]) if self.word in CELLS else None

    @property
    def entered(self):
        """The section that its note enters, or None."""
        return self.note[1] if self.note[:1] == ("enter",) else None


class Image:
    """An image: its numbers, rows of interrupts, names of cells and bodies, and code."""

    def __init__(self, lines):
        _, kind, bits, stack, thread, _, _ = lines[0].split(" ")
        self.entry_words = ENTRY_WORDS[kind]
        self.bits, self.stack, self.thread = int(bits), int(stack), int(thread)
        self.rows, self.cells, self.bodies, self.code = [], [], [], []
        for number, line in enumerate(lines[1:], 2):
            self.add(number, line)

    def add(self, number, line):
        front, _, note = line.partition(" ; ")
        kind, *words = front.split(" ")
        if kind == "code":
            self.code.append(Instr(words[1], tuple(words[2:]), tuple(note.split(" ")) if note else (), number))
        elif kind == "irq":
            served = [int(word) for word in words[2:]] if words[2] != "-" else [None] * 3
            self.rows.append(Row(words[0], int(words[1]), *served, number))
        elif kind == "cell":
            self.cells.append(words[2])
        else:
            self.bodies.append(words[0])

    @property
    def enabled(self):
        """The rows of interrupts that something serves."""
        return [row for row in self.rows if row.value is not None]


def image_of(text):
    """The image of a listing."""
    return Image(text.rstrip("\n").split("\n"))
