"""What the lines of a BOARD text say of a chip, each by what the documents say of it."""
import re

# The numbers that stand behind the first word of a line, each as it is called here.
FORMS = {"flash": ("address", "size"), "ram": ("address", "size"), "port": ("address",), "tick": ("reload",),
         "bits": ("bits",), "word": ("name", "address"), "call": ("name",)}
NUMBER = re.compile(rb"0x[0-9A-Fa-f]+|[0-9]+")
NAME = re.compile(rb"[A-Za-z_][A-Za-z0-9_]*")
END_OF_MEMORY, CONTROL = 0xE000_0000, range(0xE000_E000, 0xE000_F000)


class Wrong(Exception):
    """A line is wrong, for the cause of a number."""

    def __init__(self, number):
        super().__init__(number)
        self.number = number


def number(word):
    """The number of 32 bits that a word spells, decimal or hexadecimal."""
    if not NUMBER.fullmatch(word):
        raise Wrong(2)
    value = int(word, 16 if word.startswith(b"0x") else 10)
    if value >= 1 << 32:
        raise Wrong(2)
    return value


class Chip:
    """What is said so far: by the first word of its line, and of `word` and `call` by what they are of."""

    def __init__(self, app):
        self.app, self.said = app, {}

    def add(self, words, inputs):
        """The words of a line; `inputs` has the local resource of each name that an input has by now."""
        form = words[0].decode()
        if len(words) != 1 + len(FORMS[form]):
            raise Wrong(2)
        row = {what: word if what == "name" else number(word) for what, word in zip(FORMS[form], words[1:])}
        key = (form, self.named(form, row.pop("name"), inputs)) if "name" in row else form
        if key in self.said:
            raise Wrong(7)
        if not in_range(form, row):
            raise Wrong(10)
        place = place_of(form, row)
        for other, taken in self.said.items():
            other = other if isinstance(other, str) else other[0]
            if {form, other} & {"flash", "ram"} and meet(place, place_of(other, taken)):
                raise Wrong(11)
        if form == "bits" and row["bits"] < self.app.bits:
            raise Wrong(12)
        if form == "call" and key[1] not in self.bound():
            raise Wrong(13)
        self.said[key] = row

    def bound(self):
        """The numbers of the interrupts that tasks bind."""
        return {self.app.irqs[task.binds].number for task in self.app.tasks if task.binds is not None}

    def text(self, size):
        """Lines that say the same, but for the bytes of flash."""
        names = {row.number: row.name.decode() for row in self.app.irqs}
        rows = {**self.said, "flash": {**self.said["flash"], "size": size}}
        words = {form: [form, *map(str, row.values())] for form, row in rows.items() if isinstance(form, str)}
        words.update({key: ["word", self.app.locals[key[1]].name.decode(), str(row["address"])]
                      for key, row in rows.items() if key[0] == "word"})
        words.update({key: ["call", names[key[1]]] for key in rows if key[0] == "call"})
        return "".join(" ".join(row) + "\n" for row in words.values()).encode()

    def named(self, form, name, inputs):
        """What a name is of: an input of the board, or an interrupt's number."""
        if not NAME.fullmatch(name):
            raise Wrong(2)
        known = inputs if form == "word" else {row.name: row.number for row in self.app.irqs}
        if name not in known:
            raise Wrong(9 if form == "word" else 8)
        return known[name]


def in_range(form, row):
    """Whether numbers are those of a chip."""
    if form in ("flash", "ram"):
        aligned = row["address"] % (1024 if form == "flash" else 8) == 0
        return aligned and row["size"] >= 1 and row["address"] + row["size"] <= END_OF_MEMORY
    return {
        "port": lambda: row["address"] % 4 == 0 and row["address"] not in CONTROL,
        "word": lambda: row["address"] % 4 == 0,
        "tick": lambda: 1 <= row["reload"] <= 2 ** 24 - 1,
        "bits": lambda: 3 <= row["bits"] <= 8,
        "call": lambda: True,
    }[form]()


def place_of(form, row):
    """The bytes of a memory or of a register."""
    size = row["size"] if form in ("flash", "ram") else 4 if "address" in row else 0
    return range(row.get("address", 0), row.get("address", 0) + size)


def meet(one, other):
    """Whether some byte is in both."""
    return max(one.start, other.start) < min(one.stop, other.stop)
