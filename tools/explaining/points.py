"""The points of an image: where code can be, for whom, with which sections open, and how it comes there.

A point is an address, an owner and the open sections, the innermost last; docs/VERIFY.md says how one leads to another.
The walk keeps one point for each owner and address. Where a second one differs from it, or has too many sections open,
the first rule is broken, and the walk ends there.
"""
from dataclasses import dataclass

INIT, THREAD = "init", "the thread"
THREAD_VALUE = 256
MOST_OPEN = 16
MOST_POINTS = 1_500_000


class TooMany(Exception):
    """The walk has more points than are looked at."""


@dataclass(frozen=True)
class Opened:
    """An open section: its name, the instruction that entered it and that one's address, which tells no two apart."""

    name: str
    word: str
    operands: tuple
    at: int

    @property
    def value(self):
        """The priority value to which it raises, or None."""
        return int(self.operands[1]) if self.word == "raise" else None

    @property
    def slot(self):
        """The slot in which it saved a mask, or None."""
        return int(self.operands[0]) if self.word in ("raise", "mask") else None

    @property
    def same(self):
        """What tells one open section from another: its name and its kind."""
        return self.name, self.word, self.operands

    def told(self):
        return f"`{self.name}` ({' '.join((self.word,) + self.operands)}, entered at {self.at})"


@dataclass(frozen=True)
class Point:
    """A point, and the address from which code comes to it, None at an entry. A row is an owner, or a word for one."""

    address: int
    owner: object
    inside: tuple = ()
    source: int = None

    @property
    def same(self):
        return tuple(opened.same for opened in self.inside)

    @property
    def is_handler(self):
        return self.owner not in (INIT, THREAD)

    @property
    def value(self):
        """The owner's priority value."""
        return {INIT: 0, THREAD: THREAD_VALUE}[self.owner] if not self.is_handler else self.owner.value

    @property
    def execution(self):
        """The execution priority, as a priority value."""
        return executed(self.value, self.inside)

    def who(self):
        return f"the handler of `{self.owner.name}`" if self.is_handler else self.owner

    def open_sections(self):
        """What is open, in words."""
        return "with nothing open" if not self.inside else f"inside {', '.join(one.told() for one in self.inside)}"

    def came(self, image):
        """How code comes here, in words."""
        return "at its entry" if self.source is None else f"from {self.source}, `{image.code[self.source].text}`"


def executed(value, inside):
    """The execution priority of an owner of a priority value with these sections open."""
    raised = [one.value for one in inside if one.value is not None]
    return 0 if any(one.word == "mask" for one in inside) else min([value] + raised)


def inside_after(instr, at, inside):
    """The open sections after an instruction and its note."""
    if instr.entered is not None:
        word = instr.word if instr.word in ("raise", "mask") else "mark"
        return inside + (Opened(instr.entered, word, instr.operands if word != "mark" else (), at),)
    return inside[:-1] if instr.note[:1] == ("leave",) else inside


def addresses_after(instr, at):
    """The addresses to which an instruction leads."""
    if instr.word in ("ret", "call", "back"):
        return ()
    if instr.word == "jump":
        return (int(instr.operands[0]),)
    if instr.word == "jumpz":
        return at + 1, int(instr.operands[1])
    return (at,) if instr.word == "wait" else (at + 1,)


class Walk:
    """The points of an image by owner and address, and the two ways that differ, where there are."""

    def __init__(self, image):
        self.image = image
        self.points = {}
        self.differing = None
        starts = [Point(0, INIT)] + [Point(row.entry, row) for row in image.enabled]
        for start in starts:
            if not self.differing:
                self.follow(start)

    def follow(self, start):
        """All points to which a start leads."""
        waiting = [start]
        while waiting and not self.differing:
            point = waiting.pop()
            known = self.points.get((point.owner, point.address))
            if known is None:
                self.points[point.owner, point.address] = point
                waiting += self.next_points(point)
            if len(point.inside) > MOST_OPEN or known is not None and known.same != point.same:
                self.differing = (known, point)
            if len(self.points) > MOST_POINTS:
                raise TooMany

    def next_points(self, point):
        """The points to which one leads, the next address last."""
        if point.address >= len(self.image.code):
            return []
        instr = self.image.code[point.address]
        owner = THREAD if instr.word == "serve" and point.owner == INIT else point.owner
        inside = inside_after(instr, point.address, point.inside)
        return [Point(to, owner, inside, point.address) for to in reversed(addresses_after(instr, point.address))]

    def lines(self):
        """Each point that has an instruction, with it."""
        for point in self.points.values():
            if point.address < len(self.image.code):
                yield point, self.image.code[point.address]
