"""The seven rules of `verify`, judged again: for the least that an image breaks, where and why.

docs/VERIFY.md has the rules. Each judge here walks through the points and hands out the first breach that it meets.
"""
from dataclasses import dataclass, field

from .listing import UNSUPPORTED
from .points import INIT, MOST_OPEN, THREAD, Walk, executed, inside_after

WORD = 4
MOST_STACK = 1 << 20
ON_MARK = "where no mask is needed, a section is entered on `mark`"
CLOSING = {"mark": "mark", "raise": "restore", "mask": "unmask"}
MESSAGES = (
    "`verify` answers so to every image of `build` whose application has software tasks or a monotonic, because the "
    "code for messages computes the numbers of cells, sets the alarm and calls bodies, and the seven rules say nothing "
    "of that: it is no fault of the image"
)


@dataclass
class Breach:
    """Where a rule is broken: a line of the listing and what is said of it. A note has a sentence and another line."""

    line: int
    label: str
    cause: str
    helps: list = field(default_factory=list)
    notes: list = field(default_factory=list)
    point: object = None
    remark: str = ""


def at_point(point, instr, cause, helps=(), notes=()):
    """A breach at a point that has an instruction."""
    label = f"{point.who()} comes here {point.open_sections()}"
    return Breach(instr.line, label, cause, list(helps), list(notes), point)


def nesting(image, walk):
    """The first rule: one way of nesting at each address, and few open sections."""
    if not walk.differing:
        return None
    known, point = walk.differing
    here = image.code[point.address] if point.address < len(image.code) else image.code[point.source]
    if len(point.inside) > MOST_OPEN:
        return at_point(point, here, f"{len(point.inside)} sections are open at {point.address}, and {MOST_OPEN} is "
                        "the most", ["at most so many sections are open at once"])
    ways = [f"{one.came(image)} {one.open_sections()}" for one in (known, point)]
    cause = f"{point.who()} comes to the address {point.address} in two ways: {ways[0]}, and {ways[1]}"
    notes = [(f"it comes to {one.address} from here {one.open_sections()}", image.code[one.source].line)
             for one in (known, point) if one.source is not None]
    help_ = "each way to an address opens the same sections, in the same order and by the same instructions"
    return Breach(here.line, f"two ways lead to {point.address}", cause, [help_], notes, point)


def numbers(image, walk):
    """The second rule: numbers apart, implemented values, and a stack that is enough."""
    for place, row in enumerate(image.rows):
        first = next(one for one in image.rows if one.number == row.number)
        if first is not row:
            return Breach(row.line, "this number is taken", f"`{first.name}` has the number {row.number} already",
                          ["each interrupt has a number of its own"], [(f"`{first.name}` is here", first.line)])
    step = 1 << (8 - image.bits)
    for row in image.enabled:
        if row.value % step:
            below = row.value - row.value % step
            return Breach(row.line, f"{row.value} is no multiple of {step}", f"with {image.bits} bits the priority "
                          f"value of `{row.name}` is a multiple of {step}, and it is {row.value}",
                          [f"the next multiple below it is {below}"])
    return stack(image)


def stack(image):
    """What is wrong with the size of the stack region, or None."""
    if image.stack % (2 * WORD):
        return Breach(1, "", f"the stack region has {image.stack} bytes, which is no multiple of {2 * WORD}")
    if image.stack > MOST_STACK:
        return Breach(1, "", f"the stack region has {image.stack:,} bytes, and {MOST_STACK:,} is the most")
    frames = {}
    for row in image.enabled:
        if row.value not in frames or row.frame > frames[row.value].frame:
            frames[row.value] = row
    need = WORD * (image.thread + sum(image.entry_words + row.frame for row in frames.values()))
    if need <= image.stack:
        return None
    parts = [f"{WORD * image.thread} for the thread"]
    notes = []
    for value, row in sorted(frames.items()):
        parts.append(f"{WORD * (image.entry_words + row.frame)} for the value {value}")
        notes.append((f"the greatest frame of the value {value}, {row.frame} words, is that of `{row.name}`; an entry "
                      f"has {image.entry_words}", row.line))
    return Breach(1, "", f"the stack region has {image.stack:,} bytes, and {need:,} are needed: {', '.join(parts)}",
                  ["the third number of this line is the size of the stack region"], notes)


def addresses(image, walk):
    """The third rule: code leads to code."""
    for point in walk.points.values():
        if point.address >= len(image.code):
            last = f"the last one is at {len(image.code) - 1}" if image.code else "there is none"
            cause = f"{point.who()} comes to the address {point.address}, which has no instruction: {last}"
            if point.source is None:
                line = point.owner.line if point.is_handler else 1
                return Breach(line, "", cause, ["an entry is the address of an instruction"], point=point)
            instr = image.code[point.source]
            ends = "`ret`" if point.is_handler else "a `jump` or `wait`" if point.owner == THREAD else "`serve`"
            runs = instr.word not in ("jump", "jumpz") or point.address == point.source + 1
            help_ = f"the code of {point.who()} ends with {ends}" if runs else "a jump leads to an address of the code"
            label = f"{point.who()} goes on from here to {point.address}"
            return Breach(instr.line, label, cause, [help_], point=point)
    return None


def operands(image, walk):
    """The fourth rule: instructions have what they touch, and end a job where they may."""
    for point, instr in walk.lines():
        found = operand(image, point, instr)
        if found:
            breach = at_point(point, instr, *found)
            breach.remark = MESSAGES if instr.word in UNSUPPORTED and has_messages(image) else ""
            return breach
    return None


def has_messages(image):
    """Whether an image has bodies of software tasks, or cells of queues, as `build` names them."""
    return bool(image.bodies) or any("." in name and not name.startswith("local.") for name in image.cells)


def operand(image, point, instr):
    """What is wrong with an instruction at a point: the cause and helps, or None."""
    if instr.word in UNSUPPORTED:
        return f"`{instr.word}` may not be used in what `verify` is to judge", []
    frame = point.owner.frame if point.is_handler else image.thread
    slot = next((slot for slot in instr.slots if slot >= frame), None)
    if slot is not None:
        where = f"the last number of its `irq` row, in line {point.owner.line}" if point.is_handler else "in line 1"
        return (f"there is no slot {slot}: the frame of {point.who()} has {frame} words, {where}",
                ["slots count from 0 to one below the words of the frame, for which the stack region has room"])
    if instr.cell is not None and instr.cell >= len(image.cells):
        return (f"there is no cell {instr.cell}: the image has {len(image.cells)}, and they count from 0",
                ["each cell has a `cell` line"])
    ends = {"ret": point.is_handler, "serve": point.owner == INIT}
    if not ends.get(instr.word, True):
        whose = "a handler" if instr.word == "ret" else "`init`"
        return (f"`{instr.word}` ends {whose}, and {point.who()} comes here",
                ["`init` ends with `serve`, the thread in a loop, and each handler with `ret`"])
    if instr.word in ends and point.inside:
        return (f"`{instr.word}` comes where a section is open: {point.inside[-1].told()}",
                ["a body leaves each section before it ends"])
    return None


def notes(image, walk):
    """The fifth rule: notes and masks agree."""
    for point, instr in walk.lines():
        for judge in (note_stands, note_is_there, saved, masked):
            found = judge(point, instr)
            if found:
                cause, helps, other = found
                return at_point(point, instr, cause, helps, [(sentence, image.code[at].line) for sentence, at in other])
    return None


def note_stands(point, instr):
    """A note where none may be."""
    kind = instr.note[0] if instr.note else None
    if kind is None:
        return None
    if kind == "enter":
        if instr.word in CLOSING:
            return None
        return f"a section is entered on `mark`, `raise` or `mask`, and `{instr.word}` is none of them", [], []
    if kind == "leave":
        return leaves(point, instr)
    if instr.note == ("end", "init"):
        return None if instr.word == "serve" else (f"`init` ends on `serve`, and this is `{instr.word}`", [], [])
    if instr.note == ("end", "idle"):
        if instr.word == "jump" and point.owner == THREAD:
            return None
        why = f"this is `{instr.word}`" if instr.word != "jump" else f"it is {point.who()} that comes here"
        return f"a turn of `idle` ends on a `jump` of the thread, and {why}", [], []
    return f"no `{' '.join(instr.note)}` may be in what `verify` is to judge", [], []


def leaves(point, instr):
    """What is wrong with the leaving of a section, or None."""
    name = instr.note[1]
    if not point.inside:
        return f"`{name}` is left, and no section is open", [], []
    last = point.inside[-1]
    closing = (CLOSING[last.word],) + (() if last.slot is None else (str(last.slot),))
    entered = [(f"{last.told()} was entered last", last.at)]
    if last.name != name:
        return f"`{name}` is left, and `{last.name}` was entered last", ["what was entered last is left first"], entered
    if (instr.word,) + instr.operands != closing:
        told = " ".join(closing)
        return f"`{name}` was entered on `{last.word}`, so it is left on `{told}`", [], entered
    return None


def note_is_there(point, instr):
    """An instruction that changes a mask and has no note."""
    due = {"raise": "enter", "mask": "enter", "restore": "leave", "unmask": "leave"}.get(instr.word)
    if due and instr.note[:1] != (due,):
        return f"`{instr.word}` changes a mask, and has no note `{due} ..`", [], []
    if instr.word == "serve" and instr.note != ("end", "init"):
        return "`serve` has no note `end init`", [], []
    return None


def saved(point, instr):
    """A write to the slot in which an open section saved the mask."""
    last = next((one for one in reversed(point.inside) if one.slot is not None and one.slot == instr.written), None)
    if last is None:
        return None
    return (f"this writes the slot {instr.written}, in which the section {last.told()} saved the mask",
            ["what an open section saved stays in its slot until it is left"], [("it was saved here", last.at)])


def masked(point, instr):
    """A mask that has no effect, or cannot be put back."""
    if instr.word == "raise":
        value = int(instr.operands[1])
        if value == 0:
            return "a `raise` to 0 masks nothing", [f"a `raise` is to a value below {point.execution}, from 1 on"], []
        if value >= point.execution:
            return (f"this raises to {value}, and the execution priority is {point.execution} here already",
                    [f"a `raise` is to a value below {point.execution}", ON_MARK],
                    [("it was raised here", one.at) for one in point.inside if one.value == point.execution])
    if instr.word == "mask" and point.owner == INIT:
        return "`init` runs with all interrupts masked already", [ON_MARK], []
    if instr.word == "mask":
        first = next((one for one in point.inside if one.word == "mask"), None)
        if first:
            return "all interrupts are masked here already", [ON_MARK], [("they are masked here", first.at)]
    return None


def ceilings(image, walk):
    """The sixth rule: a section that is entered is free, and holds off all who enter it."""
    entering = [(point, instr) for point, instr in walk.lines() if instr.entered is not None]
    lowest = {}
    for point, instr in entering:
        known = lowest.get(instr.entered)
        if point.owner != INIT and (known is None or point.value < known[0].value):
            lowest[instr.entered] = (point, instr)
    for point, instr in entering:
        first = next((one for one in point.inside if one.name == instr.entered), None)
        if first:
            return at_point(point, instr, f"`{instr.entered}` is open here already",
                            ["a section that is open is not entered again"],
                            [("it was entered here", image.code[first.at].line)])
        if instr.entered in lowest:
            other, there = lowest[instr.entered]
            value = executed(point.value, inside_after(instr, point.address, point.inside))
            if value > other.value:
                return not_held_off(image, point, instr, value, other, there)
    return None


def not_held_off(image, point, instr, value, other, there):
    """A section inside which someone who enters it too can come."""
    cause = (f"inside `{instr.entered}` the execution priority is {value}, and {other.who()}, of the value "
             f"{other.value}, enters it too")
    help_ = f"it is entered on a `raise` to {other.value} at the most" if other.value else "it is entered on `mask`"
    return at_point(point, instr, cause, [help_], [(f"{other.who()} enters it here", there.line)])


def guards(image, walk):
    """The seventh rule: a contended cell is touched inside one section alone."""
    touches = {}
    for point, instr in walk.lines():
        if instr.cell is not None and point.owner != INIT:
            touches.setdefault(instr.cell, []).append((point, instr))
    for cell, rows in touches.items():
        stores = [row for row in rows if row[1].word == "store"]
        if not stores or len({point.value for point, _ in rows}) < 2:
            continue
        names = [{one.name for one in point.inside} for point, _ in rows]
        if not set.intersection(*names):
            return unguarded(image, cell, rows, names)
    return None


def unguarded(image, cell, rows, names):
    """A cell that is touched outside the section inside which most others touch it."""
    counted = [name for inside in names for name in inside]
    best = max(sorted(set(counted)), key=counted.count, default=None)
    point, instr = next(row for row, inside in zip(rows, names) if best not in inside)
    others = [row for row in rows if row[0].value != point.value]
    writing = [row for row in others if row[1].word == "store"]
    other, there = (writing if instr.word == "load" and writing else others)[0]
    verb = {"load": "loads", "store": "stores"}
    where = f"outside `{best}`, inside which others touch it" if best else "and no section is round all touches"
    cause = (f"{point.who()}, of the value {point.value}, {verb[instr.word]} the cell {cell}, `{image.cells[cell]}`, "
             f"{where}; {other.who()}, of the value {other.value}, {verb[there.word]} it {other.open_sections()}")
    help_ = f"`{best}` is entered before it elsewhere" if best else "the same section is round each of them"
    told = [(f"{other.who()} {verb[there.word]} it here", there.line)]
    storing = next((row for row in rows if row[1].word == "store"), None)
    if "store" not in (instr.word, there.word):
        told.append((f"{storing[0].who()} stores it here", storing[1].line))
    return at_point(point, instr, cause, [help_], told)


RULES = (nesting, numbers, addresses, operands, notes, ceilings, guards)


def least_broken(image):
    """The number of the least rule that an image breaks, and where; or None twice."""
    walk = Walk(image)
    for number, rule in enumerate(RULES, 1):
        breach = rule(image, walk)
        if breach:
            return number, breach
    return None, None
