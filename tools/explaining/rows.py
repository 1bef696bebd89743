"""The first line with which lines begin no listing: what of its form, its number or its place is wrong, where it shows.

The forms are those of docs/LANGUAGE.md, "Listings", and docs/MACHINE.md, "Instructions".
"""
import re

from .listing import OPERATIONS
from .meant import ANY, line_of
from .tokens import nearest

ORDER = ("image", "cell", "irq", "body", "code")
FORMS = {
    "image": ("1 BITS STACK THREAD CODE CELLS", "2 BITS STACK THREAD CODE CELLS"), "cell": ("N FIRST NAME",),
    "irq": ("NAME NUMBER PRIO ENTRY FRAME", "NAME NUMBER -"), "body": ("T ENTRY FRAME ARGS",),
}
INSTRUCTIONS = {
    "set": "D V", "copy": "D S", "load": "D C", "store": "C S", "loadat": "D C S", "storeat": "C S A", "jump": "L",
    "jumpz": "S L", "emit": "S", "post": "I", "clock": "D", "alarm": "S I", "noalarm": "", "raise": "D V",
    "restore": "S", "mask": "D", "unmask": "S", "mark": "", "serve": "", "wait": "", "call": "B S", "back": "",
    "ret": "", **{word: "D A B" for word in OPERATIONS},
}
NOTES = {
    "enter": "X", "leave": "X", "ok": "T", "full": "T", "ready": "T", "start": "T S", "free": "T", "arm": "T S",
    "fire": "T", "cancel": "T S", "move": "T S A", "end": "X",
}
NAMES = ("NAME", "T", "I", "X", "-")
NUMBER = re.compile(r"0|[1-9][0-9]*")
SIZES = {"cell": (6, "cell"), "code": (5, "instruction")}
LETTERS = "D, S, A and B are numbers of slots, C of a cell, L an address, V a value, and I an interrupt's name"
COMMENTS = ("#", "//", ";", "--")


def cause_of(lines, line, ended):
    """The cause, and perhaps a help, of a refused line; `ended` is whether the last line has its line feed. None where
    nothing shows."""
    if line > len(lines):
        return missing(lines)
    source = lines[line - 1]
    words = source.split(" ")
    if words[0] not in ORDER:
        return other_line(source, words[0])
    found = out_of_place(lines[: line - 1], words) or ill_formed(source, words)
    return found or (None if ended or line < len(lines) else ("the last line lacks its line feed",))


def meant(source):
    """The line of a form that was meant by one of none, or None; its note stays as it is."""
    front, mark, note = source.partition(";")
    forms = [f"{word} {form}" for word in FORMS for form in FORMS[word] if word != "image"]
    if "code" in source:
        # an instruction that is there is meant, whatever its operands are
        words = [word for word in front.split()[2:3] if word in INSTRUCTIONS] or INSTRUCTIONS
        forms = [f"code N {word} {INSTRUCTIONS[word]}".strip() for word in words]
    found = line_of(front.strip(), forms, {"NAME": ANY, "T": ANY, "I": ANY})
    return f"{found} ;{note}" if found and mark and note.startswith(" ") else found


def of_kind(lines, word):
    return sum(1 for one in lines if one.startswith(word + " "))


def said_first(lines, word):
    """How many lines of a kind the first line says, and a noun for them; none where it says nothing of them."""
    place, noun = SIZES.get(word, (0, ""))
    words = lines[0].split(" ") if lines else []
    if not place or len(words) != 7 or not words[place].isdigit():
        return None, noun
    return int(words[place]), noun


def counted(number, noun):
    return f"{number:,} {noun}{'s' * (number != 1)}"


def there(number):
    return f"{number:,} is" if number == 1 else f"{number:,} are" if number else "none is"


def missing(lines):
    """The listing ends too early."""
    for word in SIZES:
        said, noun = said_first(lines, word)
        if said is not None and of_kind(lines, word) < said:
            return (f"the listing ends before this line: its first line says {counted(said, noun)}, and "
                    f"{there(of_kind(lines, word))} there",)
    return None


def other_line(source, word):
    """A line that begins as none of a listing."""
    if not source.strip():
        return ("the line is empty",)
    if word == "trace":
        return ("the listing ends before the line `trace`, with which a trace begins",)
    if word.startswith(COMMENTS):
        return ("a listing has no comments",)
    near = nearest(word, ORDER, 0.7)
    helps = (f"a line of a similar beginning is `{near} ..`",) if near else ()
    return (f"no line of a listing begins with `{word}`",) + helps


def out_of_place(front, words):
    """A line of a kind that is not due here, or with another number than is due."""
    kind = words[0]
    if (kind == "image") != (not front):
        return ("the first line, and no other, begins with `image`",)
    before = front[-1].split(" ")[0] if front else "image"
    if before in ORDER and ORDER.index(before) > ORDER.index(kind):
        return (f"the lines of `{kind}` come before those of `{before}`",)
    said, noun = said_first(front, "cell")
    if kind not in ("image", "cell") and said is not None and of_kind(front, "cell") < said:
        return (f"the first line says {counted(said, noun)}, and before this line {there(of_kind(front, 'cell'))}",)
    said, noun = said_first(front, kind)
    if said is not None and of_kind(front, kind) >= said:
        return (f"the first line says {counted(said, noun)}, and this is one more",)
    due = of_kind(front, kind)
    if kind in SIZES and len(words) > 1 and words[1] != str(due):
        told = f"the number of this line is {due:,}, one more than that of the line before, and `{words[1]}` is written"
        return (told if due else f"the first `{kind}` line is `{kind} 0 ..`",)
    return None


def ill_formed(source, words):
    """A line of a kind that is due, and of no form."""
    if words[0] != "code":
        forms = FORMS[words[0]]
        if not any(fits(words[1:], form) for form in forms):
            return (f"the form is {' or '.join(f'`{words[0]} {form}`' for form in forms)}",)
        return None
    front, mark, note = source.partition(" ; ")
    instr = front.split(" ")[2:]
    if not instr:
        return ("the form is `code N INSTR` or `code N INSTR ; NOTE`",)
    if not mark and ";" in source:
        return ("one space comes before the `;` of a note, and one after it",)
    if instr[0] not in INSTRUCTIONS:
        near = nearest(instr[0], INSTRUCTIONS, 0.7)
        return (f"no instruction is called `{instr[0]}`",) + ((f"one of a similar name is `{near}`",) if near else ())
    if not fits(instr[1:], INSTRUCTIONS[instr[0]]):
        return (f"the form is `{f'{instr[0]} {INSTRUCTIONS[instr[0]]}'.strip()}`", LETTERS)
    noted = note.split(" ")
    if mark and noted[0] not in NOTES:
        return (f"no note is called `{noted[0]}`",)
    if mark and not fits(noted[1:], NOTES[noted[0]]):
        return (f"the form of the note is `{noted[0]} {NOTES[noted[0]]}`",)
    return None


def fits(words, form):
    """Whether words are as many as the letters of a form, with numbers in the place of numbers."""
    letters = form.split(" ") if form else []
    if len(words) != len(letters):
        return False
    return all(word == letter if letter in ("1", "2", "-") else letter in NAMES or NUMBER.fullmatch(word)
               for word, letter in zip(words, letters))
