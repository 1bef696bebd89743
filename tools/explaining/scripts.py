"""Refused lines of scripts and traces: which word, and what is due."""
import difflib
import re

from .advice import advised_line
from .meant import line_of
from .table import Phrase

FORMS = {
    "pend": "I", "tick": "", "alarm": "", "set": "", "take": "I DEPTH", "ret": "I", "enter": "X", "leave": "X",
    "emit": "V", "ok": "T", "full": "T", "ready": "T", "free": "T", "fire": "T", "start": "T V ..", "post": "I",
    "clock": "V", "arm": "T V", "cancel": "T H", "move": "T H V", "end": "X", "trap": "K",
}
SECTIONS = ": X is a shared resource, `free.T`, `ready.P` with P below 256, or `timer.0`"
MEANING = {"take": ", with the bytes of stack in use after the entry", "enter": SECTIONS, "leave": SECTIONS}
UNITS = "a number has no unit: `step` counts core steps, and `tick` ticks of the timer"
IN_FRONT = "a line has no time in front: `step N` lets N core steps pass, and `pend I N` requests I N times"
HASH = "a comment begins with `#`, and has a line of its own"
EVENTS, SCRIPT_BYTES, LARGEST = 1_000_000, 1_048_576, 4_294_967_295
MOST_DIGITS = 9
NUMERAL = re.compile(r"[0-9]+")
UNIT = re.compile(r"(?:[num]?s|secs?|seconds?|milli\w*|micro\w*|minutes?|[kM]?[hH]z|cycles?|steps?|ticks?)")
TIMES = ("at", "after", "when", "time", "t", "@")
SECTION = re.compile(r"(free|ready|timer)\.")
WORDS = ("step", "tick", "pend", "device")
NUMBERS = ("V", "H", "DEPTH", "K")
LINES = ("step N", "tick N", "pend I", "pend I N", "device DEVICE pend I", "device DEVICE pend I N")
# how many of the lines name no device
OF_THE_CORE = 4
ROWS = ("image", "cell", "irq", "body", "code")


def plain_number(word):
    """How a number is written in a line, where a word is nearly one; or None."""
    bare = word.rstrip(",;:.")
    if re.fullmatch(r"0[xX][0-9a-fA-F]+", bare):
        return f"numbers are decimal: `{bare}` is {int(bare, 16)}"
    joined = re.sub(r"(?<=\d)[_,'](?=\d)", "", bare)
    if NUMERAL.fullmatch(joined) and joined != word and len(joined) <= MOST_DIGITS:
        return "a number is its digits alone, with no other sign in it or after it"
    return UNITS if UNIT.fullmatch(bare.lstrip("0123456789")) and bare[0].isdigit() else None


class Line:
    """What is said of a line: the column and length of the word that is wrong, the cause, and helps."""

    def __init__(self, source):
        self.source = source
        self.start, self.length = 0, len(source)
        self.cause, self.helps = None, []

    def at(self, word, cause):
        """The cause, with the caret under a word of the line: its number, or the word itself."""
        self.start = self.source.find(word) if word else 0
        self.length = len(word)
        self.cause = cause
        return self


def words_with_places(source):
    return [found.group() for found in re.finditer(r"[^ ]+", source)]


def script_line(app, number, source, lines, size, table, takes, is_beside=False):
    """What is wrong with the last of these lines of a script that is refused with this number."""
    said = Line(source)
    words = words_with_places(source)
    if number == 1:
        said.cause = table.cause("script 1", A=Phrase(f"{size:,}"))
        said.helps = [table.mending("script 1")]
    elif number == 2:
        forms = table.mending("script beside" if is_beside else "script 2")
        bad_line(app, said, words, forms)
        # a number in front may be a moment, and one after `every` a distance
        is_moment = NUMERAL.fullmatch(words[0] if words else "")
        if not is_moment and not {"every", "each", "per"} & set(words):
            of_lines = LINES if re.search("dev", source, re.IGNORECASE) else LINES[:OF_THE_CORE]
            write(said, of_lines, {"I": [row[0].text for row in app.interrupts]}, takes)
        said.helps = said.helps or [forms]
    elif number == 3:
        unknown_interrupt(app, said, words[words.index("pend") + 1], table)
    elif number == 4:
        total = sum(events_of(one) for one in lines)
        said.cause = table.cause("script 4", A=Phrase(f"{total:,}"))
        said.helps = [table.mending("script 4")]
    else:
        said.at(words[1], table.cause("script 5", A=Phrase(words[1])))
        said.helps = [table.mending("script 5")]
    return said


def write(said, forms, names, takes):
    """The line that was meant comes first of the helps, where it is known, and the program takes it."""
    if (meant := line_of(said.source, forms, names)) and (told := advised_line(takes, meant)):
        said.helps = [told] + said.helps


def events_of(line):
    """How many events a line of a form is."""
    words = line.split()
    if not words or words[0].startswith("#"):
        return 0
    if words[0] in ("step", "tick"):
        return int(words[1])
    behind = words[words.index("pend") + 2 :]
    return int(behind[0]) if behind else 1


def bad_line(app, said, words, forms):
    source = said.source
    if "\t" in source.strip(" \t\r"):
        return said.at("\t", "words are separated by spaces, and this is a tab")
    if source != source.strip(" \t") or source.endswith("\r"):
        said.at(source.strip(" \t"), "a blank comes before the first word, or after the last")
        return said
    if words[0] not in WORDS:
        said.at(words[0], f"no line of a script begins with `{words[0]}`")
        if words[0].startswith(("//", "--", ";", "/*")):
            said.helps = [HASH]
        elif words[0] == "app":
            said.helps = ["an application begins so: it comes first, then the script"]
        elif words[0].lower() in WORDS:
            said.helps = [f"words have small letters: `{words[0].lower()}`"]
        elif joined := re.fullmatch(r"(step|tick|device)(\d+)", words[0]):
            said.helps = ["a blank comes between two words", forms]
        elif words[0] in ("repeat", "loop", "for", "while", "times", "end", "done"):
            said.helps = ["a script has no loops: `pend I N` requests N times, and `step N` takes N steps"]
        elif words[0] == "give" and "from V" not in forms:
            said.helps = ["a line `give` is of scripts beside a board, which `rticx run` reads", forms]
        elif words[0].lower() in ("wait", "sleep", "delay", "pause", "run", "advance"):
            said.helps = ["a line `step N` lets N core steps pass, and `tick N` lets N ticks of the clock come", forms]
        elif (NUMERAL.fullmatch(words[0]) or words[0].lower() in TIMES) and any(word in WORDS for word in words[1:]):
            said.helps = [IN_FRONT, forms]
        elif words[0].startswith(("spawn", "cancel", "reschedule", "emit")):
            said.helps = ["a script requests interrupts alone: `pend I`, and the task that binds I sends the message"]
        else:
            said.helps = [forms]
        return said
    short_words(app, said, words, "from V" in forms)
    if any(word.startswith(("#", "//")) for word in words):
        said.helps = [HASH]
    elif words[0] != "device" and any(word in WORDS for word in words[1:]):
        said.helps = ["a line says one thing"]
    elif not said.helps and (told := plain_number(source[said.start :][: said.length])):
        said.helps = [told]
    return said


def short_words(app, said, words, has_words):
    """What is wrong after the first word, in a script where devices may give words or in another."""
    if words[0] in ("step", "tick"):
        if len(words) == 3 and UNIT.fullmatch(words[2]):
            said.helps = [UNITS]
        if len(words) != 2:
            return said.at(words[-1] if len(words) == 1 else words[2], f"`{words[0]}` wants one number after it")
        return said.at(words[1], f"`{words[1]}` is no number of one to nine digits")
    if words[0] == "device":
        if len(words) > 1 and not (NUMERAL.fullmatch(words[1]) and len(words[1]) <= 9):
            return said.at(words[1], f"`{words[1]}` is no number of one to nine digits")
        if len(words) < 4 or words[2] != "pend":
            return said.at(words[-1], "a device requests an interrupt: `device D pend I`")
        words = words[2:]
    if len(words) == 1 or not re.fullmatch(r"[A-Za-z_]\w*", words[1]):
        met = f", and `{words[1]}` is none" if len(words) > 1 else " after it"
        said.at(words[-1] if len(words) == 1 else words[1], f"`pend` wants the name of an interrupt{met}")
        rows = [row[0].text for row in app.interrupts if len(words) > 1 and words[1] == str(row[1].value)]
        said.helps = [f"the interrupt of number {words[1]} is `{rows[0]}`"] if rows else []
        if len(words) == 3 and NUMERAL.fullmatch(words[1]) and re.fullmatch(r"[A-Za-z_]\w*", words[2]):
            said.helps = ["the interrupt comes first, and then how often it is requested"]
        return ended_with_sign(said, words[1] if len(words) > 1 else "", words[2:])
    if words[2] in [row[0].text for row in app.interrupts]:
        said.helps = ["a line requests one interrupt"]
    if has_words and words[2] in ("from", "seed"):
        return said.at(words[2], f"`{words[2]}` comes behind a number of requests")
    if len(words) > 3 and not NUMERAL.fullmatch(words[2]):
        fact = "after `pend I` comes how many requests there are at once"
        return said.at(words[2], f"{fact}, and `{words[2]}` is no number")
    if len(words) > 3:
        return said.at(words[3], "at most one number comes after `pend I`")
    return said.at(words[2], f"`{words[2]}` is no number of one to nine digits")


def ended_with_sign(said, word, behind):
    """A sign that other languages have after a word: a line has none, and one interrupt."""
    name = word.rstrip(",;:")
    if name != word and re.fullmatch(r"[A-Za-z_]\w*", name):
        said.helps = ["no sign comes after a name"]
        if behind and not NUMERAL.fullmatch(behind[0]):
            said.helps = ["a line requests one interrupt"]
    return said


def unknown_interrupt(app, said, name, table):
    names = [row[0].text for row in app.interrupts]
    told = ", ".join(f"`{one}`" for one in names[:12]) + (" and others" if len(names) > 12 else "")
    said.at(name, table.cause("script 3", N=name))
    said.helps = [table.mending("script 3", I=Phrase(told or "none"))]
    task = app.task(name)
    if task and task.binds:
        said.helps = [f"`{name}` is a task, and binds the interrupt `{task.binds.text}`"]
    else:
        similar(said, "an interrupt", name, names)


def similar(said, kind, name, names):
    near = [one for one in names if one.lower() == name.lower()] or difflib.get_close_matches(name, names, 1, 0.7)
    if near:
        said.helps.append(f"{kind} of a similar name is `{near[0]}`")


def trace_line(app, number, source, lines, line, table, takes):
    """What is wrong with a line of a trace that is refused with this number."""
    said = Line(source)
    if number == 1:
        said.cause, said.helps = table.cause("trace 1"), [table.mending("trace 1")]
    elif number == 3:
        unknown_in_trace(app, said, source.split(" "), table)
    else:
        bad_item(app, said, lines, line, table)
        if not any(re.fullmatch(r"total \d+", one) for one in lines[: line - 1]):
            write(said, items(), names_in(app), takes)
    return said


def names_in(app):
    """The names that stand for the letters of a trace's forms."""
    software = [task.name.text for task in app.tasks if task.is_software]
    sections = [row[0].text for row in app.shared] + [f"free.{name}" for name in software]
    sections += [f"ready.{level}" for level in app.levels()] + ["timer.0"] * bool(app.monotonic)
    bodies = [task.name.text for task in app.tasks if not task.is_software]
    ended = software + bodies + ["init", "idle"]
    return {"I": [row[0].text for row in app.interrupts], "T": software, "X": sections, "E": ended}


def items():
    """The forms of a trace's lines, with their numbers of values."""
    for word, form in FORMS.items():
        if word == "start":
            yield from (f"N start T{' V' * count}" for count in range(5))
        elif word == "leave":
            yield from ("N leave X", "N leave X V")
        else:
            yield f"N {word} {'E' if word == 'end' else form}".strip()
    yield "total N"


def bad_item(app, said, lines, line, table):
    source, words = said.source, said.source.split(" ")
    if lines and lines[0].startswith("image ") and "trace" not in lines[: line - 1]:
        said.cause = "a listing comes first, and no line `trace` ends it"
        said.helps = ["this is what `build` writes; `run` writes a trace after it"]
    elif any(re.fullmatch(r"total \d+", one) for one in lines[: line - 1]):
        said.cause = "after the total only lines that begin with `account ` may come"
    elif source.endswith("\r"):
        said.cause = "the line ends with a carriage return, and a line of a trace ends with a line feed alone"
    elif not source:
        said.cause = "the line is empty"
    elif "" in words or "\t" in source:
        said.cause = "one space comes between two words, and none at the ends"
    elif words[0] == "total":
        said.cause = "the form is `total N`"
    elif words == ["trace"]:
        said.cause = "the line `trace` ends a listing, and none comes before it"
    elif not re.fullmatch(r"[0-9]+", words[0]):
        said.at(words[0], f"a line begins with a number, that of the core steps before it, and `{words[0]}` is none")
        if words[0] in ROWS:
            said.helps = ["a line of a listing begins so, and the listing's first line, `image ..`, is not in front"]
        elif re.match(r"\d+[,;:\t]", words[0]):
            said.helps = ["one space comes between two words, and no other sign"]
        elif words[0] in ("step", "pend", "tick", "device", "#", "app"):
            looks = "an application" if words[0] == "app" else "a script"
            said.helps = [f"{looks} has such lines, and `audit` takes an application and then a trace"]
    else:
        bad_words(app, said, words)
    if said.cause is None:
        said.cause, said.helps = table.cause("trace 2"), [table.mending("trace 2")]


def bad_words(app, said, words):
    """What is wrong after the step number."""
    if len(words) > 1 and words[1] not in FORMS:
        said.at(words[1], f"no item is called `{words[1]}`")
        names = [f"`{name}`" for name in FORMS]
        said.helps = [f"an item is {', '.join(names[:-1])} or {names[-1]}"]
        return
    for word in (word for word in words if NUMERAL.fullmatch(word)):
        if word != (word.lstrip("0") or "0"):
            said.at(word, f"`{word}` has leading zeros")
            return
        if len(word) > len(str(LARGEST)) or int(word) > LARGEST:
            said.at(word, f"`{word}` is over {LARGEST:,}")
            return
    if int(words[0]) >= 1 << 31:
        said.at(words[0], f"the step is {int(words[0]):,}, and 2,147,483,647 is the most")
    elif len(words) < 2:
        said.cause = "an item comes after the step number"
    elif words[1] == "leave" and len(words) == 3 and not SECTION.match(words[2]):
        said.cause = "the form is `leave R V`: where a resource's section is left, its value comes last"
    elif words[1] == "leave" and len(words) == 4 and SECTION.match(words[2]):
        said.cause = "the form is `leave X`: only a resource's section has a value after it"
    else:
        said.cause = f"the form is `{f'{words[1]} {FORMS[words[1]]}'.strip()}`{MEANING.get(words[1], '')}"
        wrong_number(said, words[2:], FORMS[words[1]].split(" "))


def wrong_number(said, words, letters):
    """A word in the place of a number, where there are as many words as the form has."""
    if len(words) == len(letters) and not letters[0] == "X":
        for word, letter in zip(words, letters):
            if letter in NUMBERS and not NUMERAL.fullmatch(word):
                said.at(word, f"`{word}` is no number: numbers are decimal, with no sign and no unit")
                return


def unknown_in_trace(app, said, words, table):
    """The name of a trace's line that is declared nowhere."""
    name = words[2]
    if words[1] in ("pend", "take", "ret", "post"):
        kind, names = "interrupt", [row[0].text for row in app.interrupts]
    elif words[1] in ("enter", "leave"):
        kind, names = "section", [row[0].text for row in app.shared]
    else:
        kind, names = "software task", [task.name.text for task in app.tasks if task.is_software]
    said.at(name, table.cause("trace 3", K=Phrase(kind), N=name))
    task = app.task(name)
    if kind == "interrupt" and task and task.binds:
        said.helps = [f"`{name}` is a task, and binds the interrupt `{task.binds.text}`"]
    similar(said, "an interrupt" if kind == "interrupt" else f"a {kind}", name, names)
