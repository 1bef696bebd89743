"""Refused lines of boards, and lines of scripts that give values to a board's inputs: which word, and what is due."""
import re

from . import chips
from .scripts import HASH, LARGEST, NUMERAL, WORDS, Line, plain_number, similar, words_with_places, write
from .table import Phrase

NAME = re.compile(r"[A-Za-z_][A-Za-z0-9_]*")
MOST_TOLD = 12
# what authors of other texts have in place of `give`
GIVEN = ("set", "put", "write", "value", "input", "gives", "given", "receive", "rx")


def told(names):
    """Names as a sentence lists them, or that there is none."""
    shown = ", ".join(f"`{name}`" for name in names[:MOST_TOLD])
    return Phrase((shown + (" and others" if len(names) > MOST_TOLD else "")) or "none")


def hardware(app):
    """The hardware tasks."""
    return [task for task in app.tasks if task.binds]


def locals_of(task):
    """The names of a task's local resources."""
    return [token.text for token in task.local]


def owner(app, name):
    """The body that lists a local resource, as a sentence calls it; or none."""
    return next((body for body in app.bodies if name in locals_of(body)), None)


def board_line(app, number, source, lines, size, table, takes):
    """What is wrong with the last of these lines of a board that is refused with this number."""
    said, words = Line(source), words_with_places(source)
    if number == 1:
        said.cause, said.helps = table.cause("board 1", A=Phrase(f"{size:,}")), [table.mending("board 1")]
    elif number > 7 or number == 7 and chips.is_of_chip(words):
        chips.chip_line(app, said, number, words, lines, table)
    elif number == 2 and chips.is_of_chip(words) and source == source.strip(" \t\r"):
        chips.bad_line(said, words, takes)
    elif number == 2:
        bad_line(app, said, words, table)
        names = {"T": [task.name.text for task in hardware(app)],
                 "R": [name for task in hardware(app) for name in locals_of(task)]}
        write(said, ("input T R",), names, takes)
    elif number in (3, 4):
        wrong_task(app, said, number, words[1], table)
    elif number in (5, 6):
        wrong_local(app, said, number, words[1], words[2], table)
    else:
        first = next(at for at, line in enumerate(lines, 1) if line.split()[-1:] == words[-1:])
        said.at(words[2], table.cause("board 7", N=words[2], A=Phrase(str(first))))
        said.helps = [table.mending("board 7")]
    if said.cause is None:
        said.cause, said.helps = table.cause("board 2"), [table.mending("board 2")]
    return said


def bad_line(app, said, words, table):
    """What is wrong with a line of a board that is of no form."""
    source, forms = said.source, table.mending("board 2")
    if "\t" in source.strip(" \t\r"):
        return said.at("\t", "words are separated by spaces, and this is a tab")
    if source != source.strip(" \t") or source.endswith("\r"):
        return said.at(source.strip(" \t"), "a blank comes before the first word, or after the last")
    if words[0] != "input":
        said.at(words[0], f"no line of a board begins with `{words[0]}`")
        if words[0].startswith(("//", "--", ";", "/*")):
            said.helps = [HASH]
        elif words[0] == "app":
            said.helps = ["an application begins so: it comes first, then the board"]
        elif words[0] == "give" or words[0] in WORDS:
            said.helps = ["a line of a script begins so: the board comes first, then the script"]
        else:
            said.helps = [forms]
    elif len(words) != 3:
        said.at(words[-1] if len(words) < 3 else words[3],
                "the form is `input T R`, with a task and its local resource")
        task_name, _, name = words[-1].rpartition(".")
        task = owner(app, name) if len(words) == 2 else None
        if task and task.binds and task_name in ("", task.name.text):
            said.helps = [f"`{task.name.text}` lists `{name}`"]
    else:
        wrong = next(word for word in words[1:] if not NAME.fullmatch(word))
        said.at(wrong, f"`input` wants the names of a task and of its local resource, and `{wrong}` is none")
    return said


def wrong_task(app, said, number, name, table):
    """The task is not declared, or takes messages."""
    names = [task.name.text for task in hardware(app)]
    said.at(name, table.cause(f"board {number}", N=name))
    said.helps = [table.mending(f"board {number}", T=told(names))]
    if number == 4:
        return
    bound = app.bound_by(name)
    body = owner(app, name)
    if bound:
        said.helps = [f"`{name}` is an interrupt, and the task `{bound.name.text}` binds it"]
    elif body and body.binds:
        said.helps = [f"the task comes first, and `{body.name.text}` lists `{name}`"]
    elif name in ("init", "idle"):
        said.helps.append(f"`{name}` is no task, and no interrupt lets it begin")
    else:
        similar(said, "a task", name, names)


def wrong_local(app, said, number, task_name, name, table):
    """The local resource is not declared, or another body lists it."""
    task = app.task(task_name)
    listed = locals_of(task)
    said.start, said.length = said.source.rfind(name), len(name)
    if number == 6:
        body = owner(app, name)
        whose = f"`{body.name.text}` lists it" if body else "no body lists it"
        said.cause = table.cause("board 6", N=name, T=task_name, W=Phrase(whose))
        said.helps = [table.mending("board 6", N=name, T=task_name)]
        return
    said.cause = table.cause("board 5", N=name)
    said.helps = [table.mending("board 5", T=task_name, R=told(listed))]
    if name in [row[0].text for row in app.shared]:
        said.helps.append(f"`{name}` is a shared resource: a device writes a local one, and the task takes it over")
    else:
        similar(said, "a local resource", name, listed)


def inputs_of(board):
    """The inputs that the lines of a board name."""
    return [line.split()[2] for line in board if line.split()[:1] == ["input"] and len(line.split()) == 3]


def shown_line(app, board, number, source, table):
    """What is wrong with a line of a trace that shows a value, or None where it does not; the board is its lines."""
    said, words = Line(source), source.split(" ")
    if words[1:2] != ["input"] or "" in words or not NUMERAL.fullmatch(words[0]):
        return None
    if len(words) != 4:
        said.cause = "the form is `input R V`, with an input of the board and its value"
    elif number == 4:
        unknown_input(app, said, words[2], inputs_of(board), table)
    elif int(words[0]) >= 1 << 31 or words[0] != str(int(words[0])):
        return None
    elif not NAME.fullmatch(words[2]):
        said.at(words[2], f"`input` wants the name of an input, and `{words[2]}` is none")
    else:
        wrong_value(said, words[3])
    return said


def unknown_input(app, said, name, inputs, table):
    """The board has no input of a name."""
    said.at(name, table.cause("script 6", N=name))
    said.helps = [table.mending("script 6", R=told(inputs))]
    body = owner(app, name)
    if body and body.binds:
        said.helps.append(f"a line `input {body.name.text} {name}` of a board names it")
    else:
        similar(said, "an input", name, inputs)


def given_line(app, board, number, source, table):
    """What is wrong with a line of a script that gives a value, or None where it does not; the board is its lines."""
    said, words = Line(source), words_with_places(source)
    if number == 6:
        unknown_input(app, said, words[1], inputs_of(board), table)
        return said
    if number in (7, 8):
        said.at(words[3], table.cause(f"script {number}", N=words[3]))
        said.helps = [table.mending(f"script {number}", N=words[3], W=" ".join(words[5:]))]
        return said
    is_loose = source != source.strip(" \t\r") or "\t" in source
    if number != 2 or not words or is_loose or words[0] != "give" and words[0].lower() not in ("give", *GIVEN):
        return None
    if words[0] != "give":
        said.at(words[0], f"no line of a script begins with `{words[0]}`")
        said.helps = ["`give R V` gives the device of the input R the value V"]
    elif len(words) != 3:
        said.at(words[-1] if len(words) < 3 else words[3], "the form is `give R V`, with an input and its value")
    elif NUMERAL.fullmatch(words[1]) and NAME.fullmatch(words[2]):
        said.at(words[1], "the input comes first")
        said.helps = ["`give R V` gives the device of the input R the value V"]
    elif not NAME.fullmatch(words[1]):
        said.at(words[1], f"`give` wants the name of an input, and `{words[1]}` is none")
    else:
        wrong_value(said, words[2])
    return said


def due_input(app, board, lines):
    """The sentence on the input that is due behind these lines of a trace, where one is."""
    behind = len(lines)
    while behind > 0 and lines[behind - 1].split(" ")[1:2] == ["input"]:
        behind -= 1
    words = lines[behind - 1].split(" ") if behind else []
    task = app.bound_by(words[2]) if words[1:2] == ["take"] else None
    inputs = [name for name in inputs_of(board) if task and name in locals_of(task)]
    shown = len(lines) - behind
    if shown >= len(inputs):
        return None
    return (f"behind the take come the inputs of `{task.name.text}`, here `{words[0]} input {inputs[shown]} V` with a "
            "value V")


def wrong_value(said, word):
    """A value that is no number of 32 bits."""
    said.at(word, f"`{word}` is no decimal number of 32 bits, which is at most {LARGEST:,} and has no leading zero")
    if NUMERAL.fullmatch(word) and int(word) <= LARGEST:
        said.helps = [f"without zeros in front it is {int(word)}"]
    elif re.fullmatch(r"-\d+", word) and -int(word) <= 1 << 31:
        said.helps = [f"a value has no sign: in two's complement it is `{(1 << 32) + int(word)}`"]
    elif re.fullmatch(r"'.'", word):
        said.helps = [f"a value is a number, and that of this sign is {ord(word[1])}"]
    elif helped := plain_number(word):
        said.helps = [helped]
