"""Refused lines of the limits of `rticx respond`: which word, and what is due."""
from .costs import armed_tasks
from .limits import NAME, is_loose
from .scripts import HASH, NUMERAL, Line, similar, words_with_places, write
from .table import Phrase
from .walk import uses_of

# the forms of lines by their first word, and what each names
FORMS = {"every": "every I N", "tick": "tick N", "delay": "delay T N", "deadline": "deadline X N"}
KINDS = {"every": "an interrupt that a task binds", "delay": "a task that some `spawn_after` names",
         "deadline": "an interrupt that a task binds, or of a software task"}
# what a number of a line is
UNITS = {"every": "core steps", "tick": "core steps", "delay": "ticks", "deadline": "core steps"}
MOST_DIGITS, SHOWN = 9, 12


def names_of(app):
    """The names that stand for the letters of the forms."""
    bound = [task.binds.text for task in app.tasks if task.binds]
    armed = armed_tasks(app, [use for body in app.bodies for use in uses_of(body)])
    software = [task.name.text for task in app.tasks if task.is_software]
    return {"I": bound, "T": [task.name.text for task in armed], "X": bound + software}


def respond_line(app, number, source, lines, size, table, takes):
    """What is wrong with the last of these lines of a limits text that is refused with this number."""
    said = Line(source)
    words = words_with_places(source)
    if number == 1:
        said.cause, said.helps = table.cause("limits 1", A=Phrase(f"{size:,}")), [table.mending("limits beside 1")]
    elif number == 3:
        unknown(app, said, words, table)
    else:
        bad_line(said, words, lines, table)
        write(said, tuple(FORMS.values()), names_of(app), takes)
    if said.cause is None:
        said.cause, said.helps = table.cause("limits 2"), [table.mending("limits beside 2")]
    return said


def bad_line(said, words, lines, table):
    """What is wrong with a line that is of no form, or the second one of its word and name."""
    if is_loose(said):
        return said
    forms = table.mending("limits beside 2")
    word, form = words[0], FORMS.get(words[0])
    if form is None:
        said.at(word, f"no line of limits begins with `{word}`")
        said.helps = [HASH if word.startswith(("//", "--", ";", "/*")) else forms]
        return said
    due = len(form.split())
    if len(words) != due:
        return said.at(words[-1] if len(words) < due else words[due], f"the form is `{form}`")
    if due == 3 and not NAME.fullmatch(words[1]):
        said.at(words[1], f"`{word}` wants the name of {KINDS[word]}, and `{words[1]}` is none")
        if NAME.fullmatch(words[2]) and NUMERAL.fullmatch(words[1]):
            said.helps = ["the name comes first, and then the number"]
    elif not NUMERAL.fullmatch(words[-1]) or len(words[-1]) > MOST_DIGITS:
        said.at(words[-1], f"`{words[-1]}` is no number of one to nine digits")
        said.helps = [f"it is a number of {UNITS[word]}, and has no unit"]
    elif int(words[-1]) == 0:
        said.at(words[-1], f"the least number is 1, and this one is of {UNITS[word]}")
    else:
        first = next(at for at, line in enumerate(lines, 1) if line.split()[: due - 1] == words[: due - 1])
        said.at(words[due - 2], f"`{' '.join(words[: due - 1])}` is said already, in line {first}")
    return said


def unknown(app, said, words, table):
    """The name is of nothing that the line can be about."""
    if words[0] == "tick":
        said.at("tick", "the application has no monotonic, so it has no ticks")
        said.helps = ["`monotonic(binds = I, priority = P);` declares one"]
        return
    name, names = words[1], names_of(app)[FORMS[words[0]].split()[1]]
    told = ", ".join(f"`{one}`" for one in names[:SHOWN]) + (" and others" if len(names) > SHOWN else "")
    said.at(name, f"`{words[0]}` is of {KINDS[words[0]]}, and `{name}` is none")
    said.helps = [table.mending("limits beside 3", I=Phrase(told or "none"))]
    task = app.task(name)
    if task and task.binds and task.binds.text in names:
        said.helps = [f"`{name}` is a task, and binds the interrupt `{task.binds.text}`"]
    else:
        similar(said, "one", name, names)
