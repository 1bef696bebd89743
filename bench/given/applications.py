"""Makes applications with inputs by chance, with boards, scripts and texts that are nearly boards or scripts.

The applications are those of `rtic-some` of the reference, which have locks, levels, messages and time as asked for;
hardware tasks get local resources beside what they have, and read and change them.
"""
import re

from rticref import rules
from rticref.app import Refused

FORMS = ("hardware", "software", "timer")
TASK = re.compile(r"(task (h\d+)\()([^()]*)(\)[^{]*\{)(.*)(\})")
FIRST = ("emit {0};", "{0} = {0} + 1;", "if {0} > 3 {{ emit {0}; }} else {{ emit 5; }}",
         "let seen{1} = {0}; emit seen{1} * 3;")
VALUES = (0, 1, 2, 7, 255, 256, 65_535, 2_147_483_647, 2_147_483_648, 4_294_967_295)
COMMENTS = ("", "   ", "\t", "# a comment", "#", "#input h0 x0")


def word(rng):
    """A word of 32 bits."""
    return rng.choice(VALUES) if rng.random() < 0.7 else rng.randrange(1 << 32)


def source(rng):
    """Whence the words of a device's requests come."""
    return f"{rng.choice(('from', 'seed'))} {word(rng)}"


def with_locals(rng, text):
    """An application in which most hardware tasks have one to three more local resources, and use them."""
    lines, declared = text.split("\n"), []
    for at, line in enumerate(lines):
        found = TASK.fullmatch(line)
        if found and rng.random() < 0.8:
            names = [f"x{len(declared) + more}" for more in range(rng.randrange(1, 4))]
            declared += names
            lines[at] = found[1] + listed(found[3], names) + found[4] + used(rng, found[5], names) + found[6]
    if not declared:
        return text
    rows = ", ".join(f"{name} = {rng.randrange(9)}" for name in declared)
    for at, line in enumerate(lines):
        if line.startswith("local {"):
            lines[at] = f"local {{ {rows}, {line[7:]}"
            return "\n".join(lines)
    at = next(at for at, line in enumerate(lines) if line.startswith("shared {"))
    return "\n".join(lines[:at + 1] + [f"local {{ {rows} }}"] + lines[at + 1:])


def listed(options, names):
    """The options of a task that lists more local resources."""
    more = ", ".join(names)
    if "local = [" in options:
        return options.replace("local = [", f"local = [{more}, ")
    return f"{options}, local = [{more}]"


def used(rng, body, names):
    """A body that uses local resources first, and in the place of some of its numbers."""
    def or_local(found):
        return found[1] + rng.choice(names) + found[2] if rng.random() < 0.5 else found[0]

    for form in (r"(\()\d+( )", r"( )\d+(\))", r"(emit )\d+(;)"):
        body = re.sub(form, or_local, body)
    first = [rng.choice(FIRST).format(name, at) for at, name in enumerate(names) if rng.random() < 0.8]
    return " " + " ".join(first) + body


def applications(rng, some, count):
    """So many accepted applications of each form in turn, each with its text; `some` is the module of `rtic-some`."""
    made = 0
    while made < count:
        text = with_locals(rng, some.App(rng, FORMS[made % len(FORMS)]).text)
        try:
            app = rules.accept(text.encode())
        except Refused:
            continue
        if candidates(app):
            made += 1
            yield text, app


def candidates(app):
    """The inputs that a board of an application may have: hardware tasks with their local resources."""
    return [(at, local) for at, task in enumerate(app.tasks) if task.binds is not None for local in task.body.local]


def board_of(rng, app):
    """A board text of some of the inputs, in any order."""
    rows = candidates(app)
    rows = rng.sample(rows, rng.randrange(1, len(rows) + 1)) if rng.random() < 0.95 else []
    lines = []
    for task, local in rows:
        while rng.random() < 0.2:
            lines.append(rng.choice(COMMENTS))
        gap = " " * rng.choice((1, 1, 1, 2, 5))
        lines.append(gap.join(("input", app.tasks[task].name.decode(), app.locals[local].name.decode())))
    for line in chip_of(rng, app, [app.locals[local].name.decode() for _, local in rows]):
        first = 0 if line[0] != "word" else 1 + next(
            at for at, row in enumerate(lines) if row.split()[:1] == ["input"] and row.split()[2] == line[1])
        lines.insert(rng.randrange(first, len(lines) + 1), " ".join(line))
    return ended(rng, lines)


def chip_of(rng, app, inputs):
    """The words of lines that say something of a chip, all that a program takes or a part of it."""
    flash, ram = rng.choice(((0, 0x2000_0000), (0x800_0000, 0x2000_0000), (0x6000_0000, 0x1000_0000)))
    rows = [("flash", number(rng, flash), number(rng, rng.choice((0x400, 0x800, 0x10_0000, 0x40_0000)))),
            ("ram", number(rng, ram + 8 * rng.randrange(2)),
             number(rng, rng.choice((64, 300, 0x4000, 0x4000, 0x4000)))),
            ("port", number(rng, 0x4000_0000 + 4 * rng.randrange(99))), ("bits", str(rng.randrange(app.bits, 9)))]
    rows = rows if rng.random() < 0.8 else rng.sample(rows, rng.randrange(len(rows) + 1))
    rows += [("tick", number(rng, rng.randrange(1, 1 << 24)))] if rng.random() < 0.5 else []
    rows += [("word", name, number(rng, 0x4000_0000 + 4 * rng.randrange(99))) for name in inputs if rng.random() < 0.5]
    return rows + [("call", row.name.decode()) for row in app.irqs if rng.random() < 0.01]


def number(rng, value):
    """A number in one of the forms that it may have."""
    return rng.choice((f"{value}", f"{value:#x}", f"0x{value:08X}", f"0{value}", f"0x{value:010x}"))


def ended(rng, lines):
    """Lines as a text, with one of the ends of a line."""
    end = rng.choice(("\n", "\n", "\n", "\r\n"))
    text = end.join(lines)
    return text + end if rng.random() < 0.8 else text


def script_of(rng, app, board, plain):
    """A script: that of `rtic-some`, with words and requests of the tasks with inputs in between."""
    lines = []
    for line in plain.splitlines():
        lines.append(line)
        while board and rng.random() < 0.35:
            task, local = rng.choice(board)
            irq = app.irqs[app.tasks[task].binds].name.decode()
            if [one for one, _ in board].count(task) == 1 and rng.random() < 0.5:
                lines.append(f"device {rng.randrange(16)} pend {irq} {rng.randrange(5)} {source(rng)}")
            else:
                lines.append(f"give {app.locals[local].name.decode()} {word(rng)}")
                if rng.random() < 0.7:
                    lines.append(f"pend {irq}")
            if rng.random() < 0.5:
                lines.append(f"step {rng.choice((1, 3, 10, 40))}")
    return "\n".join(lines) + "\n"
