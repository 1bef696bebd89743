"""Makes texts that are nearly right: boards, scripts, and traces in which an input is not what it was."""
import re

INPUT = re.compile(r"(\d+) input (\w+) (\d+)")
SIGNS = " \t\r\n#;,.=0159_aZinput\x00\x7f\xe9"
WORDS_OF = {"flash": 2, "ram": 2, "port": 1, "tick": 1, "bits": 1, "word": 2, "call": 1}
CHIP = tuple(WORDS_OF)
ADDRESSES = ("0", "1", "2", "3", "4", "7", "8", "9", "0x", "0x0", "0x00000008", "1024", "0x400", "0x402", "0x10000",
             "0x20000000", "0x20000004", "0x200000000", "0xDFFFFC00", "0xDFFFFFFC", "0xE0000000", "0xE000DFFC",
             "0xE000E000", "0xE000EFFC", "0xE000F000", "0xFFFFFFFC", "4294967292", "4294967296", "16777215", "16777216",
             "0x1G", "0X10", "-4", "+4", "64K")
NUMBERS = ("", "0", "00", "01", "-1", "+1", "0x41", "4294967295", "4294967296", "99999999999", "1.5", "a", "000000001")


def of_board(rng, text, app):
    """A board text that is nearly this one."""
    names = [row.name.decode() for row in (*app.tasks, *app.locals, *app.shared, *app.irqs)]
    other = names + ["nobody", "input", "give", "Input", *CHIP, *ADDRESSES]
    for _ in range(rng.choice((1, 1, 1, 2, 3))):
        text = rng.choice((of_bytes, of_words, of_lines, of_names, of_names, of_names, of_chip))(rng, text, other)
    return text


def of_chip(rng, text, names):
    """A line that says something of a chip is put in, or its numbers are others."""
    lines = text.split("\n")
    form = rng.choice(CHIP)
    words = [form, *(rng.choice(names if form in ("word", "call") and not at else ADDRESSES)
                     for at in range(WORDS_OF[form] + rng.choice((0, 0, 0, 0, 0, 1, -1))))]
    places = [at for at, line in enumerate(lines) if line.split(" ")[0] == form]
    if places and rng.random() < 0.6:
        lines[rng.choice(places)] = " ".join(words)
    else:
        lines.insert(rng.randrange(len(lines) + 1), " ".join(words))
    return "\n".join(lines)


def of_names(rng, text, names):
    """A name behind the first word of a line is another one, or a line of two names comes last."""
    places = [found for found in re.finditer(r"(?<= )\w+", text)]
    if not places or rng.random() < 0.2:
        return f"{text}input {rng.choice(names)} {rng.choice(names)}\n"
    found = rng.choice(places)
    return text[:found.start()] + rng.choice(names) + text[found.end():]


def of_script(rng, text, app, board):
    """A script that is nearly this one; much of it is left out, and a line put in that may be wrong."""
    kept = [line for line in text.splitlines() if rng.random() < 0.5]
    names = [row.name.decode() for row in (*app.tasks, *app.locals, *app.irqs)]
    kept.insert(rng.randrange(len(kept) + 1), line_for_script(rng, app, board, names))
    text = "\n".join(kept) + "\n"
    return rng.choice((of_bytes, of_words, of_lines, as_it_is, as_it_is, as_it_is))(rng, text, names + list(NUMBERS))


def line_for_script(rng, app, board, names):
    """A line of a script that may be wrong: a word for an input or for none, a number of one form or another."""
    local = app.locals[rng.choice(board)[1]].name.decode() if board else "x0"
    irq = rng.choice(app.irqs).name.decode()
    name, number = rng.choice(names), rng.choice(NUMBERS) if rng.random() < 0.5 else str(rng.randrange(1 << 32))
    return rng.choice((
        f"give {local} {number}", f"give {local} {number}", f"give {name} {number}", f"give {name} {number}",
        f"give {local}", "give", f" give {local} {number}", f"give {local} {number} ",
        f"give {local} {number} {number}", f"give  {local}   {number}", f"give\t{local} {number}",
        f"Give {local} {number}", f"give {number} {local}",
        f"device 0 give {local} {number}", f"pend {name}", f"pend {irq} {number[-9:]}", f"step {number[-9:]}",
        f"tick {number[-3:]}", f"device {rng.choice((0, 1, 15, 16, 99))} pend {rng.choice((irq, irq, name))}",
        f"device {rng.choice((0, 15, 16))} pend {irq} {rng.choice((0, 1, 1_000_001))}",
        f"step 1\npend {irq} 1000000", *words_for_script(rng, irq, name, number),
    ))


def words_for_script(rng, irq, name, number):
    """Lines of a device's requests with words that may be wrong."""
    device, times = rng.choice((0, 1, 15, 16)), rng.choice((0, 1, 3, "07", 1_000_001))
    how, other = rng.choice(("from", "seed")), rng.choice((irq, irq, irq, name))
    return (
        f"device {device} pend {other} {times} {how} {number}", f"device {device} pend {other} {times} {how} {number}",
        f"device {device} pend {other} {times} {how} {number}", f"device {device} pend {other} {how} {number}",
        f"device {device} pend {irq} {times} {how}", f"device {device} pend {irq} {times} {name} {number}",
        f"device  {device}  pend {irq}   {times} {how} {number}", f"device {device} pend {irq} {times} {how} 5 5",
        f"device {device} give {irq} {times} {how} 5", f"pend {irq} {times} {how} 5",
    )


def as_it_is(rng, text, names):
    """Nothing is changed."""
    return text


def of_bytes(rng, text, names):
    """A byte is left out, put in or changed."""
    at = rng.randrange(len(text) + 1)
    return text[:at] + rng.choice(("", rng.choice(SIGNS))) + text[at + rng.randrange(2):]


def of_words(rng, text, names):
    """A word is another one, is twice there, or is left out."""
    places = list(re.finditer(r"[^\s]+", text))
    if not places:
        return rng.choice(names)
    found = rng.choice(places)
    new = rng.choice((rng.choice(names), rng.choice(names), found[0] + " " + found[0], "", found[0].upper()))
    return text[:found.start()] + new + text[found.end():]


def of_lines(rng, text, names):
    """A line is twice there, elsewhere, or left out."""
    lines = text.split("\n")
    at, to = rng.randrange(len(lines)), rng.randrange(len(lines) + 1)
    line = lines[at] if rng.random() < 0.6 else lines.pop(at)
    if rng.random() < 0.7:
        lines.insert(min(to, len(lines)), line)
    return "\n".join(lines)


class Trace:
    """A trace whose inputs are changed; `inputs` are the numbers of their lines."""

    def __init__(self, rng, text, app, board):
        self.rng, self.lines = rng, text.splitlines()
        self.inputs = [at for at, line in enumerate(self.lines) if INPUT.fullmatch(line)]
        self.named = [app.locals[local].name.decode() for _, local in board]
        self.others = [row.name.decode() for row in (*app.locals, *app.shared, *app.tasks)] + ["nobody", "1x", ""]

    def changed(self, kind):
        """The trace after a change of this kind, as text."""
        lines, at = list(self.lines), self.rng.choice(self.inputs)
        step, name, value = INPUT.fullmatch(lines[at]).groups()
        getattr(self, kind)(lines, at, step, name, value)
        return "\n".join(lines) + "\n"

    def dropped(self, lines, at, step, name, value):
        """The line of an input is left out."""
        del lines[at]

    def doubled(self, lines, at, step, name, value):
        """It is twice there."""
        lines.insert(at, lines[at])

    def moved(self, lines, at, step, name, value):
        """It stands elsewhere."""
        to = self.rng.choice((at - 1, at + 1, self.rng.randrange(len(lines))))
        lines.insert(min(max(to, 0), len(lines) - 1), lines.pop(at))

    def other_value(self, lines, at, step, name, value):
        """It has another value, or none."""
        new = self.rng.choice((int(value) ^ 1, int(value) + 1, self.rng.randrange(1 << 32), 1 << 32, "00", "", "-1"))
        lines[at] = f"{step} input {name} {new}"

    def other_step(self, lines, at, step, name, value):
        """It has another step."""
        new = self.rng.choice((int(step) + 1, max(int(step) - 1, 0), 0, (1 << 31) - 1, 1 << 31, "0" + step))
        lines[at] = f"{new} input {name} {value}"

    def other_name(self, lines, at, step, name, value):
        """It has another name."""
        lines[at] = f"{step} input {self.rng.choice(self.named + self.others)} {value}"

    def other_form(self, lines, at, step, name, value):
        """It is of no form, or of one that is not right."""
        lines[at] = self.rng.choice((
            f"{step} input {name}", f"{step} input {name} {value} {value}", f"{step} input",
            f"{step}  input {name} {value}", f"{step} Input {name} {value}", f"{step} input {value} {name}",
            f"{step} input {name} {value} ", f"{step} give {name} {value}", f"{step} input {name} {value}\r",
        ))

    def without_its_take(self, lines, at, step, name, value):
        """The take before it is left out."""
        while at > 0 and " take " not in lines[at]:
            at -= 1
        del lines[at]

    def added(self, lines, at, step, name, value):
        """An input stands where none may be due."""
        to = self.rng.randrange(len(lines))
        lines.insert(to, f"{lines[to].split(' ')[0]} input {self.rng.choice(self.named)} {value}")

    def cut_off(self, lines, at, step, name, value):
        """The trace ends with it, or before it."""
        del lines[at + self.rng.randrange(2):]


CHANGES = ("dropped", "doubled", "moved", "other_value", "other_step", "other_name", "other_form", "without_its_take",
           "added", "cut_off")
