"""The commands of `rtic` as data, each with texts on which it ends with 0, and what its whole right answer is."""
import re
import sys
from collections import namedtuple

from starting import ROOT

sys.path.append(str(ROOT / "bench"))
import texts

# An application with handlers on three levels, a device, messages, and a timer with handles; in `examples` beside it
# are its scripts.
TIMED = (ROOT / "examples" / "timeout.rtic").read_bytes()
SCRIPT = (ROOT / "examples" / "timeout.script").read_bytes()
STATION = (ROOT / "examples" / "station.rtic").read_bytes()
TANK = (ROOT / "examples" / "tank.rtic").read_bytes()
LIMITS = (ROOT / "examples" / "tank.limits").read_bytes()
LATE = (ROOT / "examples" / "late.rtic").read_bytes()
TRACE = (ROOT / "examples" / "late.trace").read_bytes()
DEVICES = b"device 0 pend UART0 20\ndevice 1 pend GPIOA 20\ndevice 2 pend QEI0 20\nstep 500\ntick 100\nstep 500\n"
# In place of a text: what `build` writes of an application.
IMAGES = {"image": TANK}

# `texts` are what the words in `files` hold, `numbers` the words after them. `free` says that the trace is free: which
# pends meet, and at which step they come. `whole` is the status of the whole answer.
Command = namedtuple("Command", "word files texts numbers free whole", defaults=((), False, 0))

COMMANDS = [
    Command("run", ("app", "script"), (TIMED, SCRIPT)),
    Command("check", ("app",), (TIMED,)),
    Command("fmt", ("app",), (TIMED,)),
    Command("build", ("app",), (TIMED,)),
    Command("audit", ("app", "trace"), (LATE, TRACE)),
    Command("live", ("app", "script"), (STATION, DEVICES), free=True),
    Command("soak", ("app",), (TIMED,), ("7", "3", "2")),
    Command("demo", (), (), ("12",)),
    Command("deepest", ("app",), (TANK,)),
    Command("times", ("app", "limits"), (TANK, LIMITS)),
    Command("verify", ("image",), ("image",)),
    # no command: the usage line
    Command("help", (), (), whole=2),
    Command("pair", ("app", "second", "script"), (STATION, STATION, b"pend GPIOA 3\nstep 200\n"), free=True),
]

# The same commands on an application of so many bytes, which takes far more memory than a usage line.
LARGE_BYTES = 16_000
LARGE_TEXT = texts.hardware(LARGE_BYTES).encode()
IMAGES["large image"] = LARGE_TEXT
PENDS = b"pend I0 3\npend I31\nstep 400\n"
LARGE = [
    Command("run", ("app", "script"), (LARGE_TEXT, PENDS)),
    Command("check", ("app",), (LARGE_TEXT,)),
    Command("fmt", ("app",), (LARGE_TEXT,)),
    Command("build", ("app",), (LARGE_TEXT,)),
    Command("audit", ("app", "trace"), (LARGE_TEXT, b"")),
    Command("live", ("app", "script"), (LARGE_TEXT, b"device 0 pend I0 9\ndevice 1 pend I31 9\nstep 400\n"),
            free=True),
    Command("soak", ("app",), (LARGE_TEXT,), ("7", "3", "2")),
    Command("demo", (), (), ("48",)),
    Command("deepest", ("app",), (LARGE_TEXT,)),
    Command("times", ("app", "limits"), (LARGE_TEXT, b"every I0 100000\n")),
    Command("verify", ("image",), ("large image",)),
    Command("pair", ("app", "second", "script"), (LARGE_TEXT, LARGE_TEXT, PENDS), free=True),
]


class Ready:
    """A command whose files are written, and its undisturbed answer."""

    def __init__(self, command, starter):
        self.command, self.starter = command, starter
        # the files of another set of commands stay as they are
        front = f"{command.word}-{starter.starts}"
        paths = [starter.write(f"{front}-{name}", self.text(text)) for name, text in
                 zip(command.files, command.texts)]
        self.words = [command.word, *paths, *command.numbers]
        self.answer = starter.ended(self.words)

    def text(self, text):
        """A text, or the listing of an image that is named in its place."""
        if text not in IMAGES:
            return text
        return self.starter.ended(["build", self.starter.write("imaged", IMAGES[text])]).output

    @property
    def is_built(self):
        """Whether the program knows the command: it writes its usage line for one that it does not."""
        return self.answer.status == self.command.whole

    def is_whole(self, ended):
        """Whether an end is the whole right answer."""
        if ended.status != self.answer.status or ended.error:
            return False
        return self.is_free_answer(ended.output) if self.command.free else ended.output == self.answer.output

    def is_free_answer(self, output):
        """Whether an output whose trace is free is whole: the listing and the total are the same, each pend is counted
        once, and the trace of the first core is a run of its application."""
        if fixed(output) != fixed(self.answer.output):
            return False
        if self.command.word != "live":
            return True
        path = self.starter.write("audited", output)
        return self.starter.ended(["audit", *self.words[1:-1], path]).status == 0

    def is_beginning(self, taken):
        """Whether bytes are a beginning of the whole answer, as far as that is fixed."""
        if self.command.free:
            front = self.answer.output.split(b"trace\n")[0] + b"trace\n"
            return taken.startswith(front) or front.startswith(taken)
        return self.answer.output.startswith(taken)


def fixed(output):
    """What of an output is the same however the pends of devices meet: the listings, the totals, and of each line of an
    account the sum of what was raised and merged."""
    kept = []
    for line in output.splitlines():
        row = re.fullmatch(rb"(account \S+) (\d+) (\d+) (\d+) (\d+)", line)
        if row:
            raised, merged, latched, left = map(int, row.groups()[1:])
            kept.append((row[1], raised + merged, latched - raised, left))
        elif not re.match(rb"\d+ ", line):
            kept.append(line)
    return kept


def named(words, commands):
    """Those of some commands that have one of these words; all, where none is given."""
    return [command for command in commands if not words or command.word in words]


def built(starter, chosen=COMMANDS):
    """The commands that the program knows, ready, and the words of the others."""
    ready = [Ready(command, starter) for command in chosen]
    return [each for each in ready if each.is_built], [each.command.word for each in ready if not each.is_built]
