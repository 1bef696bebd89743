"""Compares `run` and `audit` of a program that takes boards with the reference, on what is made by chance."""
import collections
import os
import random
import subprocess
import tempfile
from pathlib import Path

from rticref import codegen, judge, rules

from . import applications, judging, mutating, programs, running, texts

LONGEST = 120
SHOWN = 20
# boards and scripts that are tried on one application
EACH = 50


class Compared:
    """A program and its differences from the reference; what differs is kept in a folder of its own."""

    def __init__(self, program, some, seed):
        self.program, self.some, self.seed = os.path.abspath(program), some, seed
        self.folder = tempfile.TemporaryDirectory(prefix="rtic-inputs-")
        self.counts, self.differences = collections.Counter(), 0

    def told(self, command, *parts):
        """The status and the output of a command on texts; no status where it does not end in time."""
        paths = [Path(self.folder.name, str(at)) for at in range(len(parts))]
        for path, part in zip(paths, parts):
            path.write_bytes(part)
        self.counts["starts"] += 1
        try:
            done = subprocess.run([self.program, command, *map(str, paths)], stdin=subprocess.DEVNULL,
                                  capture_output=True, timeout=LONGEST, check=False)
        except subprocess.TimeoutExpired:
            return None, b""
        return done.returncode, done.stdout + done.stderr

    def differs(self, what, wanted, found, *parts):
        """Whether an answer is another one; it is told then, and the texts are kept."""
        if wanted == found:
            return False
        self.differences += 1
        if self.differences <= SHOWN:
            kept = tempfile.mkdtemp(prefix="rtic-inputs-differs-")
            for at, part in enumerate(parts):
                Path(kept, str(at)).write_bytes(part)
            print(f"{what} in {kept}: wanted {told_short(wanted)}, found {told_short(found)}", flush=True)
        return True

    # Runs, and traces that are nearly theirs.

    def runs(self, count, changes):
        """So many runs, each audited, and as many changes of each of their traces."""
        rng = random.Random(self.seed)
        for text, app in applications.applications(rng, self.some, count):
            board_text = applications.board_of(rng, app).encode()
            board = texts.read_board(board_text, app)
            script = applications.script_of(rng, app, board, self.some.events(rng, App(app))).encode()
            trace = self.run(text.encode(), app, board_text, script)
            self.counts["runs"] += 1
            if trace is not None:
                self.traces(rng, text.encode(), app, board_text, trace, changes)

    def run(self, text, app, board_text, script_text):
        """A run whose image, trace and judgement are as they should be; the trace, or none where there is another."""
        board = texts.read_board(board_text, app)
        script = texts.read_script(script_text, app, board)
        status, output = self.told("run", text, board_text, script_text)
        parts = (text, board_text, script_text, output)
        if self.differs("run: the status", 0, status, *parts):
            return None
        listing, _, trace = output.partition(b"\ntrace\n")
        image, wrong = judge.image_of(app, listing + b"\n")
        if self.differs("run: the image", [], wrong or judge.check_image(app, image), *parts):
            return None
        items, total = running.run(image, app, board, script)
        self.counts["inputs"] += sum(what[0] == running.INPUT for _, what in items)
        self.counts["items"] += len(items)
        wanted = running.text_of(items, total, app)
        if self.differs("run: the trace", wanted, trace, *parts):
            return None
        self.differs("the reference on its own trace", (0, b"yes %d\n" % len(items)),
                     judging.audit(trace, app, board), text, board_text, trace)
        return trace

    def traces(self, rng, text, app, board_text, trace, changes):
        """The audit of a run's trace, with a yes, and of so many traces that are nearly it."""
        board = texts.read_board(board_text, app)
        self.audit("yes", text, app, board_text, board, trace)
        nearly = mutating.Trace(rng, trace.decode(), app, board)
        for _ in range(changes if nearly.inputs else 0):
            kind = rng.choice(mutating.CHANGES)
            self.audit(kind, text, app, board_text, board, nearly.changed(kind).encode("latin-1"))

    def audit(self, kind, text, app, board_text, board, trace):
        """An audit answers what the judge of this folder answers."""
        try:
            wanted = judging.audit(trace, app, board)
        except texts.Refused as refused:
            wanted = 3, str(refused).encode()
        self.differs(f"audit: {kind}", wanted, self.told("audit", text, board_text, trace), text, board_text, trace)
        self.counts["audits, " + {0: "right", 3: "refused", 4: "wrong"}[wanted[0]]] += 1

    # Runs beside devices in threads.

    def lives(self, count):
        """So many runs of `live`, each judged."""
        rng = random.Random(self.seed + 3)
        for text, app in applications.applications(rng, self.some, count):
            board_text = applications.board_of(rng, app).encode()
            board = texts.read_board(board_text, app)
            script = applications.script_of(rng, app, board, self.some.events(rng, App(app))).encode()
            self.live(text.encode(), app, board_text, script)
            self.counts["lives"] += 1

    def live(self, text, app, board_text, script_text):
        """What `live` writes is one of the texts that may be written: the image is as the language fixes it, the trace
        is right with its words, and each request of a device is counted once."""
        board = texts.read_board(board_text, app)
        script = texts.read_script(script_text, app, board)
        status, output = self.told("live", text, board_text, script_text)
        parts = (text, board_text, script_text, output)
        if self.differs("live: the status", 0, status, *parts):
            return
        listing, _, trace = output.partition(b"\ntrace\n")
        image, wrong = judge.image_of(app, listing + b"\n")
        self.differs("live: the image", [], wrong or judge.check_image(app, image), *parts)
        trace, _, account = trace.partition(b"account ")
        items, total = judging.read_trace(trace, app, board)
        self.differs("live: the trace", (0, b"yes %d\n" % len(items)), judging.audit(trace, app, board), *parts)
        own = sum(row[1] for row in script if row[0] == "step")
        self.differs("live: the total", 2 * own, total, *parts)
        found = {what[1:] for _, what in items if what[0] == running.INPUT}
        self.counts["inputs, live"] += len(found)
        self.differs("live: the words", set(), found - running.words_of(script, board), *parts)
        self.differs("live: the account", running.requests_of(script, app), running.counted(account), *parts)

    # Executables.

    def natives(self, count):
        """So many texts that are boards or nearly are: each is refused with the right words, or gives an executable."""
        rng = random.Random(self.seed + 4)
        for text, app in applications.applications(rng, self.some, -(-count // EACH)):
            image, right = codegen.build(app), applications.board_of(rng, app)
            for _ in range(min(EACH, count - self.counts["natives"])):
                board = applications.board_of(rng, app) if rng.random() < 0.5 else mutating.of_board(rng, right, app)
                self.counts["natives"] += 1
                self.native(text.encode(), app, image, board.encode("latin-1"))

    def native(self, text, app, image, board_text):
        """A board is refused rightly, or what does not fit; else the executable lies in its memories."""
        status, output = self.told("native", text, board_text)
        try:
            _, chip = texts.read_target(board_text, app)
            programs.judge(image, chip, lambda number: texts.refused_at(board_text, number))
        except texts.Refused as refused:
            self.counts["native, refused " + str(refused).split(" ")[1]] += 1
            self.differs("native", (3, str(refused).encode()), (status, output), text, board_text)
            return
        need = programs.flash_bytes(output) if status == 0 else self.flash_bytes(text, app, chip)
        size = chip.said["flash"]["size"]
        if need is None:
            self.counts["native, passed over"] += 1
        elif need > size:
            self.counts["native, refused 20"] += 1
            wanted = str(texts.refused_at(board_text, 20)).encode()
            self.differs("native", (3, wanted), (status, output), text, board_text)
        else:
            self.counts["native, written"] += 1
            wrong = programs.faults_of(output, image, chip) if status == 0 else [f"status {status}"]
            self.differs("native", [], wrong, text, board_text)

    def flash_bytes(self, text, app, chip):
        """How many bytes of flash a program takes: as on a chip with much of it, the rest as it is."""
        board = b"".join(b"input %s %s\n" % (app.tasks[task].name, app.locals[local].name)
                         for task, local in applications.candidates(app)) + chip.text(1 << 22)
        status, output = self.told("native", text, board)
        return programs.flash_bytes(output) if status == 0 else None

    # Texts that are nearly boards or scripts.

    def boards(self, count):
        """So many texts that are nearly boards, each refused with the words of this folder's reader, or run."""
        rng = random.Random(self.seed + 1)
        for text, app in applications.applications(rng, self.some, -(-count // EACH)):
            right = applications.board_of(rng, app)
            script = "".join(f"pend {irq.name.decode()}\n" for irq in app.irqs) + "step 60\n"
            for _ in range(min(EACH, count - self.counts["boards"])):
                nearly = mutating.of_board(rng, right, app).encode("latin-1")
                self.refused("boards", text.encode(), app, nearly, script.encode())

    def scripts(self, count):
        """So many texts that are nearly scripts, in the same way."""
        rng = random.Random(self.seed + 2)
        for text, app in applications.applications(rng, self.some, -(-count // EACH)):
            board_text = applications.board_of(rng, app).encode()
            board = texts.read_board(board_text, app)
            right = applications.script_of(rng, app, board, "step 3\ntick 2\npend I0\nstep 40\n")
            for _ in range(min(EACH, count - self.counts["scripts"])):
                nearly = mutating.of_script(rng, right, app, board).encode("latin-1")
                self.refused("scripts", text.encode(), app, board_text, nearly)

    def refused(self, kind, text, app, board_text, script_text):
        """Texts of which one may be wrong are refused with the right words, or run."""
        self.counts[kind] += 1
        try:
            texts.read_script(script_text, app, texts.read_board(board_text, app))
        except texts.Refused as refused:
            self.counts[f"{kind}, refused"] += 1
            self.counts["refused, " + str(refused).split(":")[0] + " " + str(refused).split(" ")[1]] += 1
            self.differs(kind, (3, str(refused).encode()), self.told("run", text, board_text, script_text),
                         text, board_text, script_text)
        else:
            self.run(text, app, board_text, script_text)


class App:
    """The interrupts' names, as `rtic-some` wants them for a script."""

    def __init__(self, app):
        self.irqs = [irq.name.decode() for irq in app.irqs]


def told_short(answer):
    """An answer, cut to a line."""
    shown = repr(answer)
    return shown if len(shown) <= 160 else shown[:158] + ".."


def answered(command, app_text, board_text, third):
    """The status and the output of `run` or `audit` by the reference itself; the image is its own too."""
    from rticref import cli_front, codegen, core
    from rticref.app import Refused
    try:
        app = rules.accept(app_text)
        board = texts.read_board(board_text, app)
        if command == "audit":
            return judging.audit(third, app, board)
        script = texts.read_script(third, app, board)
    except Refused as refused:
        return 1, cli_front.refusal_line(refused.fault)
    except texts.Refused as refused:
        return 3, str(refused).encode()
    image = codegen.build(app)
    return 0, core.listing(image) + b"trace\n" + running.text_of(*running.run(image, app, board, script), app)
