#!/usr/bin/env python3
"""Whether executables do on an emulated board, one machine instruction at a time, what their applications do in the
model.

    run.py RTICX SEED RUNS APP..
    run.py RTICX SEED RUNS planted APP..

RTICX is the program `rticx`, or another with the same words. Of each application the executable that `RTICX native`
makes for QEMU's mps2-an386 runs there RUNS times (stepped.py), with requests of its interrupts, and ticks, before
machine instructions that SEED chooses: rather before those at which no run was preempted yet. What was seen has to be
the trace that `RTICX run` gives for the script of the events that were found, line by line. An entry may be less deep
than in the model, where it meets the first or the last instructions of a handler, or where the application asks for
floating point, whose registers the code never uses.

The board has 32 lines: numbers of interrupts are put into their order first, so 32 declared ones fit, and an
application with more is passed over. Told are the applications that differ; how often each machine instruction of each
kind of image instruction was preempted, and those that never were; and all counts. Ends with 1 where an application
differs, or a machine instruction was never preempted that can be.

With `planted` each fault of planted.py is planted into the executables, one application after the other, until a run
differs. Ends with 1 where no run shows a fault.
"""
import pathlib
import random
import re
import subprocess
import sys
import tempfile
from collections import Counter

from emulator import CHIP, PC
from listing import Image
from planted import FAULTS, with_changes
from program import Program
from stepped import Lost, Run

LINES = 32
# Machine instructions, of a run at least; requests of a run at most; and how likely one is, before any instruction,
# where the core waits, and before an instruction at which no run was preempted yet.
LENGTHS, MOST_REQUESTS, OFTEN, ASLEEP, FIRST = (200, 400, 700), 60, 0.02, 0.4, 0.4
# With planted faults: how long runs are, and for how many machine instructions from a changed one on a request is
# wanted.
LONG, NEAR = (2000,), 12
# What runs with all interrupts masked: no request is taken before these.
MASKED = {("unmask", 0), ("unmask", 1), ("serve", 0)}


def numbered(text):
    """An application whose interrupts have the numbers from 0 on, in the order of those that it declares; None where
    they are too many."""
    found = re.search(r"interrupts\s*\{([^}]*)\}", text)
    rows = re.findall(r"(\w+)\s*=\s*(\d+)", re.sub(r"//[^\n]*", "", found[1]))
    numbers = sorted({int(number) for _, number in rows})
    if len(numbers) > LINES:
        return None
    if numbers[-1:] < [LINES]:
        return text
    listed = ", ".join(f"{name} = {numbers.index(int(number))}" for name, number in rows)
    return text[:found.start(1)] + " " + listed + " " + text[found.end(1):]


class Application:
    """An application with its image and its executable, in a folder."""

    def __init__(self, rticx, text, folder, board=CHIP):
        self.rticx, self.folder = rticx, pathlib.Path(folder)
        for name, told in (("app", text), ("board", board), ("script", "step 1\n")):
            self.path(name).write_text(told)
        self.image = Image(self.told("run", "script"))
        words = [rticx, "native", self.path("app"), self.path("board")]
        self.take(subprocess.run(words, stdout=subprocess.PIPE, check=True).stdout)

    def take(self, data, moved=None):
        """Its executable, in which a planted fault may have moved commits."""
        self.data, self.program = data, Program(data, self.image, moved)
        self.path("executable").write_bytes(data)

    def path(self, name):
        """A file of this name."""
        return self.folder / name

    def told(self, command, name):
        """What RTICX writes of the application, the board, and the file of this name."""
        words = [self.rticx, command, self.path("app"), self.path("board"), self.path(name)]
        return subprocess.run(words, capture_output=True, text=True, check=True).stdout

    def modelled(self, script):
        """The trace of a script in the model."""
        self.path("script").write_text(script)
        return self.told("run", "script").partition("\ntrace\n")[2].split("\n")[:-1]


def requests_before(rng, run, is_wanted):
    """What is requested before the next instruction: names of interrupts, None for a tick."""
    irqs, enabled = run.image.irqs, run.image.enabled()
    if rng.random() < (ASLEEP if run.is_asleep() else OFTEN):
        return [rng.choice([*irqs, *[None] * run.image.has_alarm() * len(irqs)] or [None])]
    if not run.masked and not run.in_tick and is_wanted(run) and rng.random() < FIRST:
        return [rng.choice([None, *(irq.name for irq in [*enabled[:1], *enabled])])]
    return []


def run_once(rng, application, is_wanted, lengths=LENGTHS):
    """One run, in which requests come rather where they are wanted, and its first difference from the model or None."""
    run, length = Run(application.program, application.path("executable")), rng.choice(lengths)
    try:
        while run.executed < length or run.in_tick:
            if run.requests < MOST_REQUESTS:
                for name in requests_before(rng, run, is_wanted):
                    run.request(name)
            run.step()
        return run, difference(run, application.modelled(run.script()))
    except Lost as fault:
        return run, f"lost behind {run.steps} steps: {fault}"
    finally:
        run.close()


def difference(run, model):
    """The first line that differs from the model's, or None; entries that are less deep are counted."""
    for at, (seen, wanted) in enumerate(zip(run.trace(), model)):
        if seen == wanted:
            continue
        *front, depth = seen.split()
        *same, deeper = wanted.split()
        if front[1:2] != ["take"] or front != same or int(depth) > int(deeper):
            return f"line {at + 1}: board {seen}, model {wanted}"
        run.shallow += 1
    return None if len(run.trace()) == len(model) else f"{len(run.trace())} lines, model {len(model)}"


def shown(preempted, lengths):
    """A line for each kind: how often each of its machine instructions was preempted; and those that never were."""
    never = []
    for kind in sorted(lengths):
        counts = [preempted[kind, index] for index in range(lengths[kind])]
        print(f"  {kind:8}", *("masked" if (kind, at) in MASKED else count for at, count in enumerate(counts)))
        never += [f"{kind} {at}" for at, count in enumerate(counts) if not count and (kind, at) not in MASKED]
    return never


def applications(rticx, seed, paths, sums):
    """The applications that the board can run, each with its path and its chances."""
    for path in paths:
        text = numbered(pathlib.Path(path).read_text(encoding="ascii"))
        if text is None:
            sums["passed over"] += 1
            continue
        sums["applications"] += 1
        with tempfile.TemporaryDirectory() as folder:
            yield path, random.Random(f"{seed} {path}"), Application(rticx, text, folder)


class Near:
    """Whether a request is wanted at a changed instruction, or soon behind one: one, since a second one may hide what
    the first one has shown."""

    def __init__(self, changes):
        self.changes, self.requests, self.until, self.rests = changes, 0, 0, 0

    def __call__(self, run):
        if run.requests > self.requests:
            self.requests, self.until, self.rests = run.requests, 0, run.executed + NEAR
        if run.now[PC] in self.changes and run.executed >= self.rests:
            self.until = run.executed + NEAR
        return run.executed < self.until


def first_seen(fault, rticx, seed, runs, paths):
    """The first run in which a planted fault is seen: how many there were, and what was seen, None for nothing."""
    count = 0
    for path, rng, application in applications(rticx, seed, paths, Counter()):
        made = FAULTS[fault](application.program)
        if not made[0]:
            continue
        changes, moved = made
        application.take(with_changes(application, changes), moved)
        for _ in range(runs):
            count += 1
            _, wrong = run_once(rng, application, Near(changes), LONG)
            if wrong:
                return count, f"{path}: {wrong}"
    return count, None


def seen_all(rticx, seed, runs, paths):
    """Whether each planted fault is seen, with a line for each."""
    missed = 0
    for fault in FAULTS:
        count, seen = first_seen(fault, rticx, seed, runs, paths)
        missed += seen is None
        told = f"seen in run {count}: {seen}" if seen else f"not seen in {count} runs"
        print(f"planted {fault}: {told}", flush=True)
    return 1 if missed else 0


def main(words):
    """Ends with 1 where an application differs, an instruction was never preempted, or a fault was not seen."""
    rticx, seed, runs, *paths = words
    if paths[:1] == ["planted"]:
        return seen_all(rticx, seed, int(runs), paths[1:])
    preempted, sums, lengths = Counter(), Counter(), {"take": 2}
    for path, rng, application in applications(rticx, seed, paths, sums):
        for number, index in application.program.what.values():
            kind = application.image.code[number].word
            lengths[kind] = max(lengths.get(kind, 0), index + 1)
        for _ in range(int(runs)):
            run, wrong = run_once(rng, application, lambda run: not preempted[run.program.kind_at(run.now[PC])])
            preempted += run.preempted
            sums.update({"runs": 1, "machine instructions": run.executed, "core steps": run.steps,
                         "requests and ticks": run.requests, "interrupts taken": run.takes,
                         "of these less deep": run.shallow, "different": wrong is not None})
            if wrong:
                print(f"{path}: {wrong}", flush=True)
    print("preempted before each machine instruction of each kind:")
    never = shown(preempted, lengths)
    print("never preempted:", ", ".join(never) or "none")
    print(", ".join(f"{count} {name}" for name, count in sums.items()))
    return 1 if sums["different"] or never else 0


if __name__ == "__main__":
    sys.exit(main(sys.argv[1:]))
