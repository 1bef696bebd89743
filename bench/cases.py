#!/usr/bin/env python3
"""Writes the cases of machine_cases: images with scripts, and what an independent core makes of them.

    python3 cases.py REFERENCE CRATE

REFERENCE is the folder that has the package `rticref`, an implementation of the core in Python; CRATE, which is
crates/machine_cases, takes data/cores, and the stdout that is wanted of all its cases. The images are those of
cases.txt beside this file, one for each way to miss a slot, and some made by chance.

An image of cases.txt is a line `= NAME`, lines of its parts, and a line `script:`. A part is `bits N`, `fpu` for a core
with extended frames, `stack N` (bytes), `thread N` (words), `cell VALUE NAME`, `iN -` for an interrupt that is not
enabled, or a block of code: `main:` for the thread, `iN VALUE FRAME:` for a handler, `tN FRAME ARGS:` for a body.
Instructions and script lines are between slashes. In a jump `.N` is the N-th instruction of its own block.
"""

import random
import sys
from pathlib import Path

sys.path.insert(0, sys.argv[1])
from rticref import core, script, trace  # noqa: E402
from rticref.app import Names  # noqa: E402

NAMES = Names([(b"i%d" % n, n) for n in range(496)], [b"t%d" % n for n in range(4)], [b"r%d" % n for n in range(3)])
TABLES = core.Tables.of(NAMES)
NOTES = core.NOTE_FORM | core.NOTE_FORM_R17
MAIN = ["serve ; end init", "wait"]
# the cases of parts of the machine, which stand in the program and in no table
PARTS = [
    "the highest interrupt, then the lowest number", "a pend of an active interrupt", "frames of a region",
    "frames on each other", "up to four values of a message",
]
# each names slot 1 of a frame that has one word, the last ones in their notes
NO_SLOT = [
    "set 1 0", "copy 1 0", "copy 0 1", "add 1 0 0", "sub 0 1 0", "mul 0 0 1", "load 1 0", "store 0 1", "loadat 1 0 0",
    "storeat 0 0 1", "jumpz 1 .0", "emit 1", "clock 1", "alarm 1 i0", "raise 1 0", "restore 1", "mask 1", "unmask 1",
    "mark ; cancel t1 1", "mark ; move t1 1 0", "mark ; move t1 0 1",
]


def made_image(parts):
    """The image of parts, each a pair of its words and its instructions."""
    at = {"bits": 4, "thread": 0}
    fpu = (["fpu"], []) in parts
    cells, irqs, bodies, code = [], [], [], []
    main = [part for part in parts if part[0] == ["main"]] or [(["main"], MAIN)]
    for words, lines in main + [part for part in parts if part[0] != ["main"]]:
        start = len(code)
        head, numbers = words[0], words[1:]
        if head in ("bits", "stack", "thread"):
            at[head] = int(numbers[0])
        elif head == "cell":
            cells.append((numbers[1].encode(), int(numbers[0])))
        elif head[0] == "i":
            row = None if numbers == ["-"] else (int(numbers[0]), start, int(numbers[1]))
            irqs.append((head.encode(), int(head[1:]), row))
        elif head[0] == "t":
            bodies.append((int(head[1:]), start, int(numbers[0]), int(numbers[1])))
        for line in lines:
            words = [str(start + int(w[1:])) if w[0] == "." else w for w in line.split()]
            code.append(core._read_code(" ".join(words).encode(), TABLES, NOTES))
    entry = 26 if fpu else 8
    frames = at["thread"] + sum(entry + row[2] for _, _, row in irqs if row) + sum(row[2] for row in bodies)
    stack = at.get("stack", (4 * frames + 7) // 8 * 8)
    return core.Image(at["bits"], stack, at["thread"], cells, irqs, bodies, code, NAMES, fpu)


def read_cases(text):
    """The cases of cases.txt: name, image and script."""
    for case in text.split("\n= ")[1:]:
        name, *lines = [line for line in case.split("\n") if line.strip()]
        parts, orders = [], []
        for line in lines:
            head, _, tail = line.partition(":")
            pieces = [piece.strip() for piece in tail.split("/") if piece.strip()]
            if head == "script":
                orders = pieces
            else:
                parts.append((head.split(), pieces))
        yield name, made_image(parts), orders


def no_slot_cases():
    for instruction in NO_SLOT:
        parts = [(["cell", "0", "r0"], []), (["i0", "240", "1"], [instruction])]
        yield f"no slot for {instruction}", made_image(parts), ["pend i0", "step 4"]


class Chance:
    """Images and scripts made by chance, some of them with extended frames, great numbers and the notes of handles."""

    def __init__(self, seed, extended):
        self.r = random.Random(seed)
        self.extended = extended
        small, great = [0, 1, 7, 31, 32, 63, 64, 200, 224, 239], [0, 31, 239, 240, 255, 256, 287, 288, 494, 495]
        self.numbers = great if extended else small

    def instruction(self, frame, irqs, cells, rows, size):
        """An instruction that mostly finds its slots and cells."""
        r = self.r
        slot = lambda: r.randrange(frame + (r.random() < 0.01)) if frame else 0
        cell = lambda: r.randrange(cells + (r.random() < 0.02)) if cells else 0
        irq = lambda: f"i{r.choice(irqs)}"
        small = lambda: r.choice([0, 0, 1, 2, 3, 5, 4294967295, r.randrange(1 << 32)])
        made = [
            f"set {slot()} {small()}", f"set {slot()} {r.randrange(4)}", f"copy {slot()} {slot()}", f"emit {slot()}",
            f"{r.choice(core.OPS)} {slot()} {slot()} {slot()}", f"jumpz {slot()} .{r.randrange(size)}", f"post {irq()}",
            f"clock {slot()}", f"alarm {slot()} {irq()}", f"post {irq()}", "noalarm",
            f"raise {slot()} {r.randrange(8) * 32}", f"restore {slot()}", f"mask {slot()}", f"unmask {slot()}", "mark",
            "serve",
        ]
        if cells:
            made += [f"load {slot()} {cell()}", f"store {cell()} {slot()}"]
            made += [f"loadat {slot()} 0 {slot()}", f"storeat 0 {slot()} {slot()}"]
        if rows and r.random() < 0.5:
            return f"call {r.randrange(rows)} {slot()}"
        return r.choice(made)

    def note(self, frame, cells, rows):
        r = self.r
        tasks = range(rows) if rows else range(1)
        made = [f"enter {s}" for s in ("r0", "free.t1", "ready.2", "timer.0")]
        made += ["leave free.t0", "leave timer.0", "end idle"]
        made += [f"{kind} t{r.randrange(4)}" for kind in ("ok", "full", "ready", "free", "fire", "end")]
        made += [f"leave r{r.randrange(min(cells, 3))}"] * 3 if cells else []
        made += [f"start t{r.choice(tasks)} 0"] * 2 if rows else []
        made += [f"arm t{r.randrange(4)} {r.randrange(frame)}"] if frame else []
        if self.extended and frame:
            slot = lambda: r.randrange(frame + (r.random() < 0.05))
            made += [f"cancel t{r.randrange(4)} {slot()}", f"move t{r.randrange(4)} {slot()} {slot()}"] * 6
        return r.choice(made)

    def block(self, frame, irqs, cells, rows, last):
        size = self.r.randrange(2, 7)
        lines = [self.instruction(frame, irqs, cells, rows, size) for _ in range(size)]
        notes = [f" ; {self.note(frame, cells, rows)}" if self.r.random() < 0.25 else "" for _ in lines]
        return [line + note for line, note in zip(lines, notes)] + [last]

    def case(self):
        r = self.r
        bits = r.randrange(3, 8)
        irqs = r.sample(self.numbers, r.randrange(1, 5))
        cells, rows, thread = r.randrange(4), r.choice([0, 0, 1, 2]), r.randrange(1, 4)
        parts = [(["bits", str(bits)], []), (["thread", str(thread)], [])] + [(["fpu"], [])] * self.extended
        parts += [(["cell", str(r.randrange(10)), f"r{n}"], []) for n in range(cells)]
        main = self.block(thread, irqs, cells, 0, "wait")
        parts.append((["main"], ["serve ; end init"] + main))
        for irq in irqs:
            frame, value = r.randrange(1, 5), r.randrange(min(8, 1 << bits)) << (8 - bits)
            last = "ret" if r.random() < 0.95 else "back"
            parts.append(([f"i{irq}", str(value), str(frame)], self.block(frame, irqs, cells, rows, last)))
        for row in range(rows):
            frame = r.randrange(1, 4)
            args = r.randrange(min(frame, 2) + 1)
            parts.append(([f"t{row}", str(frame), str(args)], self.block(frame, irqs, cells, 0, "back")))
        orders = []
        for _ in range(r.randrange(4, 10)):
            drawn = [f"step {r.randrange(1, 9)}", f"tick {r.randrange(1, 3)}", f"pend i{r.choice(irqs)}"]
            orders.append(r.choice(drawn))
        return made_image(parts), orders + ["step 12"]


def outcome(image, orders):
    """The items of a script, the core steps, and the stack bytes at its end."""
    made, items = core.Core(image), []
    core.run_events(made, script.events(script.read_script("\n".join(orders).encode(), NAMES)), items.append)
    return items, made.nsteps, made.depth()


def describe(items):
    """What the items of a run made by chance show of: the words of their kinds that not every run has."""
    kinds = {what[0] for _, what in items}
    seldom = ("alarm", "trap", "start", "leave", "clock", "post", "emit", "cancel", "move")
    words = [word for word in seldom if word in kinds]
    took = [(step, what[0]) for step, what in items if what[0] in ("take", "ret")]
    pairs = list(zip(took, took[1:]))
    if any((a[1], b[1]) == ("take", "take") for a, b in pairs):
        words.insert(0, "preemption")
    if any((a[1], b[1]) == ("ret", "take") and b[0] == a[0] + 1 for a, b in pairs):
        words.insert(0, "tail-chaining")
    return ", ".join(words)


def chance_cases(count, extended):
    number, seed, kind = 0, 0, "extended frames, " * extended
    while number < count:
        seed += 1
        image, orders = Chance(seed, extended).case()
        items, _, _ = outcome(image, orders)
        taken = sum(what[0] == "take" for _, what in items)
        kinds = len({what[0] for _, what in items})
        handled = not extended or any(what[0] in ("cancel", "move") for _, what in items)
        if len(image.code) <= 25 and 10 <= len(items) <= 30 and taken >= 2 and kinds >= 6 and handled:
            number += 1
            yield f"by chance, {kind}seed {seed}: {describe(items)}", image, orders


def part(name, text):
    return "".join(f"{name} | {line}\n" for line in text.splitlines())


def written(name, image, orders):
    """The lines of a case: the image, the script, and what the independent core makes of them."""
    items, steps, depth = outcome(image, orders)
    assert len(items) <= 60, name
    lines = "".join(trace.line(item, NAMES).decode() for item in items)
    names = "tasks | t0 t1 t2 t3\nshared | r0 r1 r2\n"
    image = part("image", core.listing(image).decode())
    played = part("script", "\n".join(orders)) + part("trace", lines)
    return f"= {name}\n{names}{image}{played}steps | {steps}\ndepth | {depth}\n\n"


def main():
    crate = Path(sys.argv[2])
    text = Path(__file__).with_name("cases.txt").read_text()
    cases = list(read_cases("\n" + text)) + list(no_slot_cases())
    cases += list(chance_cases(48, False)) + list(chance_cases(12, True))
    assert len({name for name, _, _ in cases}) == len(cases)
    head = "; Written by bench/cases.py: images with scripts, and what an independent core makes of them.\n\n"
    (crate / "data" / "cores").write_text(head + "".join(written(*case) for case in cases))
    told = "".join(f"{name}: ok\n" for name, _, _ in cases)
    for table in ("instructions", "conditions", "listings", "programs", "traces", "scripts"):
        lines = (crate / "data" / table).read_text().splitlines()
        told += "".join(f"{line[2:]}: ok\n" for line in lines if line.startswith("= "))
    (crate / "stdout").write_text(told + "".join(f"{name}: ok\n" for name in PARTS))


main()
