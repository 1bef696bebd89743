#!/usr/bin/env python3
"""Prints the times and the memory of `rticx why` on the longest listings that are known to be slow, beside those of
`rtic verify` on the same ones.

    python3 explaining.py RTICX RTIC FOLDER

RTICX and RTIC are the programs, FOLDER takes the listings. In each listing all handlers but a few come to nearly all of
the code, with as many sections open as may be, and what breaks a rule stands at the last handlers alone: so a search
that goes through the handlers in order finds it last. Times are processor time, in the median of three runs.
"""

import os
import statistics
import subprocess
import sys

TURNS = 3
HANDLERS = 240
MOST_CODE = 65_535
SECTIONS = [f"s{n}" for n in range(16)]
FRONT = ["serve ; end init", "wait"]
# Stores the cell with nothing open.
STORING = ["set 0 1", "store 0 0", "ret"]
# Handlers of these two priority values contend.
LOW, HIGH = 240, 224


def enters(names):
    return [f"mark ; enter {name}" for name in names]


def leaves(names):
    return [f"mark ; leave {name}" for name in reversed(names)]


def inside(names, turn, behind):
    """The longest code that repeats this turn with these sections open, where this much is to stand behind it."""
    room = MOST_CODE - len(FRONT) - 2 * len(names) - 1 - behind
    return FRONT + enters(names) + turn * (room // len(turn)) + leaves(names) + ["ret"]


def listing(code, entries, values):
    """An image of this code and handlers with these entries and priority values."""
    rows = [f"irq I{n} {n} {value} {entry} 4" for n, (entry, value) in enumerate(zip(entries, values))]
    cells = [f"cell {n} 0 {name}" for n, name in enumerate(SECTIONS)]
    lines = [f"image 1 4 4096 0 {len(code)} {len(cells)}", *cells, *rows]
    return "\n".join(lines + [f"code {n} {line}" for n, line in enumerate(code)]) + "\n"


def late(turn, *tails, names=SECTIONS):
    """All handlers come to the long code, but the last ones, each to a tail of its own."""
    code, ends = inside(names, turn, sum(map(len, tails))), []
    for tail in tails:
        ends.append(len(code))
        code += tail
    entries = [len(FRONT)] * (HANDLERS - len(ends)) + ends
    return listing(code, entries, [LOW] * (HANDLERS - 1) + [HIGH])


def without(name):
    """A handler that touches the cell with all sections open but one."""
    names = [other for other in SECTIONS if other != name]
    return [*enters(names), "load 0 0", *leaves(names), "ret"]


def listings():
    """The slow listings, by what is slow in them."""
    load, kept, last = ["load 0 0"], SECTIONS[:14], SECTIONS[15]
    around = [f"mark ; leave {last}", f"mark ; enter {last}", *load]
    raised = [f"raise 1 128 ; enter {SECTIONS[14]}", f"restore 1 ; leave {SECTIONS[14]}"]
    entering = [*enters([last]), *leaves([last]), "ret"]
    pair = [SECTIONS[14], last]
    swapped = [*enters(pair), *load, *leaves(pair), *enters(pair[::-1]), *load, *leaves(pair[::-1])]
    yield "one cell", late(load, STORING)
    yield "one cell, sections entered anew", late(around, STORING)
    yield "one cell, sections in two orders", late(swapped, STORING, names=kept)
    yield "one cell, a handler for each section", late(load, *map(without, reversed(SECTIONS)), STORING)
    yield "a weak section", late(raised, entering, entering, names=kept)
    yield "a wrong slot", late(load, ["set 99 1", "ret"])
    yield "a wrong mask", late(load, ["raise 1 0 ; enter s0", "restore 1 ; leave s0", "ret"])
    yield "a jump past the code", late(load, ["jump 90000"])


def used(words):
    """The processor seconds and the peak memory in KiB of a program."""
    with subprocess.Popen(words, stdout=subprocess.DEVNULL) as child:
        _, status, resources = os.wait4(child.pid, 0)
        child.returncode = os.waitstatus_to_exitcode(status)
    if child.returncode != 4:
        sys.exit(f"{' '.join(words)} ended with status {child.returncode}")
    return resources.ru_utime + resources.ru_stime, resources.ru_maxrss


def main(rticx, rtic, folder):
    for name, text in listings():
        path = os.path.join(folder, "listing")
        with open(path, "w", encoding="ascii") as to:
            to.write(text)
        turns = [(used([rticx, "why", path]), used([rtic, "verify", path])) for _ in range(TURNS)]
        why, verify = (statistics.median(turn[at][0] for turn in turns) for at in (0, 1))
        memory = max(turn[0][1] for turn in turns)
        print(f"{name}: why {why:.2f} s, verify {verify:.2f} s; why takes {memory} KiB", flush=True)


if __name__ == "__main__":
    if len(sys.argv) != 4:
        sys.exit(__doc__)
    main(*sys.argv[1:])
