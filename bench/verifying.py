#!/usr/bin/env python3
"""Prints the times and the memory of `rtic verify` as handlers and the code that each comes to grow, and on the longest
code: with two sections, with sixteen open, and with all sections that there are.

    python3 verifying.py PROGRAM FOLDER

PROGRAM is rtic, FOLDER takes the listings. All handlers of a listing have one entry, so each comes to all of the code
after it; the listing itself grows with the code alone. A point is an address with one handler that comes to it. What
a listing takes with one handler is taken off, so that the nanoseconds of a point are those of the judge and not of the
reader. Times are processor time, in the median of three turns of the two.
"""

import os
import sys

from timing import peak, processor

TURNS = 3
MOST_HANDLERS = 240
SHORT = 2_000
LONG = 16_000
# Two sections, one in the other, with a branch inside: what a handler that counts looks like, over and over.
ROUND = [
    "mark ; enter outer",
    "load 0 0",
    "jumpz 0 {behind}",
    "mark ; enter inner",
    "set 1 1",
    "add 0 0 1",
    "store 1 0",
    "mark ; leave inner",
    "store 0 0",
    "mark ; leave outer",
]
BRANCH_END = 8
# The longest code, and as many sections as may be open at once.
MOST_CODE = 65_535
MOST_OPEN = 16
# All sections: resources and tasks have 64 names at most, a level is a byte.
NAMES = 64
TASKS = [f"t{n}" for n in range(NAMES)]
SECTIONS = [
    *[f"s{n}" for n in range(NAMES)],
    *[f"free.{name}" for name in TASKS],
    *[f"ready.{n}" for n in range(256)],
    "timer.0",
]
TURN = ["load 0 0", "set 1 1", "add 0 0 1", "store 0 0"]


def two_sections(length):
    """The names of the cells, and about so many instructions behind the two of the thread."""
    code = []
    for _ in range(length // len(ROUND)):
        behind = 2 + len(code) + BRANCH_END
        code += [line.format(behind=behind) for line in ROUND]
    return ["outer", "inner"], [*code, "ret"]


def sixteen_open(length):
    """The same of code that runs with as many sections open as may be."""
    names = SECTIONS[:MOST_OPEN]
    inside = [TURN[n % len(TURN)] for n in range(length - 2 * MOST_OPEN)]
    enters = [f"mark ; enter {name}" for name in names]
    return names, [*enters, *inside, *[f"mark ; leave {name}" for name in reversed(names)], "ret"]


def all_sections(length):
    """The same of code that enters each section there is, one behind the other."""
    code = []
    for turn in range(length // 3):
        name = SECTIONS[turn % len(SECTIONS)]
        code += [f"mark ; enter {name}", f"set 1 {turn}", f"mark ; leave {name}"]
    return SECTIONS[:NAMES], [*code, "ret"]


def listing(handlers, length, shape):
    """An image of so many handlers of one priority value, with about so many instructions that each comes to."""
    names, inside = shape(length)
    code = ["serve ; end init", "wait", *inside]
    rows = [f"irq I{n} {n} 240 2 4" for n in range(handlers)] + [f"body {name} 1 2 0" for name in TASKS]
    cells = [f"cell {n} 0 {name}" for n, name in enumerate(names)]
    lines = [f"image 1 4 64 0 {len(code)} {len(cells)}", *cells, *rows]
    return "\n".join(lines + [f"code {n} {line}" for n, line in enumerate(code)]) + "\n"


def write(folder, name, text):
    path = os.path.join(folder, name)
    with open(path, "w", encoding="ascii") as to:
        to.write(text)
    return path


def measure(program, folder, handlers, length, shape):
    """The seconds and the KiB of a right listing with so many handlers, and those with one: the program ends with
    status 0, so it has answered yes."""
    alone = [program, "verify", write(folder, "alone", listing(1, length, shape))]
    words = [program, "verify", write(folder, "image", listing(handlers, length, shape))]
    seconds, one = processor(TURNS, words, alone)
    return seconds, peak(words, folder), one, peak(alone, folder)


def points(program, folder, handlers, length, shape=two_sections):
    """Prints a line, and returns the seconds that a point takes, and how much memory."""
    seconds, memory, alone, little = measure(program, folder, handlers, length, shape)
    each = (seconds - alone) / ((handlers - 1) * length)
    print(
        f"verify, {handlers} handlers that come to {length} instructions, {shape.__name__.replace('_', ' ')}: "
        f"{seconds * 1000:.0f} ms, with one handler {alone * 1000:.0f} ms, so {each * 1e9:.0f} ns a point; "
        f"{memory} KiB, with one handler {little} KiB"
    )
    return each, memory - little


def main(program, folder):
    short, _ = points(program, folder, MOST_HANDLERS, SHORT)
    few, _ = points(program, folder, MOST_HANDLERS // 4, LONG)
    many, more = points(program, folder, MOST_HANDLERS, LONG)
    print(f"a point takes {many / few:.2f} times as long with four times the handlers")
    print(f"a point takes {many / short:.2f} times as long with {LONG // SHORT} times the code")
    print(f"verify: {more} KiB more for {MOST_HANDLERS} handlers than for one")
    for shape in two_sections, sixteen_open, all_sections:
        points(program, folder, MOST_HANDLERS, MOST_CODE - 8, shape)


main(*sys.argv[1:])
