#!/usr/bin/env python3
"""Prints the speed of `rtic fmt`, `rtic check` and `rtic build`, each as a share of the speed of `LC_ALL=C wc -w` over
the same text.

    python3 reading.py PROGRAM FOLDER

PROGRAM is rtic, FOLDER takes the texts. Times are processor time, in the median of five turns of the two.
"""

import os
import sys

import texts
from timing import peak, processor

TURNS = 5
LARGEST = 262144
# the code of a longer one is more than an application may have
DENSEST = 98304


def measure(program, folder, command, what, text):
    """Prints a line, and returns the seconds."""
    file = os.path.join(folder, "text")
    with open(file, "w", encoding="ascii") as to:
        to.write(text)
    counted, seconds = processor(TURNS, ["wc", "-w", file], [program, command, file])
    memory = peak([program, command, file], folder)
    print(
        f"{command} of {what}, {len(text)} bytes: {seconds * 1000:.1f} ms, "
        f"1/{seconds / counted:.1f} of the speed of wc -w ({counted * 1000:.1f} ms), {memory} KiB"
    )
    return seconds


def main(program, folder):
    natural = texts.natural(LARGEST)
    measure(program, folder, "fmt", "a natural text", natural)
    measure(program, folder, "check", "a natural text", natural)
    measure(program, folder, "fmt", "a dense text", texts.dense(LARGEST))
    measure(program, folder, "check", "a dense text", texts.dense(DENSEST))
    half = measure(program, folder, "build", "hardware tasks", texts.hardware(DENSEST // 2))
    whole = measure(program, folder, "build", "hardware tasks", texts.hardware(DENSEST))
    judged = measure(program, folder, "check", "hardware tasks", texts.hardware(DENSEST))
    measure(program, folder, "build", "software tasks", texts.dense(DENSEST))
    print(f"build takes {whole / judged:.2f} times check, and {whole / half:.2f} times build of half the text")
    many = measure(program, folder, "check", "930 variables in scope", texts.variables(930))
    one = measure(program, folder, "check", "one variable in scope", texts.variables(1))
    print(f"930 variables take {many / one:.2f} times the time of one")


if __name__ == "__main__":
    main(*sys.argv[1:])
