#!/usr/bin/env python3
"""Prints what a core step of the whole machine takes, beside the same steps in a plain interpreter and straight Rust.

    python3 stepping.py SPIN INTERPRETER STRAIGHT

SPIN is crates/bench_core, INTERPRETER and STRAIGHT are bench/interpreter.rs and bench/spin.rs. A thread spins, a
handler does arithmetic, or the thread waits, with so many declared interrupts; with `pended` the one of the number 1 is
not enabled, and pending throughout. What the three write is compared. Times are processor time, in the median of five
turns of the three.
"""

import subprocess
import sys

from timing import processor

TURNS = 5
STEPS = 100_000_000
IRQS = ("2", "240", "240 pended")


def told(words):
    return subprocess.run(words, capture_output=True, check=True).stdout


def measure(spin, interpreter, straight, code, irqs):
    """Prints a line."""
    rest = [code, str(STEPS)]
    programs = [[spin, *rest, *irqs.split()], [interpreter, *rest], [straight, *rest]]
    if len({told(words) for words in programs}) != 1:
        sys.exit(f"stepping.py: the three write otherwise, {code}, {irqs} interrupts")
    core, plain, fast = processor(TURNS, *programs)
    print(
        f"a core step, {code}, {irqs} interrupts: {core / STEPS * 1e9:.1f} ns; in a plain interpreter "
        f"{plain / STEPS * 1e9:.1f} ns, ratio {core / plain:.2f}; as straight Rust {fast / STEPS * 1e9:.1f} ns"
    )


def main(*programs):
    for code in "thread", "handler", "waiting":
        for irqs in IRQS:
            measure(*programs, code, irqs)


main(*sys.argv[1:])
