#!/usr/bin/env python3
"""Tries the answers of `rticx respond` on random applications whose bodies pend interrupts and spawn messages. Each
runs under scripts that keep its limits, and no response that a run shows may exceed its bound; no interrupt may be
requested while it is pending where the report has no `merge`, and no task may be full where it has room. With a
reference each report is compared with its own.

    python3 responding.py PROGRAM RTIC FOLDER [KIND [COUNT [SEED [REFERENCE]]]]

PROGRAM is rticx, RTIC is rtic, FOLDER takes the texts. KIND is `hardware` or `messages`. REFERENCE is a program that
takes the same two texts and writes the same report and status; the order of its lines `from` may differ. The last lines
count. The status is 1 where something is wrong, and its texts stay in FOLDER.
"""
import collections
import concurrent.futures
import os
import pathlib
import random
import subprocess
import sys

HERE = pathlib.Path(__file__).resolve().parent
sys.path.insert(0, str(HERE / "response"))
sys.dont_write_bytecode = True

from making import KINDS, limits, made, script, sounding
from runs import Reader, bounds, exceeding

COUNT = 1_000
SEED = 7
SCRIPTS = 12
# a run goes on for some three times the greatest bound, within these
SHORTEST, LONGEST = 2_000, 20_000
DONE, LATE = 0, 4
TRACE = "\ntrace\n"


def told(*words):
    """What a program writes, and its status."""
    ran = subprocess.run(words, capture_output=True, text=True, timeout=120, check=False)
    return ran.stdout, ran.returncode


def alike(report, other):
    """Two reports say the same, but for the order of `from` lines."""
    first, second = (text.splitlines() for text in (report, other))
    rest = [[line for line in lines if not line.startswith("from ")] for lines in (first, second)]
    return sorted(first) == sorted(second) and rest[0] == rest[1]


class Trial:
    """One application, its texts in a folder, and chance of its own."""

    def __init__(self, programs, folder, kind, seed, number):
        self.program, self.rtic, self.reference = programs
        self.chance = random.Random(f"{seed} {kind} {number}")
        self.paths = [folder / f"{kind}-{seed}-{number}.{ending}" for ending in ("rtic", "limits", "script")]
        self.app = made(self.chance, kind)
        self.paths[0].write_text(self.app.text)

    def answer(self, text):
        """What the program answers under limits of this text."""
        self.paths[1].write_text(text)
        return told(self.program, "respond", *self.paths[:2])

    def trace(self, text):
        """The trace of a run."""
        self.paths[2].write_text(text)
        written, status = told(self.rtic, "run", self.paths[0], self.paths[2])
        if status != DONE:
            raise RuntimeError(f"rtic run ended with {status}: {written[-200:]}")
        return written.partition(TRACE)[2].splitlines()

    def begin(self):
        """The core step behind which `init` has ended."""
        ends = [line for line in self.trace(f"step {SHORTEST}\n") if line.endswith(" end init")]
        return int(ends[0].split(" ")[0]) + 1

    def runs(self, every, report, counts):
        """What is wrong with runs under scripts that keep the limits."""
        numbers = [number for number in bounds(report).values() if number]
        horizon = min(LONGEST, max([SHORTEST, *(3 * number for number in numbers)]))
        begin, wrong = self.begin(), []
        for _ in range(SCRIPTS):
            reader = Reader(self.app)
            for line in self.trace(script(self.chance, every, begin, horizon)):
                reader.line(line)
            counts["jobs"] += reader.jobs
            counts["runs"] += 1
            counts["reached"] += sum(bounds(report).get(words) == seen for words, seen in reader.seen.items())
            wrong += exceeding(reader, report)
        return wrong

    def result(self):
        """What is wrong, and counts."""
        counts = collections.Counter(applications=1)
        first, status = self.answer(sounding(self.app))
        if status != DONE:
            return [f"status {status} of {self.paths[0]}: {first[:100]}"], counts
        load = next((line.split(" ")[1] for line in first.splitlines() if line.startswith("load ")), "-")
        work = int(load) if load.isdigit() else self.chance.randrange(100, 2_000)
        every, text = limits(self.chance, self.app, work)
        report, status = self.answer(text)
        counts.update(line.split(" ")[0] for line in report.splitlines())
        counts.update(line.split(" ")[-1] for line in report.splitlines() if " - " in line)
        wrong = [] if status in (DONE, LATE) else [f"status {status}"]
        if self.reference:
            other = told(*self.reference, *self.paths[:2])
            wrong += [] if alike(report, other[0]) and status == other[1] else [f"the reference says {other}"]
        if report.startswith("- form"):
            return wrong, counts
        return wrong + self.runs(every, report, counts), counts

    def ended(self):
        """The result; texts of an application with nothing wrong are taken away."""
        wrong, counts = self.result()
        if not wrong:
            for path in self.paths:
                path.unlink(missing_ok=True)
        return [f"{self.paths[0]}: {one}" for one in wrong], counts


def main(program, rtic, folder, kind="messages", count=COUNT, seed=SEED, *reference):
    """Tries so many applications, and ends with 1 where something is wrong."""
    folder = pathlib.Path(folder)
    folder.mkdir(parents=True, exist_ok=True)
    programs = program, rtic, reference
    with concurrent.futures.ThreadPoolExecutor(os.cpu_count()) as pool:
        ends = list(pool.map(lambda number: Trial(programs, folder, kind, seed, number).ended(), range(int(count))))
    wrong = [one for found, _ in ends for one in found]
    counts = sum((counts for _, counts in ends), collections.Counter())
    for line in wrong:
        print(line)
    print(", ".join(f"{name}: {number}" for name, number in sorted(counts.items())))
    compared = "compared with the reference" if reference else "no reference is given"
    runs = f"{counts['runs']} runs, {counts['jobs']} jobs"
    print(f"{count} applications of {kind}, {compared}; {runs}; {len(wrong)} wrong")
    return 1 if wrong else 0


if __name__ == "__main__":
    if len(sys.argv) < 4 or (len(sys.argv) > 4 and sys.argv[4] not in KINDS):
        sys.exit(__doc__)
    sys.exit(main(*sys.argv[1:]))
