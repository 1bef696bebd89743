#!/usr/bin/env python3
"""Compares two answers for one application of hardware tasks: the response times of `rtic times`, from what its forms
cost, and those of `rticx bounds` with limits, from the code of the image that `rtic build` makes of it. The code never
takes more, so no number of it may be greater: of no handler, no wait and no response time. It takes a step less where
an `if` has no `else`, or the longer block behind it: the form costs two steps beside its condition and the greater
block, and the second of them is the jump over the block behind `else`, which only the first block takes. So a number
may be less only where there is an `if`.
The applications are examples/tank.rtic and random ones without `pend`.

    python3 comparing.py RTIC RTICX FOLDER [COUNT [SEED]]

FOLDER takes the texts. The last lines count. The status is 1 where a number of the code is greater, or less without an
`if`; the texts of such an application stay in FOLDER.
"""
import collections
import concurrent.futures
import math
import os
import pathlib
import random
import re
import subprocess
import sys
from typing import NamedTuple

HERE = pathlib.Path(__file__).resolve().parent
sys.path.insert(0, str(HERE / "response"))
sys.dont_write_bytecode = True

from making import Maker

COUNT = 1_000
SEED = 7
DISTANCES = (20, 60, 150, 400, 1_000, 5_000)
TASK = re.compile(r"^task (\w+)\(binds = (\w+)(.*?)(?=^task |\Z)", re.M | re.S)


class Pair(NamedTuple):
    """A number of an application and that of its code, with the text that they are of."""

    name: str
    costs: float
    code: float
    text: str

    @property
    def kind(self):
        """What they are of: a handler, a wait or a response time."""
        return self.name.split()[0]

    @property
    def order(self):
        """How they compare."""
        if self.costs == self.code:
            return "alike"
        if self.code > self.costs:
            return "greater in code"
        return "less in code" if re.search(r"\bif\b", self.text) else "less without an if"


class Quiet(Maker):
    """Makes applications whose bodies request nothing."""

    def statement(self, targets, resources, depth):
        return super().statement([], resources, depth)


def told(*words):
    """What a program writes, which has to end with status 0."""
    ran = subprocess.run(words, capture_output=True, text=True, timeout=120, check=False)
    if ran.returncode != 0:
        raise ValueError(f"{' '.join(map(str, words))}: status {ran.returncode}, {ran.stdout!r}")
    return ran.stdout


def numbers(text):
    """The numbers of lines by their other words; where a line has none, more than any number."""
    rows = [line.split() for line in text.splitlines()]
    rows = [row[: row.index("-") + 1] if "-" in row else row for row in rows]
    return {" ".join(row[:-1]): math.inf if row[-1] == "-" else int(row[-1]) for row in rows}


def pairs(text, costs, times, code):
    """The pairs of an application: of each handler, each wait and each response time."""
    handlers = [Pair(f"handler {irq}", costs[f"cost {task}"], code[f"handler {irq}"], body)
                for task, irq, body in TASK.findall(text)]
    waits = [Pair(name, costs[name], code[name], text) for name in code if name.startswith("wait ")]
    return handlers + waits + [Pair(name, times[name], code[name], text) for name in times]


def compared(rtic, rticx, folder, number, text, limits):
    """The pairs of an application, and what is wrong with them."""
    paths = [pathlib.Path(folder) / f"{number}.{ending}" for ending in ("rtic", "limits", "listing")]
    paths[0].write_text(text)
    paths[1].write_text(limits)
    paths[2].write_text(told(rtic, "build", paths[0]))
    found = pairs(text, numbers(told(rtic, "check", paths[0])), numbers(told(rtic, "times", *paths[:2])),
                  numbers(told(rticx, "bounds", paths[2], paths[1])))
    wrong = [f"{paths[0]}: {pair.name} {pair.costs}, in code {pair.code}" for pair in found
             if pair.order in ("greater in code", "less without an if")]
    if not wrong:
        for path in paths:
            path.unlink()
    return found, wrong


def made(chance):
    """A random application, and limits for it."""
    text = Quiet(chance, "hardware").made().text
    every = [f"every {irq} {chance.choice(DISTANCES)}\n" for _, irq, _ in TASK.findall(text) if chance.random() < 0.9]
    return text, "".join(every)


def counted(kind, found):
    """A line on how the pairs of a kind compare."""
    those = [pair for pair in found if pair.kind == kind]
    counts = collections.Counter(pair.order for pair in those)
    most = max((pair.costs - pair.code for pair in those if pair.costs < math.inf), default=0)
    return f"{kind}: {', '.join(f'{number} {order}' for order, number in sorted(counts.items()))}; at most {most} less"


def main(rtic, rticx, folder, count=COUNT, seed=SEED):
    chance = random.Random(int(seed))
    examples = HERE.parent / "examples"
    cases = [((examples / "tank.rtic").read_text(), (examples / "tank.limits").read_text())]
    cases += [made(chance) for _ in range(int(count))]
    pathlib.Path(folder).mkdir(parents=True, exist_ok=True)
    with concurrent.futures.ThreadPoolExecutor(os.cpu_count()) as pool:
        ends = list(pool.map(lambda at: compared(rtic, rticx, folder, at, *cases[at]), range(len(cases))))
    found = [pair for pairs_of, _ in ends for pair in pairs_of]
    wrong = [one for _, faults in ends for one in faults]
    for line in wrong:
        print(line)
    for kind in ("handler", "wait", "time"):
        print(counted(kind, found))
    print(f"{len(cases)} applications, {len(wrong)} numbers wrong")
    return 1 if wrong else 0


if __name__ == "__main__":
    if len(sys.argv) < 4:
        sys.exit(__doc__)
    sys.exit(main(*sys.argv[1:]))
