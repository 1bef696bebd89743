"""What runs add up to: the six counts of `soak`, and which task, in which run, was full, merged or deepest.

Every part of it is a sum, a least or a greatest one, so that tallies of any parts give the same whole in any order.
"""
from collections import namedtuple

COUNTS = ("runs", "takes", "emits", "full", "sum", "depth")
WRAP = 1 << 64

# The greatest depth of a take in bytes, the first run that has it, the step, and the interrupts from the lowest one on.
Deepest = namedtuple("Deepest", "depth run step chain")


def summed(one, other):
    """The six counts of both: all are sums, `sum` modulo 2^64, but the depth, of which the greater one counts."""
    found = {name: one[name] + other[name] for name in COUNTS}
    found["sum"] %= WRAP
    found["depth"] = max(one["depth"], other["depth"])
    return found


class Lost:
    """What was lost of one name: how often, in how many runs, first in which, and the most in one run, which is.

    A run is a pair: the number of the campaign, and the run's own. `of` counts all of which some were lost.
    """

    def __init__(self, of=0, times=0, runs=0, first=None, most=0, worst=None):
        self.of, self.times, self.runs = of, times, runs
        self.first, self.most, self.worst = first, most, worst

    def add(self, other):
        """Adds what was lost elsewhere."""
        self.of += other.of
        self.times += other.times
        self.runs += other.runs
        self.first = least(self.first, other.first)
        if other.most > self.most or other.most == self.most > 0 and other.worst < self.worst:
            self.most, self.worst = other.most, other.worst


def least(one, other):
    """The lesser of two runs, where none is no run."""
    return min((each for each in (one, other) if each is not None), default=None)


class Tally:
    """What some runs add up to. `full` has tasks, `merged` interrupts; where runs were only counted they are None.

    `full_number` is then the least number whose runs had a message that found no place, `deepest_number` the least one
    with the greatest depth.
    """

    def __init__(self, is_looked):
        self.counts = dict.fromkeys(COUNTS, 0)
        self.full, self.merged = ({}, {}) if is_looked else (None, None)
        self.deepest = self.full_number = self.deepest_number = None

    @property
    def is_looked(self):
        """Whether the runs were looked at one by one."""
        return self.full is not None

    def add(self, other):
        """Adds the tally of other runs, which was made in the same way."""
        deeper = other.counts["depth"] > self.counts["depth"]
        as_deep = other.counts["depth"] == self.counts["depth"] > 0
        self.counts = summed(self.counts, other.counts)
        self.full_number = least(self.full_number, other.full_number)
        if deeper or as_deep and other.deepest_number is not None and other.deepest_number < self.deepest_number:
            self.deepest_number = other.deepest_number
        if deeper or as_deep and other.deepest is not None and other.deepest.run < self.deepest.run:
            self.deepest = other.deepest
        if self.is_looked:
            for mine, theirs in ((self.full, other.full), (self.merged, other.merged)):
                for name, lost in theirs.items():
                    mine.setdefault(name, Lost()).add(lost)

    def add_number(self, number, counts):
        """Adds the counts of the runs of a number."""
        one = Tally(False)
        one.counts = counts
        one.full_number = number if counts["full"] else None
        one.deepest_number = number if counts["depth"] else None
        self.add(one)


def six_lines(counts):
    """The counts as `soak` writes them."""
    return "".join(f"{name} {counts[name]}\n" for name in COUNTS)


def read_counts(text):
    """The counts of an output of `soak`, or None where it is none."""
    rows = [line.split(" ") for line in text.split("\n")[:-1]]
    if [row[0] for row in rows] != list(COUNTS) or not all(len(row) == 2 and row[1].isdigit() for row in rows):
        return None
    return {name: int(number) for name, number in rows}
