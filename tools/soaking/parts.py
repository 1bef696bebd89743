"""Parts of a campaign, the calls that make them, and their results, which are merged into the whole.

A campaign is a set of runs, each a pair of a number and the run's own. A part is all runs with a number of one range
and an own number of another. No run depends on another, and all that is asked of runs is a sum, a least or a greatest
one. So any parts that have each run of the campaign exactly once give the campaign's answer, in any order.
"""
from collections import namedtuple

from viewing.told import Told

NOT_WHOLE = 4


class Part(namedtuple("Part", "first_number last_number first_run last_run is_counted")):
    """A part of a campaign; both ends of both ranges are in it. `is_counted` runs are not looked at one by one."""

    def numbers(self):
        """The numbers."""
        return range(self.first_number, self.last_number + 1)

    def own(self):
        """The runs of each number."""
        return range(self.first_run, self.last_run + 1)

    def runs(self):
        """All runs, each a pair."""
        return ((number, run) for number in self.numbers() for run in self.own())

    def size(self):
        """How many runs there are."""
        return len(self.numbers()) * len(self.own())

    def overlaps(self, other):
        """Whether a run is in both."""
        return (self.first_number <= other.last_number and other.first_number <= self.last_number
                and self.first_run <= other.last_run and other.first_run <= self.last_run)

    def words(self):
        """The words of the tool that name it."""
        numbers = ranged(self.first_number, self.last_number)
        own = str(self.last_run + 1) if self.first_run == 0 else f"{self.first_run}-{self.last_run}"
        return [numbers, own] + ["--count"] * self.is_counted

    def __str__(self):
        """As people name it."""
        numbers = ("number " if self.first_number == self.last_number else "numbers ") + \
            ranged(self.first_number, self.last_number)
        return f"{numbers}, runs {self.first_run} to {self.last_run}"


def ranged(first, last):
    """A range in one word."""
    return str(first) if first == last else f"{first}-{last}"


def shared_out(span, count):
    """A range in so many ranges, as equal as can be, none of them empty."""
    bounds = [span.start + len(span) * at // count for at in range(count + 1)]
    return [(first, after - 1) for first, after in zip(bounds, bounds[1:]) if first < after]


def cut(part, count):
    """A campaign in at least so many parts, where it has so many: by its numbers, and where these are few by its runs.

    What is only counted is cut by numbers alone, because `soak` makes the runs of a number from 0 on.
    """
    numbers = shared_out(part.numbers(), min(count, len(part.numbers())))
    each = 1 if part.is_counted or len(numbers) >= count else -(-count // len(numbers))
    return [part._replace(first_number=first, last_number=last, first_run=begin, last_run=end)
            for first, last in numbers for begin, end in shared_out(part.own(), min(each, len(part.own())))]


def call(tool, path, part, workers):
    """The words of the call that makes a part."""
    return [tool, path, *part.words(), "--workers", str(workers), "--part"]


def disjoint(parts):
    """The parts, which have no run twice, and are all looked at or all counted; else this is told."""
    if len({part.is_counted for part in parts}) > 1:
        raise Told(NOT_WHOLE, "some parts are only counted and others are not: they have no common answer")
    open_parts = []
    for part in sorted(parts):
        open_parts = [each for each in open_parts if each.last_number >= part.first_number]
        for each in open_parts:
            if each.overlaps(part):
                raise Told(NOT_WHOLE, f"two calls of the list have runs in common: {each}; {part}")
        open_parts.append(part)
    return parts
