"""What one run shows, counted in the lines of its trace."""
from .tally import COUNTS, WRAP, Deepest, Lost, Tally


class Counting:
    """Counts the items of one trace; `bound` are the interrupts that tasks bind, whose requests are lost by merging."""

    def __init__(self, bound):
        self.bound = bound
        self.counts = dict.fromkeys(COUNTS, 0)
        self.full, self.asked, self.merged = {}, {}, {}
        self.sent = {}
        self.pending, self.stack = set(), []
        self.deepest = None

    def item(self, step, words):
        """One item."""
        kind = words[0]
        if kind == "take":
            self.take(step, words[1], int(words[2]))
        elif kind == "ret":
            self.stack.pop()
        elif kind in ("pend", "post"):
            self.request(words[1])
        elif kind == "emit":
            self.counts["emits"] += 1
            self.counts["sum"] = (self.counts["sum"] + int(words[1])) % WRAP
        elif kind == "full":
            self.counts["full"] += 1
            self.full[words[1]] = self.full.get(words[1], 0) + 1
        elif kind == "ok":
            self.sent[words[1]] = self.sent.get(words[1], 0) + 1

    def take(self, step, interrupt, depth):
        """A handler is entered."""
        self.counts["takes"] += 1
        self.pending.discard(interrupt)
        self.stack.append(interrupt)
        if depth > self.counts["depth"]:
            self.counts["depth"] = depth
            self.deepest = (step, tuple(self.stack))

    def request(self, interrupt):
        """An interrupt is requested, from outside or by software."""
        if interrupt not in self.bound:
            return
        self.asked[interrupt] = self.asked.get(interrupt, 0) + 1
        if interrupt in self.pending:
            self.merged[interrupt] = self.merged.get(interrupt, 0) + 1
        self.pending.add(interrupt)

    def tally(self, run):
        """What was counted, as the tally of one run."""
        found = Tally(True)
        self.counts["runs"] = 1
        found.counts = self.counts
        sent = {task: self.sent.get(task, 0) + self.full.get(task, 0) for task in {**self.sent, **self.full}}
        for of, lost, rows in ((sent, self.full, found.full), (self.asked, self.merged, found.merged)):
            for name, number in of.items():
                times = lost.get(name, 0)
                was_lost = run if times else None
                rows[name] = Lost(number, times, int(times > 0), was_lost, times, was_lost)
        if self.deepest is not None:
            found.deepest = Deepest(self.counts["depth"], run, *self.deepest)
        return found


def tally_of(output, run, bound):
    """The tally of an output of `run`, as text; the run is a pair of numbers."""
    counting = Counting(bound)
    _, _, trace = output.partition("\ntrace\n")
    for line in trace.split("\n"):
        step, _, what = line.partition(" ")
        if step.isdigit():
            counting.item(int(step), what.split(" "))
    return counting.tally(run)
