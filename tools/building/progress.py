"""How far the proofs are, and about how long the rest takes: by the seconds that each crate took when it was measured,
by the pace since then, and by a model of which crates are proved side by side."""
import heapq
import pathlib

MEASURED = pathlib.Path(__file__).with_name("seconds.txt")
# for so many seconds the pace that was measured counts beside the one that is seen
TRUST = 60
# a proof that no other waits beside has at most so many processors, and each further one saves it so much
MOST, GAIN = 4, 0.6


def rows_of(text):
    """The lines of crates.txt by the crates that they name, and of each crate what it uses."""
    lines, uses = {}, {}
    for line in text.splitlines():
        line = line.partition("#")[0].rstrip()
        head, _, tail = line.partition(":")
        if head:
            name = head.split()[0]
            lines[name], uses[name] = line, tail.replace(",", " ").split()
    return lines, uses


def parts_of(uses, *tops):
    """The crates that some are made of, themselves too, each with those that it uses; libraries of the kit are none."""
    found, left = {}, list(tops)
    while left:
        name = left.pop()
        if name not in found:
            found[name] = {it for it in uses[name] if it in uses}
            left += found[name]
    return {name: found[name] for name in uses if name in found}


def seconds_of(lengths, measured):
    """The seconds of each crate: what was measured, and of one that was not, what its length says beside those."""
    known = dict(line.split() for line in measured.splitlines() if line and not line.startswith("#"))
    found = {name: float(known[name]) for name in lengths if name in known}
    pace = sum(found.values()) / (sum(lengths[name] for name in found) or 1) or 1.0
    return {name: found.get(name, pace * lengths[name]) for name in lengths}


def chains_of(uses, seconds):
    """Of each crate the seconds of the longest chain of crates that begins with it, each used by the next."""
    users, found = {name: [] for name in uses}, {}
    for name in uses:
        for it in uses[name]:
            users[it].append(name)

    def chain(name):
        if name not in found:
            found[name] = seconds[name] + max(map(chain, users[name]), default=0.0)
        return found[name]

    return users, {name: chain(name) for name in uses}


def spans_of(uses, seconds, processors):
    """When each crate is begun and proved: those with the longest chain first, each after those that it uses."""
    users, chains = chains_of(uses, seconds)
    lacks = {name: len(uses[name]) for name in uses}
    ready = [(-chains[name], name) for name in uses if not lacks[name]]
    heapq.heapify(ready)
    now, idle, running, found = 0.0, processors, [], {}
    while ready or running:
        waiting = len(ready)
        while ready and idle:
            # (the gate counts each twice, once for its tests)
            share = max(1, min(MOST, idle // (waiting + len(ready))))
            _, name = heapq.heappop(ready)
            found[name] = now, now + seconds[name] / (1 + GAIN * (share - 1))
            heapq.heappush(running, (found[name][1], name, share))
            idle -= share
        now, name, share = heapq.heappop(running)
        idle += share
        for it in users[name]:
            lacks[it] -= 1
            if not lacks[it]:
                heapq.heappush(ready, (-chains[it], it))
    return found


def moment_of(spans, seconds, done):
    """The moment at which so many seconds of the work are done."""

    def work(moment):
        return sum(seconds[name] * min(max(moment - begin, 0.0) / (end - begin), 1.0)
                   for name, (begin, end) in spans.items() if begin < end)

    low, high = 0.0, end_of(spans)
    for _ in range(40):
        middle = (low + high) / 2
        low, high = (middle, high) if work(middle) < done else (low, middle)
    return low


def end_of(spans):
    """When all is proved."""
    return max(end for _, end in spans.values())


def about(seconds):
    """So many seconds in words."""
    minutes = round(seconds / 60)
    return "less than a minute" if minutes < 1 else "about a minute" if minutes == 1 else f"about {minutes} minutes"


class Progress:
    """Which crates are proved, now or by an earlier run."""

    def __init__(self, uses, seconds, processors):
        self.uses, self.seconds, self.processors = uses, dict(seconds), processors
        self.proved, self.kept = set(), set()

    def cost(self):
        """The seconds of each crate; those of an earlier run take no time."""
        return {name: 0.0 if name in self.kept else self.seconds[name] for name in self.uses}

    def whole(self):
        """The seconds that all takes."""
        return end_of(spans_of(self.uses, self.cost(), self.processors))

    def under_way(self):
        """The crates that are likely being proved: of those that can be, the ones with the longest chain."""
        had, chains = self.proved | self.kept, chains_of(self.uses, self.seconds)[1]
        can_be = [name for name in self.uses if name not in had and self.uses[name] <= had]
        return sorted(can_be, key=lambda name: -chains[name])[: self.processors]

    def left(self, elapsed):
        """The seconds that the rest takes: by the model, from where it has done as much, at the pace so far."""
        cost, spans = self.cost(), spans_of(self.uses, self.cost(), self.processors)
        # (of those that are likely under way half is done, and nothing of the one that has just begun)
        half = (self.processors - 1) / self.processors / 2
        done = sum(cost[name] for name in self.proved) + half * sum(cost[name] for name in self.under_way())
        now = moment_of(spans, cost, done)
        return (end_of(spans) - now) * (elapsed + TRUST) / (now + TRUST)

    def line(self, name, elapsed, is_kept=False):
        """Notes that a crate is proved, and returns what is said then."""
        (self.kept if is_kept else self.proved).add(name)
        count = len(self.proved) + len(self.kept)
        said = f"{count} of {len(self.uses)} proved"
        if count == len(self.uses) or not self.proved:
            return said + ", by an earlier run on this machine" * is_kept
        return f"{said}, {about(self.left(elapsed))} left"
