"""The answer of `bounds IMAGE LIMITS` for a listing that keeps the rules, from the definitions: what limits say, and
response times, found by going through the moments at which one more request fits. It shares no text with the program.
"""

import re

from model import Core, Image
from reference import Bounds, differs, read

MOST, LONGEST = 1_000_000, 1_048_576
STEPS = 1_500
RATES = (1.0, 0.3, 0.05)


def lines_of(text):
    """The lines of a text, without the ends that they have."""
    parts = text.split("\n")
    ended = [part.removesuffix("\r") for part in parts[:-1]]
    return ended + parts[-1:] if parts[-1] else ended


def told(line, numbers, so_far):
    """What a line says: an interrupt and its distance, or what is wrong; nothing where it is skipped. Two names of one
    number are one interrupt."""
    if not line.strip(" \t") or line.startswith("#"):
        return None
    found = re.fullmatch(r"every +([A-Za-z_][A-Za-z0-9_]*) +([0-9]{1,9})", line, re.ASCII)
    if not found or int(found[2]) == 0:
        return "2 bad line"
    if found[1] not in numbers:
        return "3 unknown interrupt"
    again = numbers[found[1]] in [numbers[name] for name in so_far]
    return "2 bad line" if again else (found[1], int(found[2]))


def read_limits(numbers, text):
    """The distances by the names of interrupts, which have these numbers, and the line that refuses the text, if it is
    refused."""
    found = {}
    if len(text) > LONGEST:
        return found, "limits:1 1 too long\n"
    for number, line in enumerate(lines_of(text), 1):
        says = told(line, numbers, found)
        if isinstance(says, str):
            return found, f"limits:{number} {says}\n"
        if says:
            found[says[0]] = says[1]
    return found, None


def response(wait, loads):
    """The least number of steps with room for the wait and for all requests, each a distance and a cost."""
    low, need = 0, wait + sum(cost for _, cost in loads)
    while need <= MOST:
        high = min([MOST, *((low // every + 1) * every for every, _ in loads)])
        least = max(low + 1, need)
        if least <= high:
            return least
        if high == MOST:
            return None
        low, need = high, need + sum(cost for every, cost in loads if high % every == 0)
    return None


def is_pended(text):
    """Whether an instruction of a listing requests an interrupt."""
    return any(line.word == "post" for line in read(text)[2])


def time_line(bounds, value, limits, address_of):
    """The line of the priority of a value."""
    priority = 2 ** bounds.bits - value // 2 ** (8 - bounds.bits)
    values = {row.name: row.value for row in bounds.rows if row}
    asked = [(name, found) for name, found in bounds.handlers if name in limits and values[name] <= value]
    parts = [(f"wait {priority}", bounds.waits[value] or 0)] + [(f"handler {name}", found) for name, found in asked]
    loops = [words for words, found in parts if isinstance(found, set)]
    if loops:
        return f"time {priority} - {address_of.get(loops[0])}"
    least = response(parts[0][1], [(limits[name], found + 1) for name, found in asked])
    return f"time {priority} {'-' if least is None else least}"


def differs_timed(text, limits, answer):
    """The first line of an answer under limits that is not right, if there is one."""
    bounds, lines = Bounds(text), answer.splitlines(keepends=True)
    count = len(list(bounds.lines()))
    wrong = differs(text, "".join(lines[:count]))
    if wrong:
        return wrong
    rows = [line.split() for line in lines[:count]]
    address_of = {" ".join(row[:-2]): row[-1] for row in rows if row[-2] == "-"}
    wanted = [time_line(bounds, value, limits, address_of) for value in bounds.values]
    found = [line.removesuffix("\n") for line in lines[count:]]
    return None if found == wanted else f"{found}, wanted {wanted}"


def limits_text(text, chance):
    """A limits text for a listing by chance: most are right."""
    lines = []
    for row in read(text)[1]:
        if row and chance.random() < 0.8:
            lines.append(f"every {row.name} {chance.choice([7, 20, 40, 90, 200, 1_000, 999_999_999])}")
    if chance.random() < 0.1:
        lines.append(chance.choice(["# none", " \t", "", "every H0 9", "every nobody 9", "every H0", "every H0 0",
                                    "every  H1  0009", "every 5 100", " every H0 9", "every H1 9 ", "every H2 5\r"]))
    chance.shuffle(lines)
    return chance.choice(["\n", "\n", "\r\n"]).join(lines) + chance.choice(["", "\n"])


class Served:
    """The requests of a run that are not served yet, each by the core steps before it."""

    def __init__(self, text, limits, times):
        self.core, self.late = Core(Image(text)), []
        image = self.core.image
        self.limits = {line: limits[name] for name, line in image.lines.items() if name in limits}
        self.times = {line: times.get(self.priority(line)) for line in self.limits}
        self.last, self.waiting, self.taken = {}, {}, {}

    def priority(self, line):
        bits, value = self.core.image.bits, self.core.image.rows[line][1]
        return 2 ** bits - value // 2 ** (8 - bits)

    def request(self, chance, rate):
        """Requests by chance that are as far apart as the limits say."""
        for line, every in self.limits.items():
            if self.core.steps - self.last.get(line, -every) >= every and chance.random() < rate:
                self.last[line] = self.core.steps
                self.waiting.setdefault(line, self.core.steps)
                self.core.request(line)

    def step(self):
        """One core step, with what it serves."""
        count = len(self.core.items)
        self.core.step()
        for _, word, *line in self.core.items[count:]:
            if word == "take":
                self.taken[line[0]] = self.waiting.pop(line[0])
            elif word == "ret":
                self.returned(line[0], self.core.steps - self.taken.pop(line[0]))

    def returned(self, line, steps):
        if self.times[line] is not None and steps > self.times[line]:
            self.late.append(f"interrupt {line}: served in {steps} steps where {self.times[line]} is the response time")


def late(text, limits, answer, chance):
    """What runs whose requests keep the limits serve later than an answer says."""
    rows = [line.split() for line in answer.splitlines() if line.startswith("time ")]
    times = {int(row[1]): int(row[2]) for row in rows if row[2] != "-"}
    found = []
    for rate in RATES:
        run = Served(text, limits, times)
        # nothing is requested before `init` ends
        while run.core.primask and run.core.steps < STEPS:
            run.step()
        for _ in range(STEPS):
            run.request(chance, rate)
            run.step()
        found += run.late
    return found
