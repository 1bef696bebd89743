"""Listings for tries of bounds: random ones with loops, some of which count, inside sections and outside."""

VALUES = (240, 224, 208, 192)
COUNTERS, FRAME = 12, 32


class Maker:
    """The code of one owner."""

    def __init__(self, chance, first, names, value, ceilings):
        self.chance, self.first, self.names, self.value, self.ceilings = chance, first, names, value, ceilings
        self.code = []

    def block(self, inside, left):
        for _ in range(self.chance.randrange(4)):
            kind = self.chance.random()
            free = [name for name in self.names if name not in [one for one, _ in inside]]
            if kind < 0.35 and free and left:
                self.section(self.chance.choice(free), inside, left)
            elif kind < 0.55 and left:
                place = len(self.code)
                self.code.append("")
                self.block(inside, left - 1)
                self.code[place] = f"jumpz 0 {self.first + len(self.code)}"
            elif kind < 0.65 and left:
                top = self.first + len(self.code)
                self.block(inside, left - 1)
                self.code.append(self.chance.choice([f"jumpz 0 {top}", f"jumpz 1 {top}", f"jump {top}"]))
            elif kind < 0.67:
                self.code.append("wait")
            elif kind < 0.82 and left:
                self.counting(inside, left)
            else:
                self.code.append(self.chance.choice(["set 0 7", "copy 0 1", "add 0 0 1", "emit 0", "mark"]))

    def at(self):
        return self.first + len(self.code)

    def counting(self, inside, left):
        """A loop that counts, as one compiler or another makes it, or one that was spoilt."""
        begin = len(self.code)
        counter, work, step, limit = COUNTERS + left, 20, 21 + left, 26 + left
        first, last, by = self.chance.randrange(4), self.chance.randrange(6), self.chance.choice([1, 1, 2, 3])
        kind = self.chance.choice(["while", "down", "until", "turned"])
        kept = self.chance.random() < 0.4
        if kept:
            self.code += [f"set {step} {by}", f"set {limit} {last}"]
        test = [] if kept else [f"set {work} {last}"]
        change = [] if kept else [f"set {work} {by}"]
        against, with_ = (limit, step) if kept else (work, work)
        if kind == "down":
            self.code.append(f"set {counter} {by * last}")
        else:
            self.code.append(f"set {counter} {first}")
        down = f"sub {counter} {counter} {with_}"
        up = self.chance.choice([f"add {counter} {counter} {with_}", f"add {counter} {with_} {counter}"])
        if kind == "turned":
            entry = len(self.code)
            self.code.append("")
        top = self.at()
        if kind == "while":
            word = self.chance.choice([f"lt {work} {counter} {against}", f"le {work} {counter} {against}",
                                       f"gt {work} {against} {counter}", f"ne {work} {counter} {against}"])
            self.code += [*test, word]
            place = len(self.code)
            self.code.append("")
            self.block(inside, left - 1)
            self.code += [*change, up, f"jump {top}"]
            self.code[place] = f"jumpz {work} {self.at()}"
        elif kind == "down":
            if self.chance.random() < 0.5:
                place = len(self.code)
                self.code.append("")
                self.block(inside, left - 1)
                self.code += [*change, down, f"jump {top}"]
                self.code[place] = f"jumpz {counter} {self.at()}"
            else:
                self.block(inside, left - 1)
                self.code += [*change, down, f"jumpz {counter} {self.at() + len(change) + 3}", f"jump {top}"]
        elif kind == "until":
            self.block(inside, left - 1)
            self.code += [*change, up, *test, f"{self.chance.choice(['ge', 'gt', 'eq'])} {work} {counter} {against}",
                          f"jumpz {work} {top}"]
        else:
            self.block(inside, left - 1)
            self.code += [*change, up]
            self.code[entry] = f"jump {self.at()}"
            self.code += [*test, f"ge {work} {counter} {against}", f"jumpz {work} {top}"]
        if self.chance.random() < 0.25:
            self.spoil(begin)

    def spoil(self, begin):
        """Changes one line of a loop, so that it may not count."""
        places = [n for n in range(begin, len(self.code)) if " ; " not in self.code[n] and "raise" not in self.code[n]]
        place = self.chance.choice(places)
        if self.code[place].startswith("jump"):
            return
        self.code[place] = self.chance.choice(["mark", f"set {COUNTERS + self.chance.randrange(5)} 1", "emit 0",
                                               f"load {COUNTERS + self.chance.randrange(5)} 0",
                                               f"add {COUNTERS + 1} {COUNTERS + 1} {20}"])

    def section(self, name, inside, left):
        slot = 2 + len(inside)
        now = min([self.value] + [value for _, value in inside])
        ceiling = self.ceilings[name]
        if ceiling >= now:
            front, back, after = "mark", "mark", now
        elif self.chance.random() < 0.8:
            front, back, after = f"raise {slot} {ceiling}", f"restore {slot}", ceiling
        elif 0 in [value for _, value in inside]:
            return
        else:
            front, back, after = f"mask {slot}", f"unmask {slot}", 0
        self.code.append(f"{front} ; enter {name}")
        self.block([*inside, (name, after)], left - 1)
        self.code.append(f"{back} ; leave {name}")


def looping(chance):
    """An image that keeps the rules, with loops."""
    count = chance.randrange(1, 5)
    values = [chance.choice(VALUES) for _ in range(count)]
    names = [f"s{number}" for number in range(chance.randrange(1, 5))]
    users = {name: [n for n in range(count) if chance.random() < 0.6] for name in names}
    ceilings = {name: min([values[n] for n in some] or [256]) for name, some in users.items()}
    code = ["mark"] * chance.randrange(3) + ["serve ; end init"]
    if chance.random() < 0.1:
        code[:0] = [f"jumpz 0 {chance.randrange(len(code))}"]
    able = [name for name in names if ceilings[name] < 256]
    idle = Maker(chance, len(code), able, 256, ceilings)
    idle.block([], 3)
    code += idle.code + [f"jump {len(code)} ; end idle" if chance.random() < 0.5 else "wait"]
    rows = []
    for number, value in enumerate(values):
        if chance.random() < 0.1:
            rows.append(f"irq H{number} {number} -")
            continue
        body = Maker(chance, len(code), [name for name in names if number in users[name]], value, ceilings)
        rows.append(f"irq H{number} {number} {value} {len(code)} {FRAME}")
        body.block([], 4)
        code += body.code + ["ret"]
    cells = [f"cell {number} 0 {name}" for number, name in enumerate(names)]
    head = f"image {chance.choice([1, 2])} 4 4096 {FRAME} {len(code)} {len(names)}"
    return "\n".join([head, *cells, *rows, *[f"code {n} {text}" for n, text in enumerate(code)]]) + "\n"
