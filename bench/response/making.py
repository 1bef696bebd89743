"""Applications whose bodies pend interrupts and spawn messages, limits for them, and scripts that keep the limits, all
made by chance. Most bodies release only those that stand behind them in an order of all, so that there are few rings.
"""
import dataclasses

KINDS = ("hardware", "messages")
# of the limits by which a first answer tells the work of all requests together: its load is their sum
SOUNDING = 1_000
TASKS, RELEASES, DEPTH = 5, 2, 3


@dataclasses.dataclass
class Made:
    """An application: its text, the interrupts of its hardware tasks, and the priorities of its software tasks."""

    text: str
    bound: list
    levels: dict


class Maker:
    """Makes one application."""

    def __init__(self, chance, kind):
        self.chance = chance
        hardware = [f"h{number}" for number in range(chance.randrange(1, TASKS))]
        software = [f"t{number}" for number in range(chance.randrange(1, TASKS))] if kind == "messages" else []
        self.bits = chance.choice((3, 4))
        levels = chance.sample(range(1, 2**self.bits + 1), chance.randrange(2, TASKS))
        self.tasks = chance.sample(hardware + software, len(hardware + software))
        self.priority = {task: chance.choice(levels) for task in self.tasks}
        self.takes = {task: chance.randrange(2) for task in software}
        self.hardware, self.software = hardware, software
        self.resources = [f"r{number}" for number in range(chance.randrange(3))]
        self.releases = RELEASES

    def release(self, targets):
        """A `pend` or a `spawn` of one of these tasks."""
        self.releases -= 1
        task = self.chance.choice(targets)
        if task in self.hardware:
            return f"pend I{task};"
        call = f"spawn {task}({'1' if self.takes[task] else ''});"
        return call if self.chance.random() < 0.7 else f"let x{self.releases + RELEASES} = {call}"

    def statement(self, targets, resources, depth):
        """A statement of a body that may release these tasks and lock these resources."""
        roll = self.chance.random()
        if roll < 0.3 and targets and self.releases > 0:
            return self.release(targets)
        if roll < 0.5 and resources and depth < DEPTH:
            locked = self.chance.choice(resources)
            rest = [one for one in resources if one != locked]
            return f"lock {locked} {{ {self.block(targets, rest, depth + 1)} }}"
        if roll < 0.6 and depth < DEPTH:
            return f"for i{depth} in 0..{self.chance.randrange(4)} {{ {self.block(targets, resources, depth + 1)} }}"
        if roll < 0.7 and depth < DEPTH:
            first, second = (self.block(targets, resources, depth + 1) for _ in range(2))
            return f"if {self.chance.randrange(2)} {{ {first} }} else {{ {second} }}"
        return "emit 1; " * self.chance.randrange(1, 6)

    def block(self, targets, resources, depth=0):
        """A block of a few statements."""
        return " ".join(self.statement(targets, resources, depth) for _ in range(self.chance.randrange(1, 4)))

    def body(self, targets):
        """The resources that a body lists, and its block."""
        self.releases = RELEASES
        listed = [one for one in self.resources if self.chance.random() < 0.6]
        return f"shared = [{', '.join(listed)}]", self.block(targets, listed)

    def task(self, number, name):
        """A task, which releases those behind it, and seldom any."""
        targets = self.tasks if self.chance.random() < 0.1 else self.tasks[number + 1 :]
        listed, block = self.body(targets)
        options = [f"binds = I{name}"] if name in self.hardware else []
        options += [f"priority = {self.priority[name]}"]
        options += [f"capacity = {self.chance.randrange(1, 5)}"] if name in self.software else []
        arguments = " with a" if self.takes.get(name) else ""
        return f"task {name}({', '.join([*options, listed])}){arguments} {{ {block} }}"

    def made(self):
        """The application."""
        count = len({self.priority[task] for task in self.software})
        dispatchers = [f"D{number}" for number in range(count)]
        names = [f"I{task}" for task in self.hardware] + dispatchers
        numbers = self.chance.sample(range(40), len(names))
        lines = [f"app made(bits = {self.bits}, dispatchers = [{', '.join(dispatchers)}]);"]
        lines += ["interrupts { " + ", ".join(f"{name} = {number}" for name, number in zip(names, numbers)) + " }"]
        lines += ["shared { " + ", ".join(f"{one} = 0" for one in self.resources) + " }"] if self.resources else []
        if self.chance.random() < 0.4:
            lines += [f"init {{ {self.block(self.tasks, [])} }}"]
        if self.chance.random() < 0.6:
            listed, block = self.body(self.tasks if self.chance.random() < 0.6 else [])
            lines += [f"idle({listed}) {{ {block} }}"]
        lines += [self.task(number, name) for number, name in enumerate(self.tasks)]
        levels = {task: self.priority[task] for task in self.software}
        return Made("\n".join(lines) + "\n", [f"I{task}" for task in self.hardware], levels)


def made(chance, kind):
    """An application of a kind."""
    return Maker(chance, kind).made()


def sounding(app):
    """Limits by whose load the work of all requests is told."""
    return "".join(f"every {name} {SOUNDING}\n" for name in app.bound)


def limits(chance, app, work):
    """Distances of most interrupts, which ask for a quarter to twice of all steps, as numbers by their names, and the
    text with a few deadlines."""
    spread = chance.choice((0.5, 1.1, 1.3, 2, 4))
    every = {name: 1 + max(1, int(work * spread * chance.uniform(0.5, 2)))
             for name in app.bound if chance.random() < 0.9}
    judged = [name for name in [*app.bound, *app.levels] if chance.random() < 0.3]
    lines = [f"every {name} {number}" for name, number in every.items()]
    lines += [f"deadline {name} {chance.randrange(1, 3 * work + 2)}" for name in judged]
    return every, "".join(line + "\n" for line in lines)


def arrivals(chance, every, horizon):
    """When interrupts arrive, by step and name: all at once, at any phases, or one of them a few steps ahead."""
    way, base, ahead = chance.randrange(3), chance.randrange(400), chance.randrange(1, 60)
    first = chance.choice(sorted(every))
    found = []
    for name, number in every.items():
        step = (base, chance.randrange(min(number, horizon)), base if name == first else base + ahead)[way]
        late = chance.choice((0, 0, 0.2))
        while step < horizon:
            found.append((step, name))
            step += number + (chance.randrange(number + 1) if chance.random() < late else 0)
    chance.shuffle(found)
    return sorted(found, key=lambda one: one[0])


def script(chance, every, begin, horizon):
    """A script that lets `init` end and then keeps the limits."""
    lines, now = [f"step {begin}"], 0
    for step, name in arrivals(chance, every, horizon) if every else []:
        lines += [f"step {step - now}"] * (step > now) + [f"pend {name}"]
        now = step
    return "\n".join([*lines, f"step {horizon}"]) + "\n"
