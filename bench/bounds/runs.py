"""Runs of an image on the core of bench/cortex, under events that are made by chance as the run goes on, and what of
them exceeds a bound: own steps of jobs and of sections, steps of lower owners while an interrupt waits, and the stack.
"""

from model import Core, Image

STEPS = 400
INIT, THREAD = ("init",), 256
# how likely an interrupt is requested before a step, and where a section was just entered
RATES = ((0.01, 0.0), (0.05, 0.3), (0.2, 0.5), (0.5, 0.9), (0.0, 1.0))


class Job:
    """One that runs or was interrupted: `init`, the thread, or a handler from its take on."""

    def __init__(self, words, value):
        self.words, self.value = words, value
        self.steps, self.sections = 0, []

    def step(self, note):
        """One own step, with what is exceeded by it: pairs of the words of a bound and a number of steps."""
        self.steps += 1
        self.sections = [(name, steps + 1) for name, steps in self.sections]
        if note[0] == "enter":
            self.sections.append((note[1], 1))
        reached = [(" ".join(self.words), self.steps)]
        reached += [(f"section {' '.join(self.words)} {name}", steps) for name, steps in self.sections]
        if note[0] == "leave":
            self.sections.pop()
        return reached


class Run:
    """A run of an image, beside its bounds by their words."""

    def __init__(self, text, notes, bounds, chance):
        self.core, self.notes, self.bounds, self.chance = Core(Image(text)), notes, bounds, chance
        self.names = {line: name for name, line in self.core.image.lines.items()}
        self.jobs, self.held, self.entered = [Job(INIT, 0)], {}, False
        self.exceeded = []

    def wait_words(self, line):
        """The words of the line that bounds how long an interrupt waits."""
        bits, value = self.core.image.bits, self.core.image.rows[line][1]
        return f"wait {2 ** bits - value // 2 ** (8 - bits)}"

    def compare(self, words, number):
        """Notes it where a number is above its bound; one without a bound may be any."""
        bound = self.bounds.get(words)
        if bound is not None and number > bound:
            self.exceeded.append(f"{words}: {number} where {bound} is the bound")

    def request(self, rate):
        """Requests and a tick, by chance."""
        for line in self.names:
            if self.chance.random() < rate / len(self.names):
                self.core.request(line)
        if self.chance.random() < rate:
            self.core.tick()

    def step(self):
        """One core step."""
        core = self.core
        ready = core.ready()
        if ready:
            value = core.image.rows[ready[0]][1]
            self.held.pop(ready[0], None)
            core.step()
            self.jobs.append(Job(("handler", self.names[ready[0]]), value))
            self.compare("stack", self.depth())
            return
        note = self.notes[core.address]
        self.own_step(note)
        count = len(core.contexts)
        core.step()
        if len(core.contexts) < count:
            self.jobs.pop()
        if self.jobs[-1].words == INIT and not core.primask:
            self.jobs = [Job(("thread",), THREAD)]

    def own_step(self, note):
        """One step of who runs, while lines of the controller wait."""
        job, rows = self.jobs[-1], self.core.image.rows
        for words, number in job.step(note):
            self.compare(words, number)
        self.entered = note[0] == "enter"
        for line in self.core.pending:
            enabled, value = rows[line][:2]
            if enabled and job.words != INIT and value < job.value:
                self.held[line] = self.held.get(line, 0) + 1
                # the entering was before the request, so all of the section but that is the most
                self.compare(self.wait_words(line), self.held[line] + 1)

    def depth(self):
        """The bytes of the stack that are in use."""
        core = self.core
        entries = len(core.contexts) * core.frame_bytes()
        return entries + 4 * (len(core.slots) + sum(len(context[2]) for context in core.contexts))


def exceeding(text, notes, bounds, chance):
    """What a run of an image exceeds under one list of events for each rate."""
    found = []
    for rate, inside in RATES:
        run = Run(text, notes, bounds, chance)
        for _ in range(STEPS):
            run.request(inside if run.entered else rate)
            run.step()
        found += run.exceeded
    return found
