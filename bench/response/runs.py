"""What a trace shows of response times and room: for each request how long it took to be served, for each message from
where it is ready to its end, for each job how long before a request came that it comes of, and for each task how many
places were out at once."""
import collections
import dataclasses


@dataclasses.dataclass
class Job:
    """One that runs or was interrupted, with the interrupt that it serves, since when it was asked for, and the
    requests that it comes of by their interrupts: since when each."""

    irq: str = ""
    since: int = 0
    roots: dict = dataclasses.field(default_factory=dict)
    message: "Job" = None


class Reader:
    """Reads one trace, and keeps the greatest of each kind of response by the words of its line in a report."""

    def __init__(self, app):
        self.bound, self.levels = set(app.bound), app.levels
        self.stack, self.pending, self.ready = [Job()], {}, collections.defaultdict(list)
        self.seen, self.merged, self.jobs = collections.Counter(), set(), 0
        self.out, self.full = collections.Counter(), set()

    def line(self, line):
        """Reads a line of the trace."""
        step, word, *names = line.split(" ")
        if step.isdigit() and hasattr(self, f"on_{word}"):
            getattr(self, f"on_{word}")(int(step), names[0] if names else "")

    def ask(self, irq, job):
        """A request, which joins one that is pending."""
        there = self.pending.setdefault(irq, job)
        if there is not job:
            for root, since in job.roots.items():
                there.roots[root] = min(since, there.roots.get(root, since))

    def done(self, words, job, end):
        """A job that is served, or a message that is done."""
        self.jobs += 1
        self.seen[words] = max(self.seen[words], end - job.since)
        name = words.split(" ")[1]
        for root, since in job.roots.items():
            if root != name:
                self.seen[f"from {root} {name}"] = max(self.seen[f"from {root} {name}"], end - since)

    def on_pend(self, step, irq):
        """A request from outside."""
        if irq in self.pending:
            self.merged.add(irq)
        self.ask(irq, Job(irq, step, {irq: step}))

    def on_post(self, step, irq):
        """A request from a body."""
        self.ask(irq, Job(irq, step + 1, dict(self.stack[-1].roots)))

    def on_take(self, step, irq):
        """A handler begins."""
        self.stack.append(self.pending.pop(irq))

    def on_ret(self, step, irq):
        """A handler returns."""
        job = self.stack.pop()
        if job.irq in self.bound:
            self.done(f"irq {job.irq}", job, step + 1)

    def on_ok(self, step, task):
        """A place of a task is taken."""
        self.out[task] += 1
        self.seen[f"room {task}"] = max(self.seen[f"room {task}"], self.out[task])

    def on_free(self, step, task):
        """A place is given back."""
        self.out[task] -= 1

    def on_full(self, step, task):
        """No place is left."""
        self.full.add(task)

    def on_ready(self, step, task):
        """A message is ready."""
        self.ready[self.levels[task]].append(Job(task, step + 1, dict(self.stack[-1].roots)))

    def on_start(self, step, task):
        """A dispatcher runs the first message that is ready."""
        message = self.ready[self.levels[task]].pop(0)
        self.stack[-1].message, self.stack[-1].roots = message, message.roots

    def on_end(self, step, name):
        """A message ends, or `init`, from whose end on requests count that are there."""
        if name == "init":
            for job in [*self.pending.values(), *(job for jobs in self.ready.values() for job in jobs)]:
                job.since, job.roots = step + 1, {}
        elif name in self.levels:
            self.done(f"task {name}", self.stack[-1].message, step + 1)


def bounds(report):
    """The numbers of the lines of a report by their words; None where there is none."""
    found = {}
    for line in report.splitlines():
        word, *rest = line.split(" ")
        if word in ("irq", "task"):
            found[f"{word} {rest[0]}"] = int(rest[2]) if rest[2] != "-" else None
        elif word == "room":
            found[f"room {rest[0]}"] = int(rest[1]) if rest[1] != "-" else None
        elif word == "from":
            found[" ".join((word, *rest[:2]))] = int(rest[2]) if rest[2] != "-" else None
    return found


def exceeding(reader, report):
    """What a run shows that the report excludes."""
    told, loose = bounds(report), {line.split(" ")[1] for line in report.splitlines() if line.startswith("merge ")}
    wrong = [f"{words}: {seen}, and no such line" for words, seen in reader.seen.items() if words not in told]
    wrong += [f"{words}: {seen} where {told[words]} is the bound" for words, seen in reader.seen.items()
              if told.get(words) is not None and seen > told[words]]
    rooms = [line.split(" ")[1:] for line in report.splitlines() if line.startswith("room ")]
    roomy = {task for task, most, capacity in rooms if most != "-" and int(most) <= int(capacity)}
    wrong += [f"{task} is full" for task in sorted(reader.full & roomy)]
    return wrong + [f"{irq} is requested while it is pending" for irq in sorted(reader.merged - loose)]
