"""The rows of a picture: what each task did, as spans of core steps, and what was measured of it."""
from .application import DISPATCHER, SOFTWARE, UNSERVED

# Marks on a row; a request that finds the interrupt pending is merged with the one before it.
EMIT, FULL, TRAP, ARRIVAL, CANCEL, MOVE, MERGED = range(7)


class Row:
    """A row: its spans as flat lists `begin, end, begin, end, ..`, each in order, and the greatest numbers so far.

    A span begins before its first step and ends after its last. `running` is the task's own body, `serving` the
    dispatcher that works for it, `preempted` a job that others interrupted, `pending` what waits to be served: the
    interrupt, or messages that are ready. `sections` has four numbers each: begin, end, the section's number, how many
    sections are outside it. `jobs` has three: begin, end, and the line of the item that begins it. The longest run,
    wait and response are in core steps, None where none was measured; `unanswered` is how long the longest of those
    that were open at the end had taken by then. `requests` asked for a run: requests of the interrupt, `merged` of
    which found it pending, and `arrived` of which came from outside; or messages that became ready.
    """

    def __init__(self, task, number, rank):
        self.task = task
        self.number = number
        self.rank = rank
        self.running, self.serving, self.preempted, self.pending = [], [], [], []
        self.sections, self.jobs = [], []
        self.runs = self.sent = self.started = self.refused = self.out = self.most_out = 0
        self.requests = self.merged = self.arrived = 0
        self.longest_run = self.longest_wait = self.longest_response = self.unanswered = None
        # The same, where a request during `init` counts from its end.
        self.longest_after_init = self.unanswered_after_init = None
        # The step of the last request, and the fewest steps between two; those during `init` count as one at its end.
        self.last = self.least_distance = None
        # Since when the interrupt is pending, the lower steps until then, and who requested it.
        self.asked = self.lower = self.poster = None
        # How many messages are ready, since when there are any, and which.
        self.ready = self.ready_since = 0
        self.queue = None

    def is_shown(self):
        """Whether the row is a task's, or has what no other row shows."""
        return self.task.kind not in (DISPATCHER, UNSERVED) or bool(self.jobs or self.arrived)

    def label(self):
        """The name, and the interrupt that serves the task where it has another name."""
        task = self.task
        named = task.interrupt is not None and task.interrupt != task.name
        return f"{task.name} ({task.interrupt})" if named else task.name

    def busy(self):
        """The core steps that the task took itself, with those that its dispatcher took for it."""
        spans = self.running + self.serving
        return sum(spans[1::2]) - sum(spans[::2])

    def still_pending(self):
        """How many of the requests were not answered when the run ended."""
        return self.ready if self.task.kind == SOFTWARE else int(self.asked is not None)

    def pending_since(self):
        """The step from which the oldest request that is still pending waits, or none."""
        return self.queue[0].ready if self.ready else self.asked

    def requested(self, step):
        """A request at a step, as far as the distances between requests go."""
        if self.last is not None and (self.least_distance is None or step - self.last < self.least_distance):
            self.least_distance = step - self.last
        self.last = step

    def ran(self, steps):
        """A run of so many own steps."""
        if self.longest_run is None or steps > self.longest_run:
            self.longest_run = steps

    def waited(self, steps):
        """A wait of so many steps of lower tasks; None is no wait that could be measured."""
        if steps is not None and (self.longest_wait is None or steps > self.longest_wait):
            self.longest_wait = steps

    def responded(self, steps, early):
        """So many steps, `early` of them of `init`, from the request, or from where the message was ready, to the end
        of the run."""
        if self.longest_response is None or steps > self.longest_response:
            self.longest_response = steps
        if self.longest_after_init is None or steps - early > self.longest_after_init:
            self.longest_after_init = steps - early

    def left_open(self, steps, early):
        """So many steps from a request to the end of the trace, at which the run that it asked for had not ended."""
        if self.unanswered is None or steps > self.unanswered:
            self.unanswered = steps
        if self.unanswered_after_init is None or steps - early > self.unanswered_after_init:
            self.unanswered_after_init = steps - early


class Job:
    """A job on the stack: what it did so far.

    `used` counts its own steps up to `since`, its entry not counted; it is drawn up to `shown`, by adding spans to
    `parts`. `depth` is the stack in use while it runs, in bytes. `open` has its open sections: the lock, the step of
    the enter, the own steps before it. Of a dispatcher's job `body` is the row whose message it took, `begun` the own
    steps before that body's first, and `call_at` the own steps at which the body's frame is pushed.
    """

    __slots__ = ("row", "rank", "begin", "line", "since", "shown", "used", "waited", "asked", "depth", "base", "open",
                 "body", "begun", "call_at", "hand", "parts", "away", "sections", "early")
    def __init__(self, row, begin, line, depth):
        self.row = row
        self.rank = row.rank
        self.begin = self.shown = begin
        self.since = begin + 1
        self.line = line
        self.used = 0
        self.waited = self.asked = self.body = self.begun = self.call_at = self.hand = self.early = None
        self.depth = self.base = depth
        self.open = []
        self.parts, self.away, self.sections = row.running, row.preempted, row.sections


class Lock:
    """What was measured of the sections of one name: how often one was left, and the longest hold.

    `held` counts own steps of the job inside, its enter and its leave included, as the costs of `check` do; `elapsed`
    counts all steps meanwhile.
    """

    __slots__ = ("name", "number", "times", "held", "elapsed")

    def __init__(self, name, number):
        self.name = name
        self.number = number
        self.times = self.held = self.elapsed = 0

    def left(self, held, elapsed):
        """The section is left after so many own steps, and so many in all."""
        self.times += 1
        if held > self.held:
            self.held = held
        if elapsed > self.elapsed:
            self.elapsed = elapsed


class Track:
    """An input of a row's task: the values that its handler found, as a flat list: step, value, step, value, .."""

    def __init__(self, name, row):
        self.name = name
        self.row = row
        self.found = []

    def changes(self):
        """The steps and values at which the value is another one than at the take before; the first one is."""
        before = None
        for step, value in zip(self.found[::2], self.found[1::2]):
            if value != before:
                yield step, value
            before = value


class Message:
    """A message on its way: the row and the step from which its arrow comes, when it was ready, and its handle."""

    __slots__ = ("row", "sent", "line", "ready", "handle", "instant", "order")

    def __init__(self, row, sent, line):
        self.row = row
        self.sent = sent
        self.line = line
        self.ready = self.handle = self.instant = self.order = None
