"""Follows the items of a run: who runs, waits and is preempted when, inside which sections, and how long."""
from array import array

from .application import DISPATCHER, HARDWARE, SOFTWARE, THREAD, TIMER, WORD, Task
from .messages import Messages
from .reading import STEPS, bad_line, words_of
from .rows import ARRIVAL, EMIT, MERGED, TRAP, Job, Lock, Row, Track
from .told import NOT_A_RUN, Told


class History(Messages):
    """What happened in a run, by rows; `end` is the step after the last.

    Flat lists: `marks` has step, row, kind and line of each mark; `arrows` has row, step, row, step, line; `stack` has
    step and bytes in use from there on; `ticks` and `alarms` have steps. `item_rows` has the row of each item, and
    `never_left` the spans of sections that are open at the end; `inputs` has what devices wrote, by names.
    """

    def __init__(self, output, application, responses=None):
        super().__init__()
        self.responses = responses
        self.output = output
        self.application = application
        priorities = {task.priority or 0 for task in application.tasks}
        self.ranks = {priority: rank for rank, priority in enumerate(sorted(priorities))}
        self.spent = [0] * len(priorities)
        self.rows, self.threads, self.by_interrupt, self.by_task, self.locks, self.inputs = [], [], {}, {}, {}, {}
        self.marks, self.arrows, self.ticks, self.alarms = [], [], [], []
        self.item_rows = array("H")
        self.never_left = set()
        self.done = self.item = self.end = 0
        self.is_init = True
        self.init_end = 0
        self.trapped = None
        for task in application.tasks:
            self.add_row(task)
        self.deepest = application.thread_bytes
        self.stack = [0, self.deepest]
        self.jobs = [self.thread_job()]
        self.follow()

    def add_row(self, task):
        """A row for a task."""
        row = Row(task, len(self.rows), self.ranks[task.priority or 0])
        self.rows.append(row)
        if task.kind == SOFTWARE:
            self.by_task[task.name] = row
        elif task.kind == THREAD:
            self.threads.append(row)
        elif task.interrupt is not None:
            self.by_interrupt[task.interrupt] = row
        if task.kind == TIMER:
            self.timer = row
        return row

    def shown(self):
        """The rows that are shown, the thread's last."""
        return sorted((row for row in self.rows if row.is_shown()), key=lambda row: row.task.kind == THREAD)

    def thread_job(self):
        """The job that is there from the beginning: `init`, and then `idle`."""
        job = Job(self.threads[-1], 0, self.output.first, self.deepest)
        job.since = 0
        return job

    def row_of_interrupt(self, name):
        """The row that an interrupt serves; in a trace without a listing it is made where the name first comes."""
        row = self.by_interrupt.get(name)
        if row is None and self.application.listed:
            self.misfit(f"the interrupt {name} is not declared")
        return row or self.add_row(self.application.add(Task(name, HARDWARE, name)))

    def row_of_task(self, name):
        """The row of a task that takes messages."""
        row = self.by_task.get(name)
        if row is None and (self.application.listed or self.application.is_unknown(name)):
            self.misfit(f"the task {name} is not declared")
        return row or self.add_row(self.application.add(Task(name, SOFTWARE)))

    def lock(self, name):
        """The section of a name."""
        if name not in self.locks:
            self.locks[name] = Lock(name, len(self.locks))
        return self.locks[name]

    def misfit(self, why):
        """Tells of an item that no run of an image has there."""
        line = self.output.first + self.item
        shown = self.output.lines[line] if line < len(self.output.lines) else "the end"
        raise Told(NOT_A_RUN, f"{self.output.name}:{line + 1}: item {self.item + 1}, `{shown}`: {why}; "
                              "`rtic audit` tells whether a trace is right")

    def follow(self):
        """Goes through all items, and closes what is open at the end."""
        known, add, limit = {}, self.item_rows.append, STEPS
        first, last = self.output.first, self.output.last
        for line, item in enumerate(self.output.lines[first:last], first):
            text, _, what = item.partition(" ")
            entry = known.get(what)
            if entry is None:
                self.item = line - first
                entry = known[what] = self.learn(what, line)
            try:
                step = int(text)
            except ValueError:
                step = -1
            if not self.done <= step < limit or not text.isdigit() or text[0] == "0" and text != "0":
                self.item = line - first
                self.other_step(entry[0], text, step, line)
            add(entry[0](step, entry[1], line))
        self.item = last - first
        self.close()

    def other_step(self, call, text, step, line):
        """Tells of a number of steps that is of no form, or is not where a run is; an input has that of its take."""
        if call == self.see_input and step == self.done - 1 and text == str(step):
            return
        if step < 0 or step >= STEPS or text != str(step):
            bad_line(self.output.name, line, self.output.lines[line])
        self.misfit(f"{self.done} core steps have been taken before it")

    def learn(self, what, line):
        """The call that follows such an item, and what it is told of it."""
        words = words_of(what)
        if words is None:
            bad_line(self.output.name, line, self.output.lines[line])
        kind, name = words[0], words[1] if len(words) > 1 else None
        if kind in ("pend", "ret", "post"):
            subject = self.row_of_interrupt(name)
        elif kind == "take":
            subject = (self.row_of_interrupt(name), int(words[2]))
        elif kind in ("enter", "leave"):
            subject = self.lock(name)
        elif kind in ("ok", "full", "ready", "free", "fire", "start"):
            subject = self.row_of_task(name)
        elif kind in ("arm", "cancel", "move"):
            subject = (self.row_of_task(name), *(int(word) for word in words[2:]))
        elif kind == "input":
            subject = (name, int(words[2]))
        elif kind == "end":
            subject = self.row_of_task(name) if name not in ("init", "idle") else name
        else:
            subject = int(name) if name is not None else None
        return getattr(self, "see_" + kind), subject

    # What passes between items.

    def settle(self, job, step):
        """Counts the own steps of the running job up to a step."""
        steps = step - job.since
        if steps > 0:
            job.used += steps
            job.since = step
            self.spent[job.rank] += steps
            if job.call_at is not None and job.used >= job.call_at:
                self.called(job, step - (job.used - job.call_at))

    def called(self, job, step):
        """The frame of a dispatcher's message body has been pushed at a step."""
        job.call_at = None
        job.depth = job.base + WORD * (job.body.task.frame or 0)
        self.set_depth(step, job.depth)

    def set_depth(self, step, depth):
        """The stack in use is so many bytes from a step on."""
        if self.stack[-2] == step:
            self.stack[-1] = depth
        else:
            self.stack += (step, depth)
        if depth > self.deepest:
            self.deepest = depth

    def early(self, asked):
        """The steps of `init` behind a request."""
        return max(0, self.init_end - asked)

    def lower(self, row):
        """The steps that tasks of lower priority have taken so far."""
        return sum(self.spent[:row.rank])

    def ask(self, row, step):
        """A request of a row's interrupt at a step: it becomes pending, or the request is merged with the one before.

        The answer says whether it became pending.
        """
        row.requests += 1
        if self.is_init:
            row.last = step
        else:
            row.requested(step)
        if row.asked is not None:
            row.merged += 1
            return False
        self.settle(self.jobs[-1], step)
        row.asked, row.lower = step, self.lower(row)
        return True

    def item_row(self, job):
        """The row of an item of a job; of a dispatcher's it is known where a message starts."""
        if job.body is not None:
            return job.body.number
        if job.early is not None:
            job.early.append(len(self.item_rows))
        return job.row.number

    def draw(self, job, step):
        """The running job is drawn up to a step."""
        if step > job.shown:
            job.parts += (job.shown, step)
        job.shown = step

    # Items, by the word after the step.

    def see_pend(self, step, row, line):
        """A request arrives."""
        self.done = step
        row.arrived += 1
        self.marks += (step, row.number, ARRIVAL if self.ask(row, step) else MERGED, line)
        return row.number

    def see_post(self, step, row, line):
        """A request by software."""
        self.done = step + 1
        job = self.jobs[-1]
        number = self.item_row(job)
        became_pending = self.ask(row, step + 1)
        if row.task.kind == HARDWARE and self.application.listed:
            if became_pending:
                row.poster = (number, step, line)
            else:
                self.marks += (step, row.number, MERGED, line)
        return number

    def see_take(self, step, subject, line):
        """A handler is entered."""
        row, depth = subject
        self.done = step + 1
        below = self.jobs[-1]
        self.settle(below, step)
        self.draw(below, step)
        job = Job(row, step, line, depth)
        if row.asked is not None:
            self.answer(row, job, step)
        if row.task.kind == DISPATCHER or not self.application.listed:
            job.parts, job.away, job.sections, job.early = [], [], [], []
        self.jobs.append(job)
        self.set_depth(step, depth)
        return self.item_row(job)

    def answer(self, row, job, step):
        """A pending interrupt is taken."""
        if step > row.asked:
            row.pending += (row.asked, step)
        job.asked = row.asked
        if self.application.waits:
            job.waited = self.lower(row) - row.lower
        row.asked = None
        if row.poster is not None:
            number, sent, line = row.poster
            self.arrows += (number, sent, row.number, step, line)
            row.poster = None

    def see_ret(self, step, row, line):
        """A handler returns."""
        self.done = step + 1
        job = self.jobs[-1]
        if job.row is not row:
            self.item = line - self.output.first
            self.misfit(f"{job.row.label()} runs there")
        number = self.item_row(job)
        self.leave_job(job, step + 1)
        if job.body is None:
            row.runs += 1
            row.ran(job.used)
            row.waited(job.waited)
            if job.asked is not None:
                row.responded(step + 1 - job.asked, self.early(job.asked))
        return number

    def leave_job(self, job, step):
        """The job on top has ended before a step, or is drawn up to the end, and the one below runs again."""
        self.settle(job, step)
        self.draw(job, step)
        row = job.body
        if row is None:
            row = job.row
            if job.early is not None:
                row.running += job.parts
                row.preempted += job.away
                row.sections += job.sections
        row.jobs += (job.begin, step, job.line)
        self.jobs.pop()
        below = self.jobs[-1]
        below.away += (job.begin, step)
        below.since = below.shown = step
        self.set_depth(step, below.depth)

    def see_enter(self, step, lock, line):
        """A section is entered."""
        self.done = step + 1
        job = self.jobs[-1]
        self.settle(job, step)
        job.open.append((lock, step, job.used))
        return self.item_row(job)

    def see_leave(self, step, lock, line):
        """A section is left."""
        self.done = step + 1
        job = self.jobs[-1]
        if not job.open or job.open[-1][0] is not lock:
            self.item = line - self.output.first
            self.misfit(f"{lock.name} is not the section that was entered last")
        self.settle(job, step + 1)
        _, begin, before = job.open.pop()
        lock.left(job.used - before, step + 1 - begin)
        job.sections += (begin, step + 1, lock.number, len(job.open))
        number = self.item_row(job)
        if job.body is not None and job.begun is None and lock.name == "free." + job.body.task.name:
            self.begin_body(job, step + 1)
        return number

    def see_emit(self, step, value, line):
        """A value is emitted."""
        self.done = step + 1
        number = self.item_row(self.jobs[-1])
        self.marks += (step, number, EMIT, line)
        return number

    def see_input(self, step, subject, line):
        """The handler that was entered last finds a value that a device wrote."""
        name, value = subject
        job = self.jobs[-1]
        track = self.inputs.setdefault(name, Track(name, job.row))
        if len(self.jobs) == 1 or not job.begin == step == self.done - 1 or track.row is not job.row:
            self.item = line - self.output.first
            self.misfit("an input comes behind the take of the task that lists it, with the step of the take")
        track.found += (step, value)
        return self.item_row(job)

    def see_trap(self, step, kind, line):
        """The core traps, and stops."""
        self.done = step + 1
        number = self.item_row(self.jobs[-1])
        self.marks += (step, number, TRAP, line)
        self.trapped = step
        return number

    def see_end(self, step, subject, line):
        """`init`, a turn of `idle` or the body of a message ends."""
        self.done = step + 1
        job = self.jobs[-1]
        number = self.item_row(job)
        if subject not in ("init", "idle"):
            self.item = line - self.output.first
            self.end_body(job, subject, step + 1)
            return number
        if len(self.jobs) > 1 or (subject == "init") != self.is_init:
            self.item = line - self.output.first
            self.misfit(f"{subject} does not run there")
        self.settle(job, step + 1)
        if subject == job.row.task.name:
            job.row.ran(job.used)
            job.row.runs += 1
        job.used = 0
        if subject == "init":
            self.end_init(job, step + 1)
        return number

    def end_init(self, job, step):
        """`init` has ended: the thread goes on in another row, and who waits begins to wait for lower tasks."""
        self.is_init = False
        self.init_end = step
        self.draw(job, step)
        thread = self.threads[0]
        if job.row is not thread:
            job.row.jobs += (0, step, job.line)
            job.begin, job.line = step, self.output.first + len(self.item_rows) + 1
        job.row, job.rank = thread, thread.rank
        job.parts, job.away, job.sections = thread.running, thread.preempted, thread.sections
        for row in self.rows:
            if row.asked is not None:
                row.lower = self.lower(row)
            if row.last is not None:
                row.last = step

    def close(self):
        """What is open at the end of the trace ends there."""
        steps = self.output.steps
        if steps is not None and steps < self.done or self.done > STEPS:
            self.misfit(f"{self.done} core steps have been taken")
        self.end = end = self.done if steps is None else steps
        while len(self.jobs) > 1:
            job = self.jobs[-1]
            self.hold_open(job, end)
            self.leave_job(job, end)
            if job.asked is not None:
                (job.body or job.row).left_open(end - job.asked, self.early(job.asked))
            if job.row.task.kind != DISPATCHER:
                job.row.runs += 1
                job.row.waited(job.waited)
        thread = self.jobs[0]
        self.settle(thread, end)
        self.hold_open(thread, end)
        self.draw(thread, end)
        thread.row.jobs += (thread.begin, end, thread.line)
        for row in self.rows:
            if row.asked is not None and end > row.asked:
                row.pending += (row.asked, end)
            if row.ready and end > row.ready_since:
                row.pending += (row.ready_since, end)
            if row.still_pending():
                row.left_open(end - row.pending_since(), self.early(row.pending_since()))

    def hold_open(self, job, end):
        """Sections that are open at the end are drawn up to it."""
        while job.open:
            lock, begin, _ = job.open.pop()
            if end > begin:
                job.sections += (begin, end, lock.number, len(job.open))
                self.never_left.add((begin, end))
