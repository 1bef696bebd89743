"""Follows the messages of a run: places, ready queues, armed messages, the time and the alarm."""
import heapq
from collections import deque

from .application import DISPATCHER, TIMER
from .rows import CANCEL, FULL, MOVE, Message


class Messages:
    """The part of a history on messages; the jobs and rows are those of `History`."""

    def __init__(self):
        self.timer = None
        self.time = 0
        self.alarm = None
        self.is_owing = False
        self.given = self.orders = 0
        self.armed = {}
        self.by_instant = []

    # Places and ready messages.

    def see_ok(self, step, row, line):
        """A place of a task's messages is taken."""
        self.done = step + 1
        job = self.jobs[-1]
        number = self.item_row(job)
        row.sent += 1
        row.out += 1
        if row.out > row.most_out:
            row.most_out = row.out
        job.hand = Message(number, step, line)
        return number

    def see_full(self, step, row, line):
        """All places are out."""
        self.done = step + 1
        number = self.item_row(self.jobs[-1])
        row.refused += 1
        self.marks += (step, number, FULL, line)
        return number

    def see_ready(self, step, row, line):
        """A message goes to the ready queue."""
        self.done = step + 1
        job = self.jobs[-1]
        number = self.item_row(job)
        message = job.hand or Message(number, step, line)
        job.hand = None
        message.ready = step + 1
        if row.queue is None:
            row.queue = deque()
        row.queue.append(message)
        row.requests += 1
        row.ready += 1
        if row.ready == 1:
            row.ready_since = step + 1
        return number

    def see_free(self, step, row, line):
        """A place is given back."""
        self.done = step + 1
        row.out -= 1
        return self.item_row(self.jobs[-1])

    def see_start(self, step, row, line):
        """A message starts: the dispatcher's job works for its task."""
        self.done = step + 1
        job = self.jobs[-1]
        if job.body is not None or job.early is None or not row.queue:
            self.item = line - self.output.first
            self.misfit("no dispatcher runs there" if row.queue else f"no message of {row.task.name} is ready there")
        message = row.queue.popleft()
        row.ready -= 1
        row.started += 1
        row.runs += 1
        row.waited(job.waited)
        if row.ready == 0 and step > row.ready_since:
            row.pending += (row.ready_since, step)
        self.arrows += (message.row, message.sent, row.number, step, line)
        job.body, job.asked = row, message.ready
        job.row.task.kind = DISPATCHER
        row.task.interrupt = job.row.task.interrupt
        for item in job.early:
            self.item_rows[item] = row.number
        row.serving += job.parts
        row.preempted += job.away
        row.sections += job.sections
        job.parts, job.away, job.sections = row.serving, row.preempted, row.sections
        return row.number

    def begin_body(self, job, step):
        """The dispatcher has given the place back, and calls the body next."""
        self.draw(job, step)
        job.parts = job.body.running
        call = job.body.task.call
        job.begun = job.used + (call or 0)
        if call is not None:
            job.call_at = job.begun

    def end_body(self, job, row, step):
        """The body of a message ends, and its dispatcher goes on."""
        if job.body is not row or job.begun is None:
            self.misfit(f"no message of {row.task.name} is worked at there")
        self.settle(job, step)
        self.draw(job, step)
        job.parts = row.serving
        row.ran(job.used - job.begun)
        row.responded(step - job.asked, self.early(job.asked))
        job.asked = None
        if job.depth != job.base:
            job.depth = job.base
            self.set_depth(step, job.depth)

    # Armed messages.

    def least(self):
        """The armed message that fires next, or none."""
        heap = self.by_instant
        while heap:
            _, order, handle = heap[0]
            message = self.armed.get(handle)
            if message is not None and message.order == order:
                return message
            heapq.heappop(heap)
        return None

    def put_armed(self, message, instant):
        """A message is armed for an instant, last in order."""
        self.orders += 1
        message.instant, message.order = instant, self.orders
        self.armed[message.handle] = message
        heapq.heappush(self.by_instant, (instant, self.orders, message.handle))

    def see_arm(self, step, subject, line):
        """A message is armed, and has the next handle."""
        self.done = step + 1
        job = self.jobs[-1]
        number = self.item_row(job)
        message = job.hand or Message(number, step, line)
        job.hand = None
        self.given += 1
        message.handle = self.given
        self.put_armed(message, subject[1])
        return number

    def see_move(self, step, subject, line):
        """An armed message is put to another instant."""
        self.done = step + 1
        number = self.item_row(self.jobs[-1])
        message = self.armed.get(subject[1])
        if message is not None:
            self.put_armed(message, subject[2])
        self.marks += (step, number, MOVE, line)
        return number

    def see_cancel(self, step, subject, line):
        """An armed message is taken back."""
        self.done = step + 1
        number = self.item_row(self.jobs[-1])
        self.armed.pop(subject[1], None)
        self.marks += (step, number, CANCEL, line)
        return number

    def see_fire(self, step, row, line):
        """A due message leaves the timer queue, in the hands of its handler."""
        self.done = step + 1
        job = self.jobs[-1]
        number = self.item_row(job)
        message = self.least()
        if message is not None:
            del self.armed[message.handle]
            self.arrows += (message.row, message.sent, number, step, message.line)
            message.row, message.sent, message.line = number, step, line
        job.hand = message
        if self.timer is None and len(self.jobs) > 1:
            self.timer = job.row
            job.row.task.kind = TIMER
        return number

    # Time.

    def see_clock(self, step, value, line):
        """The time is read."""
        self.done = step + 1
        return self.item_row(self.jobs[-1])

    def see_set(self, step, subject, line):
        """The alarm is set to the least armed instant, or to none."""
        self.done = step + 1
        least = self.least()
        self.alarm = least.instant if least is not None else None
        return self.item_row(self.jobs[-1])

    def see_tick(self, step, subject, line):
        """The time rises, and the alarm may be due."""
        self.done = step
        self.time += 1
        self.is_owing = self.alarm is not None and self.alarm <= self.time
        self.ticks.append(step)
        return self.timer.number if self.timer is not None else 0

    def see_alarm(self, step, subject, line):
        """The alarm comes, by a tick or by a step that sets it to an instant that is due."""
        number = self.timer.number if self.timer is not None else 0
        if self.is_owing:
            self.done = step
        else:
            self.done = step + 1
            number = self.item_row(self.jobs[-1])
        if self.timer is not None:
            self.ask(self.timer, self.done)
        self.is_owing = False
        self.alarm = None
        self.alarms.append(step)
        return number
