"""What the running job does next, by the meaning of its body and the items of a trace that are right so far.

This only proposes lines: `audit` says whether one of them may come. The actions of spawns, dispatchers and the timer
are those of docs/LANGUAGE.md and docs/THEOREMS.md.
"""
from .tokens import Token
from .tree import Call

WRAP = (1 << 32) - 1
FARTHEST = (1 << 31) - 1
OPERATIONS = {
    "+": lambda a, b: a + b, "-": lambda a, b: a - b, "*": lambda a, b: a * b, "/": lambda a, b: a // b if b else 0,
    "%": lambda a, b: a % b if b else a, "&": lambda a, b: a & b, "|": lambda a, b: a | b, "^": lambda a, b: a ^ b,
    "<<": lambda a, b: a << b if b < 32 else 0, ">>": lambda a, b: a >> b if b < 32 else 0,
    "==": lambda a, b: a == b, "!=": lambda a, b: a != b, "<": lambda a, b: a < b, "<=": lambda a, b: a <= b,
    ">": lambda a, b: a > b, ">=": lambda a, b: a >= b,
}


class Lost(Exception):
    """The items are not those of the bodies; what `audit` takes is asked without a proposal then."""


class Job:
    """A job: its interrupt, what it is, the line in which it was taken, and its actions to come."""

    def __init__(self, interrupt, told, line, actions):
        self.interrupt, self.told, self.line, self.actions = interrupt, told, line, actions
        self.next = next(actions, None)

    def step(self):
        """Does the next action."""
        self.next = next(self.actions, None)


class Replay:
    """The contents of resources and queues, and the jobs, after the items so far."""

    def __init__(self, app):
        self.app = app
        self.values = {row[0].text: row[1].value for row in app.shared + app.local}
        self.time, self.alarm, self.due = 0, None, False
        self.out = {task.name.text: 0 for task in app.tasks}
        self.ready = {level: [] for level in app.levels()}
        self.armed, self.given, self.order = [], 0, 0
        self.pending = set()
        self.jobs = [Job(None, "", 0, self.thread())]

    # Items.

    def item(self, what, line):
        """One item of a trace that is right."""
        words = what.split(" ")
        if words[0] == "pend":
            self.pending.add(words[1])
        elif words[0] == "tick":
            self.time += 1
            self.due = self.alarm is not None and self.alarm <= self.time
        elif words[0] == "alarm" and self.due:
            self.alarm, self.due = None, False
            self.pending.add(self.app.monotonic[1].text)
        elif words[0] == "take":
            self.pending.discard(words[1])
            self.jobs.append(self.taken(words[1], line))
        else:
            self.action(words)

    def action(self, words):
        job = self.jobs[-1]
        if job.next is None or job.next() != words:
            raise Lost(" ".join(words))
        if words[0] == "post":
            self.pending.add(words[1])
        if words[0] == "alarm":
            self.pending.add(self.app.monotonic[1].text)
        job.step()
        if words[0] == "ret":
            self.jobs.pop()

    def proposal(self):
        """The words of the running job's next action, or None where it has none."""
        job = self.jobs[-1]
        return " ".join(job.next()) if job.next else None

    def taken(self, interrupt, line):
        app = self.app
        task = app.bound_by(interrupt)
        if task:
            return Job(interrupt, f"the body of `{task.name.text}`", line, self.handler(task))
        if app.monotonic and app.monotonic[1].text == interrupt:
            return Job(interrupt, "the timer handler", line, self.timer())
        for level, name in zip(app.levels(), app.dispatchers):
            if name.text == interrupt:
                return Job(interrupt, f"the dispatcher of the priority {level}", line, self.dispatcher(level))
        raise Lost(interrupt)

    # Jobs. Each yields its actions one by one; an action is a function of no arguments that answers its words.

    def thread(self):
        init, idle = self.app.body("init"), self.app.body("idle")
        if init:
            yield from self.block(init.block, [{}])
        yield lambda: ["end", "init"]
        while idle:
            yield from self.block(idle.block, [{}])
            yield lambda: ["end", "idle"]

    def handler(self, task):
        yield from self.block(task.block, [{}])
        yield lambda: ["ret", task.binds.text]

    def dispatcher(self, level):
        yield lambda: ["enter", f"ready.{level}"]
        queue, own = self.ready[level], self.dispatcher_of(level)
        if not queue:
            yield lambda: ["leave", f"ready.{level}"]
            yield lambda: ["ret", own]
            return
        name, values = queue[0]
        yield lambda: ["start", name] + [str(value) for value in values]
        queue.pop(0)
        if queue:
            yield lambda: ["post", own]
        yield lambda: ["leave", f"ready.{level}"]
        yield from self.give_back(name)
        task = self.app.task(name)
        yield from self.block(task.block, [dict(zip([one.text for one in task.arguments], values))])
        yield lambda: ["end", name]
        yield lambda: ["ret", own]

    def timer(self):
        own = self.app.monotonic[1].text
        yield lambda: ["enter", "timer.0"]
        yield lambda: ["clock", str(self.time)]
        now, least = self.time, self.least()
        if least is None or least["instant"] > now:
            yield from self.set_alarm()
            yield lambda: ["leave", "timer.0"]
            yield lambda: ["ret", own]
            return
        yield lambda: ["fire", least["task"]]
        self.armed.remove(least)
        yield from self.set_alarm()
        yield lambda: ["leave", "timer.0"]
        yield from self.make_ready(least["task"], least["values"])
        yield lambda: ["ret", own]

    def dispatcher_of(self, level):
        return dict(zip(self.app.levels(), self.app.dispatchers))[level].text

    def least(self):
        return min(self.armed, key=lambda row: (row["instant"], row["order"]), default=None)

    def set_alarm(self):
        least = self.least()
        yield lambda: ["alarm"] if least and least["instant"] <= self.time else ["set"]
        self.alarm = least["instant"] if least and least["instant"] > self.time else None

    def make_ready(self, name, values):
        level = self.app.task(name).level
        yield lambda: ["enter", f"ready.{level}"]
        yield lambda: ["ready", name]
        self.ready[level].append((name, values))
        yield lambda: ["post", self.dispatcher_of(level)]
        yield lambda: ["leave", f"ready.{level}"]

    def give_back(self, name):
        yield lambda: ["enter", f"free.{name}"]
        yield lambda: ["free", name]
        self.out[name] -= 1
        yield lambda: ["leave", f"free.{name}"]

    # Statements, on the variables of the scopes round them.

    def block(self, block, scopes):
        inner = scopes + [{}]
        for statement in block:
            yield from getattr(self, statement.kind)(statement, inner)

    def lock(self, statement, scopes):
        name = statement.name.text
        yield lambda: ["enter", name]
        yield from self.block(statement.block, scopes)
        yield lambda: ["leave", name, str(self.values[name])]

    def emit(self, statement, scopes):
        value = self.calculated(statement.value, scopes)
        yield lambda: ["emit", str(value)]

    def pend(self, statement, _scopes):
        yield lambda: ["post", statement.name.text]

    def assign(self, statement, scopes):
        self.scope_of(statement.name.text, scopes)[statement.name.text] = self.calculated(statement.value, scopes)
        yield from ()

    def let(self, statement, scopes):
        value = statement.value
        if isinstance(value, Call):
            found = yield from self.called(value, scopes)
        elif isinstance(value, Token):
            yield lambda: ["clock", str(self.time)]
            found = self.time
        else:
            found = self.calculated(value, scopes)
        scopes[-1][statement.name.text] = found

    def call(self, statement, scopes):
        yield from self.called(statement.value, scopes)

    def if_(self, statement, scopes):
        chosen = statement.block if self.calculated(statement.value, scopes) else statement.other
        yield from self.block(chosen, scopes)

    def for_(self, statement, scopes):
        for turn in range(*statement.turns):
            yield from self.block(statement.block, scopes + [{statement.name.text: turn}])

    def scope_of(self, name, scopes):
        return next((scope for scope in reversed(scopes) if name in scope), self.values)

    def calculated(self, expr, scopes):
        if expr.token is None:
            left, right = self.calculated(expr.left, scopes), self.calculated(expr.right, scopes)
            return int(OPERATIONS[expr.sign](left, right)) & WRAP
        if expr.token.kind == "number":
            return expr.token.value
        return self.scope_of(expr.token.text, scopes)[expr.token.text]

    # Messages: each of these answers the value of the call.

    def called(self, call, scopes):
        parts = [self.calculated(part, scopes) for part in [call.delay] + call.arguments if part]
        return (yield from getattr(self, call.word.text)(call.task.text, *parts))

    def placed(self, name):
        """Takes a place of a task, and answers whether there was one."""
        yield lambda: ["enter", f"free.{name}"]
        found = self.out[name] < self.app.task(name).places
        yield lambda: ["ok" if found else "full", name]
        self.out[name] += found
        yield lambda: ["leave", f"free.{name}"]
        return found

    def spawn(self, name, *values):
        if not (yield from self.placed(name)):
            return 0
        yield from self.make_ready(name, values)
        return 1

    def spawn_after(self, name, delay, *values):
        if not (yield from self.placed(name)):
            return 0
        yield lambda: ["enter", "timer.0"]
        yield lambda: ["clock", str(self.time)]
        instant = self.time + min(delay, FARTHEST)
        yield lambda: ["arm", name, str(instant)]
        self.given, self.order = self.given + 1, self.order + 1
        handle = self.given
        row = {"task": name, "values": values, "handle": handle, "instant": instant, "order": self.order}
        self.armed.append(row)
        yield from self.set_alarm()
        yield lambda: ["leave", "timer.0"]
        return handle

    def found(self, name, handle):
        return next((row for row in self.armed if (row["task"], row["handle"]) == (name, handle)), None)

    def cancel(self, name, handle):
        yield lambda: ["enter", "timer.0"]
        row = self.found(name, handle)
        if row is None:
            yield lambda: ["leave", "timer.0"]
            return 1
        yield lambda: ["cancel", name, str(handle)]
        self.armed.remove(row)
        yield from self.set_alarm()
        yield lambda: ["leave", "timer.0"]
        yield from self.give_back(name)
        return 0

    def reschedule_after(self, name, delay, handle):
        yield lambda: ["enter", "timer.0"]
        row = self.found(name, handle)
        if row is None:
            yield lambda: ["leave", "timer.0"]
            return 1
        yield lambda: ["clock", str(self.time)]
        instant = self.time + min(delay, FARTHEST)
        yield lambda: ["move", name, str(handle), str(instant)]
        self.order += 1
        row.update(instant=instant, order=self.order)
        yield from self.set_alarm()
        yield lambda: ["leave", "timer.0"]
        return 0


setattr(Replay, "if", Replay.if_)
setattr(Replay, "for", Replay.for_)
