"""Costs and sizes of statements, by the tables of docs/BOUNDS.md."""
from .tokens import Token
from .tree import Call

FEW = 8
MOST_STEPS, MOST_CODE = 1_000_000, 65_535


class Costs:
    """The costs of an application's statements in core steps, or with `size` their instructions."""

    def __init__(self, app, armed, size=False):
        self.app = app
        self.size = size
        self.armed = min(armed, FEW) if size else armed

    def value(self, value):
        """An expression, the token `now` or a call."""
        if isinstance(value, Token):
            return 1
        if isinstance(value, Call):
            return self.call(value)
        if value.token is not None:
            return 1
        return self.value(value.left) + self.value(value.right) + 1

    def call(self, call):
        own = {"spawn": 128, "spawn_after": 192 + 48 * self.armed}.get(call.word.text, 256 + 96 * self.armed)
        return own + sum(self.value(part) for part in [call.delay] + call.arguments if part)

    def statement(self, statement):
        kind, inner = statement.kind, self.block(statement.block)
        if kind == "pend":
            return 1
        if kind == "lock":
            return 2 + inner
        if kind == "for":
            first, last = statement.turns
            return 4 + (1 if self.size else max(last - first, 0)) * (inner + 6)
        if kind == "if":
            other = self.block(statement.other)
            return self.value(statement.value) + 2 + (inner + other if self.size else max(inner, other))
        return self.value(statement.value) + (0 if kind == "call" else 1)

    def block(self, block):
        return sum(self.statement(statement) for statement in block)

    def body(self, body):
        return self.block(body.block) + 1


def armed_tasks(app, uses):
    """The tasks that some spawn_after names, from the uses of all bodies."""
    names = {use.token.text for use in uses if use.role == "spawn_after"}
    return [task for task in app.tasks if task.name.text in names]


def sizes_before(app, armed):
    """The instructions of the dispatchers, the timer handler and the thread."""
    total = 2
    for level in app.levels():
        total += 128 + 64 * sum(1 for task in app.tasks if task.is_software and task.level == level)
    if app.monotonic:
        total += 192 + 48 * min(sum(task.places for task in armed), FEW) + 32 * len(armed)
    return total
