"""What a body does with names, in the order of its text: each use with the locks, variables and loops round it.

The scopes of a use are those of the moment at which it is handed out: they are looked at before the next one is.
"""
from dataclasses import dataclass

from .tokens import Token
from .tree import Call, Expr


@dataclass(frozen=True)
class Round:
    """What is round a statement: open locks, scopes from the outermost, and how often loops run it."""

    locks: tuple = ()
    scopes: tuple = ()
    turns: int = 1

    def variable(self, name):
        """The token that declares a variable in scope, and whether it is a loop's; or None."""
        return next((scope[name] for scope in reversed(self.scopes) if name in scope), None)

    def inner(self, variables=None, lock=None, turns=1):
        locks = self.locks + ((lock,) if lock else ())
        return Round(locks, self.scopes + (dict(variables or {}),), self.turns * turns)


@dataclass(frozen=True)
class Use:
    """A use of a name, or of the word `now`: read, assign, lock, pend, now, bind, argument, loop or a call's word."""

    role: str
    token: Token
    around: Round
    node: object = None
    dropped: bool = False


def uses_of(body):
    """The uses of a body."""
    around = Round().inner()
    for name in body.arguments:
        yield Use("argument", name, around)
        around.scopes[-1].setdefault(name.text, (name, False))
    yield from block_uses(body.block, around)


def block_uses(block, around):
    for statement in block:
        yield from statement_uses(statement, around)


def statement_uses(statement, around):
    kind = statement.kind
    if kind in ("lock", "pend"):
        yield Use(kind, statement.name, around, statement)
    if kind == "lock":
        yield from block_uses(statement.block, around.inner(lock=statement.name))
        return
    yield from value_uses(statement.value, around, kind == "call")
    if kind == "assign":
        yield Use("assign", statement.name, around, statement)
    elif kind == "let":
        yield Use("bind", statement.name, around, statement)
        around.scopes[-1].setdefault(statement.name.text, (statement.name, False))
    elif kind == "if":
        yield from block_uses(statement.block, around.inner())
        yield from block_uses(statement.other, around.inner())
    elif kind == "for":
        yield Use("loop", statement.name, around, statement)
        first, last = statement.turns
        inner = around.inner({statement.name.text: (statement.name, True)}, turns=max(last - first, 0))
        yield from block_uses(statement.block, inner)


def value_uses(value, around, dropped=False):
    if isinstance(value, Token):
        yield Use("now", value, around)
    elif isinstance(value, Call):
        yield Use(value.word.text, value.task, around, value, dropped)
        for part in [value.delay] + value.arguments:
            yield from value_uses(part, around)
    elif isinstance(value, Expr):
        if value.token is None:
            yield from value_uses(value.left, around)
            yield from value_uses(value.right, around)
        elif value.token.kind == "name":
            yield Use("read", value.token, around)


def statements_of(block):
    """All statements of a block, inner ones after those that they are in."""
    for statement in block:
        yield statement
        yield from statements_of(statement.block)
        yield from statements_of(statement.other)
