"""What each name of an application stands for: symbols, and the tokens that declare and use them."""
from dataclasses import dataclass, field

from explaining.rules import ROLES
from explaining.tokens import Token
from explaining.tree import Body, Stmt
from explaining.walk import uses_of

SPACES = {"interrupt": "interrupt", "task": "task", "shared": "resource", "local": "resource"}
USED = {**{role: SPACES.get(kind, "value") for role, kind in ROLES.items()}}
WRITTEN = ("assign", "bind", "loop", "argument")


@dataclass(eq=False)
class Symbol:
    """A declared name: its kind is application, interrupt, task, shared, local, argument, variable or loop.

    `node` is the body of a task, the row of a resource or an interrupt, and the statement of a variable; `body` is the
    one in which a variable is declared. The occurrences are in the order of the text, the declaration among them.
    """

    kind: str
    token: Token
    node: object = None
    body: Body = None
    occurrences: list = field(default_factory=list)


@dataclass(frozen=True)
class Occurrence:
    """A token that declares or uses a symbol, and in which body; `is_write` where it sets the value."""

    token: Token
    symbol: Symbol
    is_write: bool
    body: Body = None


@dataclass(frozen=True)
class Clash:
    """A name that is declared where it is taken: by another of its kind, by a resource, or by a variable in scope."""

    token: Token
    first: Token


class Names:
    """The symbols of an application. `unknown` has the tokens that stand for nothing."""

    def __init__(self, app):
        self.app = app
        self.spaces = {space: {} for space in ("interrupt", "task", "resource")}
        self.symbols, self.occurrences, self.unknown, self.clashes = [], [], [], []
        self.variables = {}
        self.declare_all()
        for body in app.bodies:
            self.listings(body)
            for use in uses_of(body):
                self.use(body, use)
        self.options()
        self.occurrences.sort(key=lambda one: one.token.at)
        for one in self.occurrences:
            one.symbol.occurrences.append(one)

    # Declarations.

    def declare(self, kind, token, node=None, body=None):
        """A new symbol, with its declaration as its first occurrence; a missing name declares nothing."""
        symbol = Symbol(kind, token, node, body)
        if not token.text:
            return symbol
        self.symbols.append(symbol)
        self.occur(token, symbol, body, True)
        space = self.spaces.get(SPACES.get(kind))
        if space is not None:
            first = space.setdefault(token.text, symbol)
            if first is not symbol:
                self.clashes.append(Clash(token, first.token))
        return symbol

    def declare_all(self):
        app = self.app
        self.declare("application", app.name)
        for kind, rows in (("interrupt", app.interrupts), ("shared", app.shared), ("local", app.local)):
            for row in rows:
                self.declare(kind, row[0], row)
        for task in app.tasks:
            self.declare("task", task.name, task)

    def occur(self, token, symbol, body=None, is_write=False):
        self.occurrences.append(Occurrence(token, symbol, is_write, body))

    # Uses.

    def refer(self, space, token, body=None, is_write=False):
        """A token that stands for what is declared in a space."""
        symbol = self.spaces[space].get(token.text)
        if symbol:
            self.occur(token, symbol, body, is_write)
        elif token.text:
            self.unknown.append(token)

    def options(self):
        """The interrupts that the declarations name."""
        app = self.app
        tokens = app.dispatchers + ([app.monotonic[1]] if app.monotonic else [])
        for token in tokens + [task.binds for task in app.tasks if task.binds]:
            self.refer("interrupt", token)

    def listings(self, body):
        """The resources that a body lists."""
        for token in [row.name for row in body.shared] + body.local:
            self.refer("resource", token, body)

    def use(self, body, use):
        """One use of a body, at the moment of its scopes."""
        token, role = use.token, use.role
        if role == "now":
            return
        if role in ("argument", "bind", "loop"):
            self.variable(body, use)
            return
        scoped = use.around.variable(token.text) if USED[role] == "value" else None
        if scoped:
            self.occur(token, self.variables[scoped[0].at], body, role in WRITTEN)
        else:
            space = USED[role] if USED[role] != "value" else "resource"
            self.refer(space, token, body, role in WRITTEN)

    def variable(self, body, use):
        """The declaration of a variable."""
        kind = {"bind": "variable"}.get(use.role, use.role)
        node = use.node if isinstance(use.node, Stmt) else body
        taken = self.spaces["resource"].get(use.token.text)
        scoped = use.around.variable(use.token.text)
        if use.token.text and (taken or scoped):
            self.clashes.append(Clash(use.token, taken.token if taken else scoped[0]))
        self.variables[use.token.at] = self.declare(kind, use.token, node, body)

    # What is asked.

    def at(self, offset):
        """The occurrence at an offset: one that an offset is in, or that ends there."""
        found = [one for one in self.occurrences if one.token.at <= offset <= one.token.end]
        return found[-1] if found else None
