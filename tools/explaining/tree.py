"""The tree of an application's text that is in the grammar. What is not, is not told here: the program tells it."""
from dataclasses import dataclass, field

from .tokens import Token, tokens_of

LEVELS = [["|"], ["^"], ["&"], ["<<", ">>"], ["+", "-"], ["*", "/", "%"]]
RANKS = {sign: rank for rank, level in enumerate(LEVELS) for sign in level}
# the signs of a rank and of all that bind more tightly
SIGNS_FROM = [[sign for level in LEVELS[rank:] for sign in level] for rank in range(len(LEVELS) + 1)]
COMPARISONS = ["==", "!=", "<", "<=", ">", ">="]
CALLS = ("spawn", "spawn_after", "cancel", "reschedule_after")
DECLARED = ("monotonic", "shared", "local", "init", "idle", "task")
OPTIONS = {
    "init": ("local",), "idle": ("shared", "local"), "task": ("binds", "priority", "capacity", "shared", "local"),
}


@dataclass
class Expr:
    """A number or a name has its token; an operation has its sign and two sides."""

    token: Token = None
    sign: str = ""
    left: "Expr" = None
    right: "Expr" = None


@dataclass
class Call:
    """A spawn, spawn_after, cancel or reschedule_after of a task, with its delay and its arguments or handle."""

    word: Token
    task: Token
    delay: Expr = None
    arguments: list = field(default_factory=list)


class Block(list):
    """The statements between two braces: it reaches from the first brace, at `at`, to the end of the second."""

    at, end = 0, 0


@dataclass
class Stmt:
    """A statement: its kind is let, assign, if, for, lock, emit, pend or call. It reaches from `at` to `end`."""

    kind: str
    at: int
    name: Token = None
    value: object = None
    turns: tuple = (0, 0)
    block: Block = field(default_factory=Block)
    other: Block = field(default_factory=Block)
    end: int = 0


@dataclass
class Listing:
    """A resource in a list of a body."""

    name: Token
    by_ref: bool
    at: int


@dataclass
class Body:
    """init, idle or a task: `name` is its word or its name. It begins at `at`, and ends with its block."""

    kind: str
    name: Token
    at: int = 0
    binds: Token = None
    priority: Token = None
    capacity: Token = None
    shared: list = field(default_factory=list)
    local: list = field(default_factory=list)
    arguments: list = field(default_factory=list)
    block: Block = field(default_factory=Block)

    @property
    def level(self):
        """The priority: 0 of init and idle, 1 where a task has none."""
        return 0 if self.kind != "task" else self.priority.value if self.priority else 1

    @property
    def places(self):
        """The capacity of a software task."""
        return self.capacity.value if self.capacity else 1

    @property
    def is_software(self):
        return self.kind == "task" and self.binds is None

    def lists(self, name):
        """The listing of a shared resource, or None."""
        return next((row for row in self.shared if row.name.text == name), None)


@dataclass
class App:
    """An application. A row of `interrupts`, `shared` and `local` is a name, a number, and whether it is lock_free."""

    name: Token = None
    bits: int = 0
    fpu: bool = False
    dispatchers: list = field(default_factory=list)
    interrupts: list = field(default_factory=list)
    monotonic: tuple = None
    shared: list = field(default_factory=list)
    local: list = field(default_factory=list)
    bodies: list = field(default_factory=list)

    @property
    def tasks(self):
        return [body for body in self.bodies if body.kind == "task"]

    def body(self, kind):
        return next((body for body in self.bodies if body.kind == kind), None)

    def task(self, name):
        return next((body for body in self.tasks if body.name.text == name), None)

    def bound_by(self, interrupt):
        """The task that binds an interrupt, or None."""
        return next((body for body in self.tasks if body.binds and body.binds.text == interrupt), None)

    def is_free(self, name):
        return any(token.text == name and free for token, _, free in self.shared)

    def levels(self):
        """The priorities of software tasks, the highest first."""
        return sorted({task.level for task in self.tasks if task.is_software}, reverse=True)


class Parser:
    """Reads an application from its tokens, which are known to be in the grammar.

    What is due is asked for by `skip`, `name`, `number` and `operand`, what may come by `has` and `word`: a reader of
    other texts answers these in its own way.
    """

    def __init__(self, text):
        self.tokens = list(tokens_of(text)) + [Token("end", "", len(text))]
        self.next = 0

    @property
    def front(self):
        return self.tokens[self.next]

    @property
    def last(self):
        """The token that was taken last."""
        return self.tokens[max(self.next - 1, 0)]

    def take(self):
        self.next += 1
        return self.tokens[self.next - 1]

    def skip(self, *texts):
        """Takes these tokens."""
        for text in texts:
            if self.take().text != text:
                raise ValueError(text)

    def has(self, text):
        """Takes a token where it is there, and says whether it was."""
        if self.front.text != text:
            return False
        self.next += 1
        return True

    def word(self, *texts):
        """Takes one of these tokens where one is there: the token, or None."""
        return self.take() if self.front.text in texts else None

    def name(self, role):
        """Takes a name. Its role is what it names there: the kind of what it declares has `new` before it."""
        return self.take()

    def number(self):
        return self.take()

    def operand(self, role):
        """Takes a name or a number of an expression: its value is one to read, or a handle."""
        return self.take()

    def rows(self, close, row):
        """The rows of a list up to its closing sign."""
        found = []
        while not self.has(close):
            found.append(row())
            self.has(",")
        return found

    def app(self):
        app = App()
        self.skip("app")
        app.name = self.name("new application")
        self.skip("(", "bits", "=")
        app.bits = self.number().value
        has_more = self.has(",")
        if has_more and self.has("dispatchers"):
            self.skip("=", "[")
            app.dispatchers = self.rows("]", lambda: self.name("dispatcher"))
            has_more = self.has(",")
        if has_more:
            self.skip("fpu", "=", "on")
            app.fpu = True
        self.skip(")", ";", "interrupts", "{")
        app.interrupts = self.rows("}", lambda: self.declared("interrupt"))
        self.declarations(app)
        return app

    def declarations(self, app):
        """All that comes after the interrupts."""
        while self.front.kind != "end":
            self.declaration(app, self.word(*DECLARED))

    def declaration(self, app, word):
        """What comes after the first word of a declaration."""
        if word.text == "monotonic":
            self.skip("(", "binds", "=")
            binds = self.name("monotonic")
            self.skip(",", "priority", "=")
            app.monotonic = (word, binds, self.number())
            self.skip(")", ";")
        elif word.text == "shared":
            self.skip("{")
            app.shared = self.rows("}", lambda: self.declared("shared"))
        elif word.text == "local":
            self.skip("{")
            app.local = self.rows("}", lambda: self.declared("local"))
        else:
            app.bodies.append(self.body(word))

    def declared(self, kind):
        """A name with its number, and whether it is lock_free."""
        free = kind == "shared" and self.has("lock_free")
        name = self.name(f"new {kind}")
        self.skip("=")
        return name, self.number(), free

    def body(self, word):
        body = Body(word.text, self.name("new task") if word.text == "task" else word, word.at)
        if self.has("("):
            given = []
            self.rows(")", lambda: self.option(body, given))
        if word.text == "task" and self.has("with"):
            body.arguments.append(self.name("new argument"))
            while self.has(","):
                body.arguments.append(self.name("new argument"))
        body.block = self.block()
        return body

    def option(self, body, given):
        """An option of a body, which is none of the given ones."""
        word = self.word(*(text for text in OPTIONS[body.kind] if text not in given))
        given.append(word.text)
        self.option_value(body, word.text)

    def option_value(self, body, word):
        """What comes after the word of an option."""
        self.skip("=")
        if word == "shared":
            self.skip("[")
            body.shared = self.rows("]", self.listing)
        elif word == "local":
            self.skip("[")
            body.local = self.rows("]", lambda: self.name("listed local"))
        elif word == "binds":
            body.binds = self.name("bound")
        else:
            setattr(body, word, self.number())

    def listing(self):
        at = self.front.at
        by_ref = self.has("&")
        return Listing(self.name("listed by &" if by_ref else "listed shared"), by_ref, at)

    def block(self):
        """The statements between two braces."""
        self.skip("{")
        found = Block()
        found.at = self.last.at
        while not self.has("}"):
            found.append(self.statement())
            found[-1].end = self.last.end
        found.end = self.last.end
        return found

    def statement(self):
        word = self.word("let", "if", "for", "lock", "emit", "pend", *CALLS)
        if word is None:
            name = self.name("assign")
            self.skip("=")
            found = Stmt("assign", name.at, name, self.expr())
        elif word.text in CALLS:
            found = Stmt("call", word.at, value=self.call(word))
        elif word.text == "let":
            found = Stmt("let", word.at, self.name("new variable"))
            self.skip("=")
            found.value = self.value()
        elif word.text == "emit":
            found = Stmt("emit", word.at, value=self.expr())
        elif word.text == "pend":
            found = Stmt("pend", word.at, self.name("pend"))
        else:
            return getattr(self, word.text + "_")(word)
        self.skip(";")
        return found

    def if_(self, word):
        found = Stmt("if", word.at, value=self.expr(), block=self.block())
        if self.has("else"):
            found.other = self.block()
        return found

    def for_(self, word):
        found = Stmt("for", word.at, self.name("new variable"))
        self.skip("in")
        first = self.number().value
        self.skip("..")
        found.turns = (first, self.number().value)
        found.block = self.block()
        return found

    def lock_(self, word):
        found = Stmt("lock", word.at, self.name("lock"))
        if self.has(","):
            inner = self.lock_(self.front)
            inner.end = self.last.end
            found.block = Block([inner])
            found.block.at, found.block.end = inner.block.at, inner.block.end
        else:
            found.block = self.block()
        return found

    def value(self):
        """What comes after `let x =`: an expression, the token `now`, or a call."""
        word = self.word("now", *CALLS)
        if word is None:
            return self.expr()
        return word if word.text == "now" else self.call(word)

    def call(self, word):
        delay = None
        if word.text.endswith("_after"):
            self.skip("(")
            delay = self.expr()
            self.skip(")")
        task = self.name(word.text)
        self.skip("(")
        if word.text.startswith("spawn"):
            return Call(word, task, delay, self.rows(")", self.expr))
        handle = self.expr("handle")
        self.skip(")")
        return Call(word, task, delay, [handle])

    def expr(self, role="read"):
        left = self.level(0, role)
        sign = self.word(*COMPARISONS)
        return Expr(sign=sign.text, left=left, right=self.level(0, role)) if sign else left

    def level(self, rank, role):
        """An operand, and the operations with it whose signs are of this rank or bind more tightly."""
        left = self.atom(role)
        while sign := self.word(*SIGNS_FROM[rank]):
            left = Expr(sign=sign.text, left=left, right=self.level(RANKS[sign.text] + 1, role))
        return left

    def atom(self, role):
        if not self.has("("):
            return Expr(self.operand(role))
        inner = self.expr(role)
        self.skip(")")
        return inner


def tree_of(text):
    """The tree of a text of the grammar."""
    return Parser(text).app()
