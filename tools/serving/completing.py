"""What may stand at the cursor: words of the language that the reader asks for there, and the names that fit."""
from explaining.tokens import WORDS
from explaining.tree import CALLS, DECLARED, Call
from explaining.walk import uses_of

from .sentences import TOLD
from .tolerant import read, with_cursor

# the kinds of the protocol
FUNCTION, FIELD, VARIABLE, KEYWORD, EVENT = 3, 5, 6, 14, 23
ALSO_WORDS = ("fpu", "on")
MONOTONIC_WORDS = ("spawn_after", "cancel", "reschedule_after", "now")


class Completion:
    """What may stand at one offset of a text. The tree is that of the text with a cursor there."""

    def __init__(self, text, offset):
        self.text = text
        tokens, self.replaced = with_cursor(text.tokens, offset)
        self.app, self.reader = read(text.data, tokens)
        self.at = self.replaced.at if self.replaced else offset
        self.role = self.reader.roles[-1] if self.reader.roles else None
        self.body = next((one for one in self.app.bodies if one.at < self.at <= one.block.end), None)
        self.around = self.scope()

    def scope(self):
        """What is round the cursor, where it is in a statement."""
        for use in uses_of(self.body) if self.body else ():
            if use.token.at == self.at:
                return use.around
        return None

    # Words.

    def words(self):
        """The words that may stand here: those of the grammar, less those that a rule refuses here for sure."""
        asked = {word for word in self.reader.asked if word in WORDS or word in ALSO_WORDS}
        if not self.app.monotonic:
            asked -= set(MONOTONIC_WORDS)
        if self.body and self.body.kind == "init":
            asked.discard("lock")
        if "task" in asked:
            asked -= self.out_of_order()
        if self.body and self.body.binds:
            asked -= {"capacity", "with"}
        if self.body and (self.body.capacity or self.body.arguments):
            asked.discard("binds")
        return sorted(asked)

    def out_of_order(self):
        """Declarations that cannot come here, because they are there already, or what comes after them is."""
        before = {token.text for token in self.tops() if token.at < self.at}
        behind = {token.text for token in self.tops() if token.at > self.at}
        first = max((DECLARED.index(word) for word in before), default=-1)
        last = min((DECLARED.index(word) for word in behind), default=len(DECLARED))
        return {word for place, word in enumerate(DECLARED)
                if not (first < place < last or word == "task" and last >= place)}

    def tops(self):
        """The words that begin declarations."""
        depth = 0
        for token in self.text.tokens:
            depth += {"{": 1, "(": 1, "}": -1, ")": -1}.get(token.text, 0)
            if depth == 0 and token.text in DECLARED and token.at != self.at:
                yield token

    # Names.

    def names(self):
        """Names that may stand here: a name, its kind for the editor, and what it is."""
        role = self.role
        if role in CALLS:
            return [(task.name.text, FUNCTION, called(role, task)) for task in self.app.tasks
                    if task.is_software and task.name.text]
        chosen = {
            "pend": self.pended, "bound": self.unused, "dispatcher": self.unused, "monotonic": self.unused,
            "listed shared": self.unlisted, "listed by &": self.unlisted, "listed local": self.free_locals,
            "lock": self.lockable, "read": self.readable, "handle": self.handles, "assign": self.writable,
        }.get(role)
        return list(chosen()) if chosen else []

    def interrupts(self, left_out=()):
        for name, number, _ in self.app.interrupts:
            if name.text and name.text not in left_out:
                yield name.text, EVENT, f"interrupt {number.text}"

    def pended(self):
        return self.interrupts()

    def unused(self):
        """Interrupts that serve nothing yet."""
        app = self.app
        used = app.dispatchers + ([app.monotonic[1]] if app.monotonic else [])
        used += [task.binds for task in app.tasks if task.binds]
        return self.interrupts({token.text for token in used if token.at != self.at})

    def unlisted(self):
        """Shared resources that the body does not list yet, in the way in which others list them."""
        listed = {row.name.text for row in self.body.shared if row.name.at != self.at}
        others = [(body, row) for body in reversed(self.app.bodies) for row in body.shared if row.name.at != self.at]
        first = {row.name.text: (body.level, row.by_ref) for body, row in others}
        by_ref = self.role == "listed by &"
        for name, value, is_free in self.app.shared:
            level, way = first.get(name.text, (self.body.level, by_ref and not is_free))
            if name.text not in listed and way == by_ref and not (is_free and level != self.body.level):
                yield name.text, FIELD, f"{'lock_free ' * is_free}shared = {value.text}"

    def free_locals(self):
        """Local resources of no body."""
        listed = {name.text for body in self.app.bodies for name in body.local if name.at != self.at}
        for name, first, _ in self.app.local:
            if name.text not in listed:
                yield name.text, FIELD, f"local = {first.text}"

    def locked(self):
        return {lock.text for lock in self.around.locks if lock.at != self.at} if self.around else set()

    def lockable(self):
        """Shared resources that the body lists plainly, and that are not locked here."""
        for row in self.body.shared if self.body and self.body.kind != "init" else ():
            name = row.name.text
            if not row.by_ref and not self.app.is_free(name) and name not in self.locked():
                yield name, FIELD, "shared resource"

    def resources(self, is_write):
        """Resources that may be used here without more locks."""
        if not self.body:
            return
        free = {name.text for name, _, is_free in self.app.shared if is_free}
        if self.body.kind == "init":
            usable = {name.text for name, _, _ in self.app.shared}
        else:
            usable = {row.name.text for row in self.body.shared
                      if row.by_ref and not is_write or not row.by_ref and row.name.text in self.locked() | free}
        for name, _, _ in self.app.shared:
            if name.text in usable:
                yield name.text, FIELD, "shared resource"
        for name in self.body.local:
            yield name.text, FIELD, "local resource"

    def variables(self, is_write):
        """Variables in scope, those of inner blocks first."""
        for scope in reversed(self.around.scopes) if self.around else ():
            for name, (_, is_loop) in scope.items():
                if name and not (is_write and is_loop):
                    yield name, VARIABLE, "variable of a loop" if is_loop else "variable"

    def readable(self):
        yield from self.variables(False)
        yield from self.resources(False)

    def writable(self):
        yield from self.variables(True)
        yield from self.resources(True)

    def handles(self):
        """What a handle can be read from: first the variables that a `spawn_after` gave."""
        bound = [use for use in uses_of(self.body) if use.role == "bind"] if self.body else []
        armed = {use.token.text for use in bound
                 if isinstance(use.node.value, Call) and use.node.value.word.text == "spawn_after"}
        found = sorted(self.readable(), key=lambda row: row[0] not in armed)
        return [(name, kind, "handle" if name in armed else what) for name, kind, what in found]


def called(role, task):
    """What comes after the name of a task that is sent a message, or one of whose messages is named."""
    values = ", ".join(name.text for name in task.arguments) if role.startswith("spawn") else "handle"
    return f"{task.name.text}({values})"


def is_in_comment(text, offset):
    """Whether an offset is in a comment."""
    end = max((token.end for token in text.tokens if token.end <= offset), default=0)
    if any(token.at < offset < token.end for token in text.tokens):
        return False
    return "//" in text.data[end:offset].rpartition("\n")[2]


def completions(text, offset):
    """The items of an editor's list at an offset."""
    if is_in_comment(text, offset):
        return []
    found = Completion(text, offset)
    end = found.replaced.end if found.replaced else offset
    where = text.range(found.at, end)
    items = []
    for name, kind, what in found.names():
        items.append(item(name, kind, what, f"0{len(items):03}", where))
    for word in found.words():
        one = item(word, KEYWORD, "word of the language", f"1{word}", where)
        items.append({**one, "documentation": {"kind": "markdown", "value": TOLD[word]}})
    return items


def item(name, kind, what, order, where):
    return {"label": name, "kind": kind, "detail": what, "sortText": order,
            "textEdit": {"range": where, "newText": name}}
