"""E05 to E18: which cause it is, where the first one is, and how to mend it."""
import difflib
import re

from .costs import MOST_CODE, MOST_STEPS, Costs, armed_tasks, sizes_before
from .table import Phrase
from .tokens import Token, all_near
from .tree import CALLS, Call
from .walk import Round, statements_of, uses_of, value_uses

KINDS = {
    "interrupt": "an interrupt", "task": "a task", "shared": "a shared resource", "local": "a local resource",
    "variable": "a variable", "value": "a value",
}
OF_NUMBERS = {
    "true": 1, "false": 0, "null": 0, "nullptr": 0, "nil": 0, "none": 0, "pdtrue": 1, "pdpass": 1, "pdfalse": 0,
    "pdfail": 0,
}
EXCEPTIONS = ("systick", "pendsv", "svcall", "svc", "nmi", "hardfault", "memmanage", "busfault", "usagefault")
LIKE_DIGITS = {"O": 0, "o": 0, "l": 1, "I": 1}
HEXADECIMAL = re.compile(
    r"(?P<a>[0-9A-F]{2,})h|(?P<b>[A-Fa-f]+[0-9][0-9A-Fa-f]*)[hH]|[xX](?P<c>(?=.*[0-9])[0-9A-Fa-f]{2,8})|F{2,8}"
)
FEW, MOST_TRIED, MOST_NAMES = 4, 12, 6
# how far the program comes with another name at a place
REFUSED, FURTHER, TAKEN = range(3)
BINARY = re.compile(r"[Bb]([01]{2,32})")
CONSTANT = re.compile(r"[A-Z][A-Z0-9_]+")
ROLES = {"pend": "interrupt", "lock": "shared", "read": "value", "assign": "value", **{word: "task" for word in CALLS}}


def likeness(name, other):
    """How alike two names are, from 0 to 1, capitals and small letters alike."""
    return difflib.SequenceMatcher(None, name.lower(), other.lower()).ratio()


def counted(number, one, many=None):
    """A number with its noun: `1 value`, `2 values`, `no values`."""
    many = many or one + "s"
    return f"{number:,} {one}" if number == 1 else f"{number or 'no':,} {many}" if number else f"no {many}"


class Rules:
    """One application of the grammar, and the place at which it is refused."""

    def __init__(self, app, at, stands=None):
        self.app = app
        self.at = at
        self.stands = stands
        self.causes = []
        self.notes = []
        self.helps = []

    # What is said.

    def row(self, table, key, **values):
        """The cause and the mending of a row of the table."""
        self.causes.append(table.cause(key, **values))
        self.helps.append(table.mending(key, **values))

    def note(self, sentence, token, at=None, length=None):
        start = token.at if at is None else at
        self.notes.append((sentence, start, length or len(token.text)))

    def help(self, sentence):
        self.helps.append(sentence)

    # What is at the place.

    def use(self):
        """The body and the use at the place, or None twice; the scopes are those of the place."""
        for body in self.app.bodies:
            for use in uses_of(body):
                if self.at in (use.token.at, use.node.word.at if use.role in CALLS else -1):
                    return body, use
        return None, None

    def listing(self):
        """The body, the list and the row at the place."""
        for body in self.app.bodies:
            for row in body.shared:
                if self.at in (row.at, row.name.at):
                    return body, "shared", row
            for name in body.local:
                if self.at == name.at:
                    return body, "local", name
        return None, None, None

    def body(self):
        return next((body for body in self.app.bodies if body.name.at == self.at), None)

    def declared(self, name):
        """What a name is declared as: kinds with their tokens."""
        app = self.app
        found = [("interrupt", row[0]) for row in app.interrupts]
        found += [("task", task.name) for task in app.tasks]
        found += [("shared", row[0]) for row in app.shared] + [("local", row[0]) for row in app.local]
        return [(kind, token) for kind, token in found if token.text == name]

    def names_of(self, kind):
        """All names of a kind."""
        app = self.app
        rows = {"interrupt": app.interrupts, "shared": app.shared, "local": app.local}
        if kind == "value":
            return [row[0].text for row in app.shared + app.local]
        return [task.name.text for task in app.tasks] if kind == "task" else [row[0].text for row in rows[kind]]

    def listings_of(self, name):
        """All listings of a shared resource, in the order of the text."""
        return [(body, row) for body in self.app.bodies for row in body.shared if row.name.text == name]

    # The numbers.

    def e05(self, table):
        wanted, token, body, use = self.wanted()
        name = token.text
        if use and use.role in ("read", "assign") and any(row[0].text == name for row in self.app.local):
            return self.unlisted(table, name, body)
        if use and wanted in ("value", "shared") and self.variable(table, name, body, use, wanted):
            return None
        if use and wanted == "task" and self.exchanged(table, name, use):
            return None
        others = self.declared(name)
        if others:
            return self.other_kind(table, name, wanted, *others[0])
        self.row(table, f"E05 {wanted}", N=name)
        if wanted == "interrupt" and (bare := re.sub(r"_?(irqn|handler)$", "", name.lower())) in EXCEPTIONS:
            timers = ": that of a timer takes its place" * (bare == "systick")
            self.helps = [f"`{name}` is an exception of the core, and no interrupt{timers}"]
        elif name in ("true", "false"):
            self.helps = ["`true` is 1 and `false` is 0"]
        elif name.lower() in OF_NUMBERS:
            number = OF_NUMBERS[name.lower()]
            self.helps = [f"there is no `{name}`: a value is a number, and elsewhere this one is {number}"]
        elif name in LIKE_DIGITS:
            self.help(f"if a digit is meant, it is `{LIKE_DIGITS[name]}`")
        elif hexadecimal := HEXADECIMAL.fullmatch(name):
            digits = hexadecimal["a"] or hexadecimal["b"] or hexadecimal["c"] or name
            self.help(f"if a hexadecimal number is meant: it begins with `0x`, as `0x{digits}`")
        elif binary := BINARY.fullmatch(name):
            self.help(f"if a binary number is meant: there are none, and it is {int(binary[1], 2)}")
        elif wanted == "value" and CONSTANT.fullmatch(name):
            self.help("if a constant is meant: there are none, and a number is written where it is used")
        self.similar(name, wanted, use)
        if use and wanted == "value" and sorted(name.lower()) == sorted("now"):
            self.help("if the time is meant: it is the value of `let x = now;`")
        self.instead(name, wanted, use)
        return None

    def instead(self, name, wanted, use):
        """The names with which the program takes the text, those that are most alike first: which one is meant is not
        known here."""
        names = self.names_of(wanted)
        if wanted == "task":
            names = [task.name.text for task in self.app.tasks if task.is_software]
        elif use and wanted == "value":
            names = [one for scope in use.around.scopes for one in scope] + names
        rows = sorted(dict.fromkeys(names), key=lambda one: -likeness(name, one))
        taken = [one for one in rows[:MOST_TRIED] if self.stands is None or self.stands(one) == TAKEN][:MOST_NAMES]
        if taken:
            told = ", ".join(f"`{one}`" for one in taken)
            self.help(f"{'a name' if len(taken) == 1 else 'names'} that can come here: {told}")

    def exchanged(self, table, name, use):
        """Whether the handle comes before the task in a `cancel` or a move; then it is said."""
        inner = use.node.arguments[0] if use.role in ("cancel", "reschedule_after") and use.node.arguments else None
        task = self.app.task(inner.token.text) if inner is not None and inner.token is not None else None
        if task is None or self.app.task(name) or not (use.around.variable(name) or self.declared(name)):
            return False
        self.row(table, "E05 task", N=name)
        form = use.role if use.role == "cancel" else f"{use.role}(100)"
        self.helps = [f"the task comes first, and its handle in the parentheses: `{form} t(h);`"]
        return True

    def wanted(self):
        """The kind of name that is due at the place, its token, and the body and use where it is in one."""
        app = self.app
        named = app.dispatchers + ([app.monotonic[1]] if app.monotonic else [])
        named += [task.binds for task in app.tasks if task.binds]
        for token in named:
            if token.at == self.at:
                return "interrupt", token, None, None
        body, kind, row = self.listing()
        if body:
            return kind, row.name if kind == "shared" else row, None, None
        body, use = self.use()
        return ROLES[use.role], use.token, body, use

    def unlisted(self, table, name, body):
        rows = [(other, token) for other in self.app.bodies for token in other.local if token.text == name]
        begins = rows and body.kind == "init"
        self.row(table, "E05 unlisted init" if begins else "E05 unlisted", N=name, B=body.name.text)
        for other, token in rows:
            self.note(f"it is listed here, by `{other.name.text}`", token)

    def variable(self, table, name, body, use, wanted):
        """Whether the name is a variable, here or elsewhere; then it is said."""
        scoped = use.around.variable(name)
        if scoped and wanted == "shared":
            self.row(table, "E05 resource", N=name, K=Phrase(KINDS["variable"]), W=Phrase(KINDS[wanted]))
            self.help("a variable is of one body alone, and needs no lock")
            self.note(f"`{name}` is declared here", scoped[0])
            return True
        if self.declared(name):
            return False
        rows = [(other, found) for other in self.app.bodies for found in uses_of(other)
                if found.role in ("bind", "loop", "argument") and found.token.text == name]
        own = [found for other, found in rows if other is body]
        scoped = [one for scope in use.around.scopes for one in scope]
        if not rows or not own and any(one.lower() == name.lower() for one in scoped):
            return False
        before = [found for found in own if found.token.at < self.at and self.closed(found)]
        key = "E05 ended" if before else "E05 later" if own else "E05 elsewhere"
        if key == "E05 later" and own[0].role == "bind" and own[0].token.at < self.at:
            key = "E05 itself"
        if before and before[-1].role == "loop":
            key = "E05 ended loop"
        self.row(table, key, N=name)
        found = before[-1] if before else own[0] if own else rows[0][1]
        self.note(f"`{name}` is declared here", found.token)
        return True

    def closed(self, found):
        """Whether the block of a variable that is declared before the place, and not in scope there, has ended."""
        return found.role == "loop" or not found.node.at <= self.at < found.node.end

    def other_kind(self, table, name, wanted, kind, token):
        key = "E05 kind" if wanted != "value" else "E05 value kind"
        if {wanted, kind} == {"shared", "local"}:
            key = "E05 resource"
        self.row(table, key, N=name, K=Phrase(KINDS[kind]), W=Phrase(KINDS[wanted]))
        self.note(f"`{name}` is declared here", token)
        task = self.app.task(name)
        if wanted == "interrupt" and kind == "task":
            self.no_interrupt(task)
        elif wanted == "task" and kind == "interrupt":
            self.no_task(name)
        elif wanted == "task":
            self.instead(name, wanted, None)
        elif wanted == "value" and kind == "interrupt":
            number = next(row[1].value for row in self.app.interrupts if row[0].text == name)
            self.help(f"an interrupt is no value: the number of `{name}` is {number}")
        elif wanted == "shared" and kind == "local":
            self.help("a local resource is of one body, and is used without a lock")
        elif wanted == "local" and kind == "shared":
            self.help(f"it is listed in `shared = [{name}]`")

    def no_interrupt(self, task):
        """A task in the place of an interrupt."""
        name = task.name.text
        if any(one.at == self.at for one in self.app.dispatchers):
            self.help("a dispatcher is an interrupt that nothing else uses: software tasks of one priority share it")
            self.unused()
        elif task.binds and task.binds.text == name:
            self.help(f"`binds` names the interrupt that `{name}` serves")
            self.unused()
        elif task.binds:
            self.help(f"the interrupt of the task `{name}` is `{task.binds.text}`")
        else:
            self.help(f"`{name}` is a software task: `spawn {name}(..);` sends it a message")

    def no_task(self, name):
        """An interrupt in the place of a task."""
        if name in [one.text for one in self.app.dispatchers]:
            told = ", ".join(f"`{one}`" for one in self.dispatched(name)[:FEW])
            self.help(f"`{name}` is a dispatcher" + f", and serves {told}" * bool(told))
        elif self.app.monotonic and self.app.monotonic[1].text == name:
            self.help(f"`{name}` is the monotonic's, and no task's")
            self.instead(name, "task", None)
        else:
            self.help(f"`pend {name};` makes its task run")

    def dispatched(self, name):
        """The software tasks that a dispatcher serves."""
        place = [one.text for one in self.app.dispatchers].index(name)
        levels = list(self.app.levels())
        level = levels[place] if place < len(levels) else None
        return [task.name.text for task in self.app.tasks if task.is_software and task.level == level]

    def similar(self, name, wanted, use):
        """A name that differs in capitals alone, or in few letters, among those that are declared and in scope."""
        names = self.names_of(wanted)
        bare = re.sub(r"_?(IRQn?|Handler|IRQHandler|Interrupt|INTERRUPT)$", "", name)
        if wanted == "interrupt" and bare != name and bare in names:
            return self.help(f"an interrupt is named as it is declared: `{bare}`")
        variables = [one for scope in use.around.scopes for one in scope] if use and wanted == "value" else []
        same = next((one for one in names + variables if one.lower() == name.lower()), None)
        near = [one for one in all_near(name, names + variables, 0.7) if self.stands is None or self.stands(one)]
        if same and (self.stands is None or self.stands(same)):
            told = "is declared" if same in names else "is a variable here"
            return self.help(f"small letters and capitals are told apart: `{same}` {told}")
        if len(near) == 1:
            kind = KINDS["variable"] if near[0] not in names else "a resource" if wanted == "value" else KINDS[wanted]
            self.help(f"{kind} of a similar name is `{near[0]}`")
        return None

    def e06(self, table):
        """A second declaration, a second listing, or a variable with a name that is taken."""
        app = self.app
        groups = [("interrupt", [row[0] for row in app.interrupts]), ("task", [task.name for task in app.tasks]),
                  ("resource", [row[0] for row in app.shared + app.local])]
        for kind, tokens in groups:
            if any(token.at == self.at for token in tokens):
                return self.twice(table, kind, tokens)
        body, kind, _ = self.listing()
        if body:
            tokens = [row.name for row in body.shared] if kind == "shared" else body.local
            return self.twice(table, "listed", tokens, B=body.name.text)
        return self.shadow(table)

    def twice(self, table, kind, tokens, **values):
        second = next(token for token in tokens if self.at in (token.at, token.at - 1))
        first = next(token for token in tokens if token.text == second.text)
        self.row(table, f"E06 {kind}", N=second.text, **values)
        self.note(f"the first `{second.text}` is here", first)

    def shadow(self, table):
        body, use = self.use()
        name = use.token.text
        taken = [(kind, token) for kind, token in self.declared(name) if kind in ("shared", "local")]
        if taken:
            self.row(table, "E06 local" if taken[0][0] == "local" else "E06 named", N=name)
        elif use.role == "bind" and isinstance(use.node.value, (Call, Token)):
            word = use.node.value.word if isinstance(use.node.value, Call) else use.node.value
            self.row(table, "E06 answer", N=name, C=word.text)
        elif any(one.role == "loop" and one.token.text == name for one in uses_of(body)):
            self.row(table, "E06 loop", N=name)
        else:
            self.row(table, "E06 variable", N=name)
        first = taken[0][1] if taken else use.around.variable(name)[0]
        self.note(f"the first `{name}` is here", first)
        return body

    def e07(self, table):
        app = self.app
        tokens = [task.priority for task in app.tasks if task.priority] + ([app.monotonic[2]] if app.monotonic else [])
        value = next(token.value for token in tokens if token.at == self.at)
        greatest = max(token.value for token in tokens)
        needed = max((greatest - 1).bit_length(), 3)
        key = "E07 zero" if value == 0 else "E07" if needed <= 7 and value % 8 else "E07 value"
        if key == "E07 value" and needed <= 7 and greatest <= 2 * 2**app.bits:
            key = "E07"
        most, more = (Phrase(f"{2 ** bits:,}") for bits in (app.bits, needed))
        self.row(table, key, A=most, M=str(app.bits), N=str(needed), W=more)

    def e08(self, table):
        app = self.app
        numbers = [row for row in app.interrupts if row[1].at == self.at]
        if numbers:
            first = next(row for row in app.interrupts if row[1].value == numbers[0][1].value)
            self.row(table, "E08 number", A=Phrase(str(first[1].value)), N=first[0].text)
            return self.note("the first use is here", first[1])
        uses = [("dispatcher", token, "") for token in app.dispatchers]
        uses += [("monotonic", app.monotonic[1], "")] if app.monotonic else []
        uses += [("task", task.binds, task.name.text) for task in app.tasks if task.binds]
        name = next(token.text for _, token, _ in uses if token.at == self.at)
        kind, first, task = next(row for row in uses if row[1].text == name)
        self.row(table, f"E08 {kind}", N=name, T=task)
        return self.note("the first use is here", first)

    def e09(self, table):
        app, levels = self.app, self.app.levels()
        names = Phrase(counted(len(app.dispatchers), "dispatcher")).replace("no dispatchers", "no dispatcher")
        many = "are" if len(app.dispatchers) > 1 else "is"
        self.row(table, "E09", A=Phrase(counted(len(levels), "priority", "priorities")), M=Phrase(f"{names} {many}"))
        for level in levels:
            tasks = [task.name for task in app.tasks if task.is_software and task.level == level]
            told = ", ".join(f"`{token.text}`" for token in tasks)
            self.note(f"the priority {level} has the software task{'s' * (len(tasks) > 1)} {told}", tasks[0])
        spawned = {use.token.text for body in app.bodies for use in uses_of(body) if use.role in CALLS}
        for task in app.tasks:
            if task.is_software and task.name.text not in spawned:
                self.help(f"nobody spawns `{task.name.text}`; a task that serves an interrupt has `binds = I` among "
                          "its options")
        self.unused()

    def unused(self):
        """Interrupts that could serve what is asked for, because they serve nothing."""
        app = self.app
        used = {token.text for token in app.dispatchers} | {task.binds.text for task in app.tasks if task.binds}
        used |= {app.monotonic[1].text} if app.monotonic else set()
        used |= {use.token.text for body in app.bodies for use in uses_of(body) if use.role == "pend"}
        free = [f"`{row[0].text}`" for row in app.interrupts if row[0].text not in used]
        if free:
            verb = "is" if len(free) == 1 else "are"
            self.help(f"{' and '.join(free[:2])} {verb} declared and used by nothing")

    def e10(self, table):
        _, _, name = self.listing()
        first, token = next((body, row) for body in self.app.bodies for row in body.local if row.text == name.text)
        self.row(table, "E10 init" if first.kind == "init" else "E10", N=name.text, B=first.name.text)
        levels = {body.level for body in self.app.bodies if any(row.text == name.text for row in body.local)}
        if first.kind == "task" and len(levels) == 1:
            self.help(f"all that list it have the priority {first.level}: as `lock_free` in `shared` it needs no lock")
        self.note("it is listed first here", token)

    def e11(self, table):
        body, use = self.use()
        name, own = use.token.text, body.name.text
        row = body.lists(name)
        values = {"N": name, "B": own}
        declared = next(token for token, _, _ in self.app.shared if token.text == name)
        if body.kind == "init":
            return self.row(table, "E11 init", **values)
        if row is None:
            self.row(table, "E11 unlisted free" if self.app.is_free(name) else "E11 unlisted", **values)
            return self.alone(name, body)
        if use.role == "lock":
            self.row(table, "E11 free" if self.app.is_free(name) else "E11 read", **values)
            return self.note(f"`{name}` is declared here", declared) if self.app.is_free(name) else None
        if use.around.locks:
            return self.row(table, "E11 other", M=use.around.locks[-1].text, **values)
        self.row(table, "E11 outside", **values)
        self.condition(name, body)
        return self.alone(name, body)

    def condition(self, name, body):
        """A use in the condition of an `if`, which no lock inside its blocks is round."""
        for one in statements_of(body.block):
            if one.kind == "if" and any(use.token.at == self.at for use in value_uses(one.value, Round())):
                inner = any(each.kind == "lock" and each.name.text == name
                            for each in statements_of(one.block + one.other))
                told = f", and `lock {name}` is not taken again inside" * inner
                self.help(f"the condition is read before the block: a lock round the whole `if` is round both{told}")

    def alone(self, name, body):
        """A shared resource that one body alone has: a local one may be meant."""
        users = {one.name.text for one in self.app.bodies for use in uses_of(one)
                 if use.role in ("read", "assign", "lock") and use.token.text == name and one is not body}
        users |= {one.name.text for one, _ in self.listings_of(name) if one is not body}
        who = f"`{body.name.text}` alone lists `{name}`" if body.lists(name) else f"no other body uses `{name}`"
        if users == {"init"}:
            who = who.replace("no other body uses", "beside `init` no other body uses")
            self.help(f"{who}{', and `init` uses it' * bool(body.lists(name))}; what one body alone uses can be local, "
                      "with its first value in the declaration, and needs no lock")
        elif not users:
            self.help(f"{who}; what one body alone uses can be local, and needs no lock")

    def e12(self, table):
        body, use = self.use()
        name, node = use.token.text, use.node
        first = next(lock for lock in use.around.locks if lock.text == name)
        locks = [one for one in statements_of(body.block) if one.kind == "lock" and one.block.at == node.block.at]
        self.row(table, "E12 names" if first in [one.name for one in locks] else "E12", N=name)
        self.note("the lock round it is here", first)

    def e13(self, table):
        body, _, row = self.listing()
        name = row.name.text
        declared = next(token for token, _, _ in self.app.shared if token.text == name)
        if self.app.is_free(name):
            self.row(table, "E13 free", N=name)
            return self.note(f"`{name}` is declared here", declared)
        first, listed = self.listings_of(name)[0]
        told = {True: f"&{name}", False: name}
        self.row(table, "E13", B=body.name.text, N=name, A=told[row.by_ref], T=first.name.text, M=told[listed.by_ref])
        return self.note("it is listed first here", listed.name, listed.at, listed.name.end - listed.at)

    def e14(self, table):
        body, _, row = self.listing()
        first, listed = self.listings_of(row.name.text)[0]
        idle = "idle" in (body.kind, first.kind)
        self.row(table, "E14 idle" if idle else "E14", B=body.name.text, A=Phrase(str(body.level)), T=first.name.text,
                 M=Phrase(str(first.level)), N=row.name.text)
        self.note("it is listed first here", listed.name)

    def e15(self, table):
        body, use = self.use()
        task = self.body()
        if use is None:
            for key, there in (("E15 capacity", task.capacity), ("E15 arguments", task.arguments)):
                if there:
                    self.row(table, key, N=task.name.text, I=task.binds.text)
            return None
        name, task = use.token.text, self.app.task(use.token.text)
        if task.binds:
            key = "E15 hardware" if use.role.startswith("spawn") else "E15 handle"
            self.row(table, key, N=name, I=task.binds.text, C=use.role)
            self.instead(name, "task", None)
        else:
            sent = len(use.node.arguments)
            self.row(table, "E15 number", N=name, A=Phrase(counted(len(task.arguments), "value")),
                     M=Phrase(f"{sent or 'none'} {'is' if sent < 2 else 'are'} sent"))
        return self.note(f"`{name}` is declared here", task.name)

    def e16(self, table):
        body, use = self.use()
        self.row(table, "E16", N=use.role)
        self.unused()

    def e17(self, table):
        app, body = self.app, self.body()
        armed = armed_tasks(app, [use for one in app.bodies for use in uses_of(one)])
        places = sum(task.places for task in armed)
        costs = Costs(app, places)
        if costs.body(body) > MOST_STEPS:
            self.row(table, "E17", N=body.name.text, A=Phrase(f"{MOST_STEPS:,}"))
            worst = max(body.block, key=costs.statement)
            worst, cost = self.costliest(worst, costs)
            turns = worst.turns[1] - worst.turns[0]
            told = f", {turns:,} turns of a loop" if worst.kind == "for" else ""
            return self.worst(f"this statement costs most: {cost:,} core steps{told}", worst)
        sizes, total = Costs(app, places, True), sizes_before(app, armed)
        for one in app.bodies:
            total += sizes.body(one)
            if one is body:
                break
        self.row(table, "E17 code", N=body.name.text, A=Phrase(f"{total:,}"), M=Phrase(f"{MOST_CODE:,}"))
        worst = max(body.block, key=sizes.statement, default=None)
        if worst:
            size = sizes.statement(worst)
            self.worst(f"this statement counts most in `{body.name.text}`: {size:,} instructions", worst)
        return None

    def costliest(self, statement, costs):
        """A loop in it that costs more than is allowed by itself; an `if` or a lock round it is passed through."""
        while statement.kind in ("if", "lock"):
            inner = max(statement.block + statement.other, key=costs.statement)
            if costs.statement(inner) * 2 < costs.statement(statement):
                break
            statement = inner
        return statement, costs.statement(statement)

    def worst(self, sentence, statement):
        word = {"assign": statement.name, "call": None}.get(statement.kind)
        length = len(word.text) if word else len(statement.kind)
        if statement.kind == "call":
            length = len(statement.value.word.text)
        self.notes.append((sentence, statement.at, length))

    def e18(self, table):
        body, use = self.use()
        name = use.token.text
        variable = use.around.variable(name)
        if variable:
            self.row(table, "E18 loop", N=name)
            return self.note("its loop is here", variable[0])
        row = body.lists(name)
        self.row(table, "E18", N=name, B=body.name.text)
        return self.note("it is listed here", row.name, row.at, row.name.end - row.at)
