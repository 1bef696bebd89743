"""What is shown of the name or word under the cursor: its declaration, and the numbers of `check`."""
from explaining.tree import Call
from explaining.tokens import Token

from .sentences import TOLD

SOME = 8
BOUNDS = "docs/BOUNDS.md"


def ticked(tokens):
    """Names in a row, the first of many."""
    names = [f"`{token.text}`" for token in tokens]
    return ", ".join(names[:SOME]) + (f" and {len(names) - SOME} more" if len(names) > SOME else "")


def counted(number, noun):
    return f"{number:,} {noun}{'' if number == 1 else 's'}"


class Hover:
    """What is said of one text; its report is that of `check`, or the line of a refusal, or None."""

    def __init__(self, text, report):
        self.app = text.app
        self.text = text
        self.report = report if not isinstance(report, str) else None
        self.refusal = report if isinstance(report, str) else None

    def number(self, table, key, form):
        """A number of the report in a phrase, or nothing."""
        found = getattr(self.report, table).get(key) if self.report else None
        return [form.format(f"{found:,}")] if found is not None else []

    def wait(self, level):
        """The waiting bound of a priority."""
        found = self.report.waits.get(level) if self.report else None
        if found is None:
            return []
        held = f"lower ones hold priority {level} off for fewer than {found:,} core steps"
        return [f"{held if found else f'no lower one holds priority {level} off'} (`wait {level}`)"]

    def bounds(self, name):
        """Cost and frame of a body."""
        return self.number("costs", name, "cost {} core steps") + self.number("frames", name, "frame {} words")

    # What a token is.

    def of(self, offset):
        """The token at an offset, and lines on it; None where there is nothing to say."""
        found = self.text.names.at(offset)
        if found:
            return found.token, self.symbol(found.symbol)
        token = next((one for one in self.text.tokens if one.at <= offset <= one.end and one.text in TOLD), None)
        return (token, self.word(token)) if token else None

    def word(self, token):
        """A word of the language: what it means, and the numbers of what it stands before."""
        lines = [f"`{token.text}`", TOLD[token.text]]
        body = next((one for one in self.app.bodies if one.at == token.at), None)
        if body and body.kind != "task":
            lines += self.bounds(body.kind)
        elif body:
            lines += self.task(body)
        elif self.app.monotonic and token.at == self.app.monotonic[0].at:
            lines += self.monotonic()
        elif token.text == "app" and self.report:
            lines.append(self.stack())
        elif token.text == "priority":
            lines += self.priority(token)
        return lines + self.refused()

    def priority(self, token):
        """The option `priority`: the wait of the priority that is written."""
        at = self.text.tokens.index(token) + 2
        number = self.text.tokens[at] if at < len(self.text.tokens) else token
        return self.wait(number.value) if number.kind == "number" else []

    def symbol(self, symbol):
        kind = symbol.kind
        lines = getattr(self, kind if kind in ("application", "interrupt") else {
            "task": "task", "shared": "resource", "local": "resource"}.get(kind, "variable"))(
                symbol.node if kind == "task" else symbol)
        return lines + self.refused()

    def refused(self):
        return [f"No bounds: `check` refuses the text, {self.refusal}"] if self.refusal else []

    def stack(self):
        return f"the stack needs {self.report.stack:,} bytes (`stack`)"

    def application(self, symbol):
        most = 2 ** self.app.bits
        lines = [f"application `{symbol.token.text}`", f"{self.app.bits} priority bits: priorities are 1 to {most}"]
        return lines + ([self.stack()] if self.report else [])

    def interrupt(self, symbol):
        name, number, _ = symbol.node
        task = self.app.bound_by(name.text)
        lines = [f"interrupt `{name.text}`, number {number.text}"]
        dispatchers = [token.text for token in self.app.dispatchers]
        if task:
            return lines + [f"bound by the task `{task.name.text}`, priority {task.level}"] + self.wait(task.level)
        if name.text in dispatchers:
            return lines + self.dispatcher(dispatchers.index(name.text))
        if self.app.monotonic and self.app.monotonic[1].text == name.text:
            return lines + self.monotonic()
        return lines + ["it serves nothing"]

    def dispatcher(self, place):
        """What the dispatcher of a place in the list serves."""
        levels = self.app.levels()
        if place >= len(levels):
            return ["a dispatcher that serves no priority: " + counted(len(levels), "level") + " of software tasks"]
        level = levels[place]
        tasks = [task.name for task in self.app.tasks if task.is_software and task.level == level]
        return [f"the dispatcher of priority {level}, which runs {ticked(tasks)}"] + self.wait(level)

    def monotonic(self):
        _, binds, priority = self.app.monotonic
        lines = [f"the monotonic: the interrupt `{binds.text}`, priority {priority.text}"]
        return lines + self.number("ceilings", "timer.0", "ceiling of the timer queue {}") + self.wait(priority.value)

    def task(self, task):
        name = task.name.text
        if task.binds:
            lines = [f"hardware task `{name}`, bound to `{task.binds.text}`, priority {task.level}"]
        else:
            levels, served = self.app.levels(), self.app.dispatchers
            place = levels.index(task.level)
            by = f", run by the dispatcher `{served[place].text}`" if place < len(served) else ""
            lines = [f"software task `{name}`, priority {task.level}{by}", f"{counted(task.places, 'place')} for "
                     "messages" + (f" with {ticked(task.arguments)}" if task.arguments else "")]
            lines += self.number("ceilings", f"free.{name}", "ceiling of its free places {}")
        return lines + self.bounds(name) + self.wait(task.level)

    def resource(self, symbol):
        name, first, is_free = symbol.node
        lines = [f"{'lock_free ' * is_free}{symbol.kind} resource `{name.text}`, first value {first.text}"]
        if symbol.kind == "local":
            bodies = [body.name for body in self.app.bodies if any(row.text == name.text for row in body.local)]
            return lines + [f"of {ticked(bodies)}" if bodies else "no body lists it"]
        lines += self.number("ceilings", name.text, "ceiling {}")
        rows = [(body, body.lists(name.text)) for body in self.app.bodies if body.lists(name.text)]
        users = [f"`{'&' * row.by_ref}{name.text}` by `{body.name.text}` ({body.level})" for body, row in rows[:SOME]]
        more = f" and {len(rows) - SOME} more" if len(rows) > SOME else ""
        return lines + ["listed as " + ", ".join(users) + more if users else "no body lists it"]

    def variable(self, symbol):
        name, body = symbol.token.text, symbol.body.name.text
        if symbol.kind == "argument":
            return [f"argument `{name}` of the task `{body}`"]
        if symbol.kind == "loop":
            first, last = symbol.node.turns
            return [f"variable `{name}` of a loop over {first} to {last - 1}, which the loop alone sets"
                    if first < last else f"variable `{name}` of a loop that does not run"]
        return [f"variable `{name}` of `{body}`{self.bound_to(symbol.node.value)}"]

    @staticmethod
    def bound_to(value):
        """What a variable begins with."""
        if isinstance(value, Token):
            return ": the time in ticks"
        if not isinstance(value, Call):
            return ""
        what = "the handle" if value.word.text == "spawn_after" else "the answer"
        return f": {what} of `{value.word.text}` of `{value.task.text}`"


def hover(text, report, offset):
    """What an editor shows at an offset, or None."""
    found = Hover(text, report).of(offset)
    if not found:
        return None
    token, (title, *lines) = found
    marked = title if title.startswith("`") and title in ("`" + word + "`" for word in TOLD) else f"**{title}**"
    return {"contents": {"kind": "markdown", "value": "\n\n".join([marked] + lines)}, "range": text.range_of(token)}
