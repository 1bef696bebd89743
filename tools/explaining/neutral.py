"""What takes a refusal of a rule, E05 to E18, out of a text of the grammar and leaves all else as it is: edits.

With them the program goes on behind the refusal. A use is replaced by a value or a statement that breaks no rule, a
declaration by one of a name that nothing else has.
"""
from .costs import Costs, armed_tasks
from .rules import Rules
from .tokens import tokens_of
from .tree import CALLS, tree_of
from .walk import statements_of, uses_of

HARMLESS = "emit 0;"
NUMBERS = 496


class Neutral:
    """The edits that take out the refusal at a place, and the name and the body that it is about."""

    def __init__(self, patched, at, number):
        self.patched, self.at, self.number = patched, at, number
        self.app = tree_of(patched.text)
        self.rules = Rules(self.app, at)
        self.tokens = list(tokens_of(patched.text))
        self.index = {token.at: place for place, token in enumerate(self.tokens)}
        self.name, self.body = None, None
        self.edits = getattr(self, f"e{number:02}")()

    # Parts of the text.

    def token(self, at):
        return self.tokens[self.index[at]]

    def behind(self, at, text):
        """The first token with a text from a place on."""
        return next(token for token in self.tokens[self.index[at] :] if token.text == text)

    def found(self):
        """The body and the use at the place."""
        self.body, use = self.rules.use()
        self.name = use.token.text if use else None
        return self.body, use

    def out_of_list(self, start, last):
        """Takes an item of a list out, with a comma at one of its sides: from its first token to its last."""
        place, end = self.index[start], self.index[last]
        if self.tokens[end + 1].text == ",":
            return [(start, self.tokens[end + 1].end, "")]
        if self.tokens[place - 1].text == ",":
            return [(self.tokens[place - 1].at, self.tokens[end].end, "")]
        return [(start, self.tokens[end].end, "")]

    def declared(self, word, row):
        """Puts a row in front of the others of a declaration, which is there."""
        place = next(number for number, token in enumerate(self.tokens[:-1])
                     if token.text == word and self.tokens[number + 1].text == "{")
        return [(self.tokens[place + 1].end, self.tokens[place + 1].end, f" {row}, ")]

    def fresh_interrupt(self, token):
        """Another interrupt in the place of a token, declared for it."""
        name = self.patched.fresh()[0]
        return [(token.at, token.end, name)] + self.declared("interrupts", f"{name} = {self.free_number()}")

    def free_number(self):
        used = {row[1].value for row in self.app.interrupts}
        return next(number for number in reversed(range(NUMBERS)) if number not in used)

    def renamed(self, tokens, name):
        return [(token.at, token.end, name) for token in tokens]

    def listed_anew(self, kind, row):
        """Another resource for a listing, and for all uses of it in its body."""
        body, _, listing = self.rules.listing()
        token = listing.name if hasattr(listing, "name") else listing
        self.body, self.name = body, token.text
        uses = [use.token for use in uses_of(body) if use.token.text == token.text
                and use.role in ("read", "assign", "lock") and use.around.variable(token.text) is None]
        name = self.patched.fresh()[0]
        return self.renamed([token] + uses, name) + self.declared(kind, row.replace("N", name))

    # Uses.

    def statement(self, use):
        """The statement of the body whose value is a call, or that assigns."""
        return next(one for one in statements_of(self.body.block) if one is use.node or one.value is use.node)

    def unlocked(self, statement):
        """A lock of one name less: a condition that holds in its place, or no name before or after a comma."""
        place = self.index[statement.name.at]
        before, after = self.tokens[place - 1], self.tokens[place + 1]
        if before.text == "lock" and after.text != ",":
            return [(before.at, statement.name.end, "if 1")]
        return self.out_of_list(statement.name.at, statement.name.at)

    def uncalled(self, use):
        """A number in the place of a call that is a value, or a harmless statement."""
        statement = self.statement(use)
        if statement.kind == "call":
            return [(statement.at, statement.end, HARMLESS)]
        return [(use.node.word.at, statement.end, "0;")]

    def unused(self, use):
        """Takes out one use of a name."""
        if use.role in CALLS:
            return self.uncalled(use)
        if use.role == "lock":
            return self.unlocked(use.node)
        if use.role == "pend":
            return [(use.node.at, use.node.end, HARMLESS)]
        if use.role == "assign":
            return [(use.token.at, self.behind(use.token.at, "=").end, "emit ")]
        return [(use.token.at, use.token.end, "0")]

    # The numbers.

    def e05(self):
        wanted, token, body, use = self.rules.wanted()
        self.name, self.body = token.text, body
        if use:
            return self.unused(use)
        if wanted == "interrupt":
            return self.fresh_interrupt(token)
        self.body, _, row = self.rules.listing()
        return self.out_of_list(self.at, token.at)

    def e06(self):
        app = self.app
        for tokens in ([row[0] for row in app.interrupts], [task.name for task in app.tasks],
                       [row[0] for row in app.shared + app.local]):
            second = next((token for token in tokens if token.at == self.at), None)
            if second:
                self.name = second.text
                return self.renamed([second], self.patched.fresh()[0])
        body, kind, row = self.rules.listing()
        if body:
            token = row.name if kind == "shared" else row
            self.name, self.body = token.text, body
            return self.out_of_list(self.at, token.at)
        return self.shadow()

    def shadow(self):
        """A variable of another name, with all its uses."""
        body, use = self.found()
        uses = [one.token for one in uses_of(body) if one.role in ("read", "assign") and one.token.text == self.name
                and (one.around.variable(self.name) or (None,))[0] is use.token]
        return self.renamed([use.token] + uses, self.patched.fresh()[0])

    def e07(self):
        """A priority that other tasks have, so that no other rule is broken by it."""
        app, most = self.app, 1 << self.app.bits
        owner = next((task for task in app.tasks if task.priority and task.priority.at == self.at), None)
        self.body = owner
        token = owner.priority if owner else app.monotonic[2]
        level = most if owner is None else 1
        if owner:
            free = {row.name.text for row in owner.shared if app.is_free(row.name.text)}
            others = [task.level for task in app.bodies
                      if task is not owner and free & {row.name.text for row in task.shared}]
            same = [task.level for task in app.tasks if task is not owner and task.is_software and owner.is_software]
            level = next((one for one in others + same if 1 <= one <= most), 1)
        return [(token.at, token.end, str(level))]

    def e08(self):
        row = next((row for row in self.app.interrupts if row[1].at == self.at), None)
        if row:
            self.name = row[0].text
            return [(row[1].at, row[1].end, str(self.free_number()))]
        self.name = self.token(self.at).text
        return self.fresh_interrupt(self.token(self.at))

    def e09(self):
        """More dispatchers, as many as there are priorities."""
        app = self.app
        names = self.patched.fresh(len(app.levels()))
        listed = next((place for place, token in enumerate(self.tokens) if token.text == "dispatchers"), None)
        used = {row[1].value for row in app.interrupts}
        free = [number for number in reversed(range(NUMBERS)) if number not in used]
        rows = ", ".join(f"{name} = {number}" for name, number in zip(names, free))
        if listed:
            start = self.tokens[listed + 2].end
            edits = [(start, start, ", ".join(names) + ", ")]
        else:
            bits = self.behind(self.at, "=").at
            start = self.tokens[self.index[bits] + 1].end
            edits = [(start, start, f", dispatchers = [{', '.join(names)}]")]
        return edits + self.declared("interrupts", rows)

    def e10(self):
        return self.listed_anew("local", "N = 0")

    def e11(self):
        _, use = self.found()
        return self.unused(use)

    def e12(self):
        _, use = self.found()
        return self.unlocked(use.node)

    def e13(self):
        """The listing in the form of the first."""
        body, _, row = self.rules.listing()
        self.body, self.name = body, row.name.text
        return [(row.at, row.name.end, self.name if row.by_ref else f"&{self.name}")]

    def e14(self):
        return self.listed_anew("shared", "lock_free N = 0")

    def e15(self):
        _, use = self.found()
        if use:
            return self.uncalled(use)
        task = self.body = self.rules.body()
        self.name = task.name.text
        if task.capacity:
            word = self.tokens[self.index[task.capacity.at] - 2]
            return self.out_of_list(word.at, task.capacity.at)
        first, brace = self.tokens[self.index[task.arguments[0].at] - 1], self.behind(self.at, "{")
        variables = "".join(f" let {token.text} = 0;" for token in task.arguments)
        return [(first.at, brace.at, ""), (brace.end, brace.end, variables)]

    def e16(self):
        _, use = self.found()
        if use.role == "now":
            return [(use.token.at, use.token.end, "0")]
        if use.role != "spawn_after":
            return self.uncalled(use)
        return [(use.node.word.at, use.node.task.at, "spawn ")]

    def e17(self):
        """The body without the statement that costs most, or counts most."""
        body = self.body = self.rules.body()
        app = self.app
        armed = armed_tasks(app, [use for one in app.bodies for use in uses_of(one)])
        places = sum(task.places for task in armed)
        costs = Costs(app, places)
        self.name = body.name.text
        measured = costs if costs.body(body) > 1_000_000 else Costs(app, places, True)
        worst = max(body.block, key=measured.statement)
        return [(worst.at, worst.end, HARMLESS)]

    def e18(self):
        _, use = self.found()
        return self.unused(use)
