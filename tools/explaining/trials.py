"""Whether a suggestion holds: the text is made with it, and the program takes that.

A sentence that can be meant otherwise is told only where its proof holds of the text (habits.py).
"""
from .tokens import between

ENDS = (";", "{", "}")


class Trials:
    """Changes at the place of a refusal that the program tries, each once."""

    def __init__(self, text, at, program):
        self.text, self.at, self.program = text, at, program
        self.known = {}

    @property
    def can(self):
        """Whether there is a program to ask."""
        return self.program is not None and self.program.answers

    def takes(self, start, stop, put):
        """Whether the program takes the whole text with this in the place of what is there."""
        key = start, stop, put
        if self.can and key not in self.known:
            self.known[key] = self.takes_text(f"{self.text[:start]} {put} {self.text[stop:]}")
        return self.known.get(key, False)

    def takes_text(self, text):
        """Whether the program takes a text."""
        return self.can and self.program.ask("check", self.program.file("tried", text))[0] == 0


def begins_with(words):
    """The proof of a sentence on a text of another kind: its first line but for blank ones and `#` begins so."""

    def holds(syntax, groups, count):
        lines = (line for line in syntax.text.splitlines() if line.strip() and not line.startswith("#"))
        return next(lines, "").split(" ")[0] in words

    return holds


is_script, is_limits = begins_with(("step", "tick", "pend", "device")), begins_with(("every",))


def is_prefix(syntax, groups, count):
    """The proof of a sentence on a sign before a name: no blank is between the two."""
    return len(syntax.rest) > 1 and syntax.rest[1].at == syntax.rest[0].end


def is_nothing(syntax, groups, count):
    """The proof of a sentence on a call: nothing of the text has the name before the parentheses, and no name comes
    behind them."""
    name, behind = syntax.front[-1].text, between(syntax.rest)[1]
    if behind and (behind[0].kind == "name" or behind[0].text == "{" and "if" not in last_words(syntax)):
        return False
    declared = syntax.named.interrupts + syntax.named.resources + list(syntax.named.tasks)
    rows = zip(syntax.front, syntax.front[1:])
    return name not in declared and name not in {
        behind.text for token, behind in rows if token.text in ("let", "for", "with", ",")}


def is_glued(syntax, groups, count):
    """The proof of a sentence on two signs: no blank is between the one before the place and that at it."""
    return bool(syntax.front) and syntax.front[-1].end == syntax.at


def is_new(syntax, groups, count):
    """The proof of a sentence on a name, that of the group x or that before the place: no resource has it."""
    return (groups.get("x") or syntax.front[-1].text) not in syntax.named.resources


def is_requested(syntax, groups, count):
    """The proof of a sentence on a request: the name is that of an interrupt."""
    return groups.get("x") in syntax.named.interrupts


def is_strange(syntax, groups, count):
    """The proof of a sentence on fields: what is before the place is nothing of the text."""
    name = syntax.front[-1].text
    known = [one for one in syntax.front[:-1] if one.text == name]
    named = syntax.named
    return not known and name not in {*named.resources, *named.tasks, *named.interrupts}


def is_declared(syntax, groups, count):
    """The proof of a sentence on a name, that of the group x: it is that of a resource, or of a variable before it."""
    rows = zip(syntax.front, syntax.front[1:])
    return groups.get("x") in {*syntax.named.resources, *(one.text for word, one in rows if word.text == "let")}


def is_unit(syntax, groups, count):
    """The proof of a sentence on a unit: what is at the place is nothing of the text elsewhere."""
    return not any(one.text == syntax.token.text for one in syntax.front + syntax.rest[1:])


def is_task(syntax, groups, count):
    """The proof of a sentence on a message: the name is that of a task."""
    return groups.get("t") in syntax.named.tasks


def is_last(syntax, groups, count):
    """The proof of a sentence on a sign at the end of a line: nothing comes behind it there."""
    return not syntax.text[syntax.at + 1 :].split("\n", 1)[0].split("//")[0].strip("; \r")


def is_joined(syntax, groups, count):
    """The proof of a sentence on a sign before a number: no blank is between them."""
    return not syntax.text[syntax.at + 1 : syntax.at + 2].isspace()


def last_words(syntax):
    """The tokens of the statement before the place, as far as the sign that ends the one before."""
    texts = [token.text for token in syntax.front]
    stop = next((number for number in reversed(range(len(texts))) if texts[number] in ENDS), -1)
    return texts[stop + 1 :]
