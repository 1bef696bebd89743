"""Reads any text as an application: what is missing counts as there, and what is out of place is passed over.

A text of the grammar has the tree that `tools/explaining/tree.py` gives it. With a cursor in the text the reader also
notes what it asks for there, which is what may stand there by the grammar.
"""
from explaining.tokens import Token, tokens_of
from explaining.tree import CALLS, DECLARED, OPTIONS, App, Block, Body, Parser

# words that begin a declaration; none comes inside one
TOP = ("app", "interrupts") + DECLARED
STATEMENTS = ("let", "if", "for", "lock", "emit", "pend") + CALLS
CLOSING = {")": ("{", "}", ";"), "]": (")", "{", "}", ";"), "}": (";",)}
WORD_KINDS = ("name", "word")
DEEPEST = 100


class TooDeep(Exception):
    """Blocks or parentheses are nested deeper than any text that is accepted."""


def with_cursor(tokens, offset):
    """The tokens with a cursor at an offset, in place of the name or word that it touches; and that token, or none."""
    for place, token in enumerate(tokens):
        if token.kind in WORD_KINDS and token.at <= offset <= token.end:
            return tokens[:place] + [Token("cursor", token.text, token.at)] + tokens[place + 1 :], token
        if token.at >= offset:
            return tokens[:place] + [Token("cursor", "", offset)] + tokens[place:], None
    return tokens + [Token("cursor", "", offset)], None


class Tolerant(Parser):
    """A reader of any text. `faults` are the offsets at which it had to help itself; none are there for the grammar."""

    def __init__(self, text, tokens=None):
        super().__init__("")
        tokens = list(tokens_of(text)) if tokens is None else tokens
        self.tokens = [token for token in tokens if token.kind not in ("foreign", "end")]
        self.faults = [token.at for token in tokens if token.kind == "foreign"]
        self.tokens.append(Token("end", "", len(text)))
        self.asked, self.roles, self.is_asking, self.depth = set(), [], True, 0

    def take(self):
        return self.front if self.front.kind == "end" else super().take()

    def missing(self, kind):
        """What is due and not there."""
        self.faults.append(self.front.at)
        return Token(kind, "", self.front.at)

    # At the cursor what is asked for is noted, up to the first that is due.

    def note(self, texts=(), role=None):
        """Notes what is asked for where the cursor is next; says whether it is."""
        if self.front.kind != "cursor":
            return False
        if self.is_asking:
            self.asked.update(texts)
            self.roles += [role] if role else []
        return True

    def at_cursor(self, role):
        """Takes the cursor for what is due: nothing more can stand there."""
        self.note((), role)
        self.is_asking = False
        token = super().take()
        return Token("name", token.text, token.at)

    def skip(self, *texts):
        for text in texts:
            if self.note((text,)):
                self.is_asking = False
                self.faults.append(self.front.at)
            elif self.front.text == text:
                self.take()
            elif self.is_stray() and self.tokens[self.next + 1].text == text:
                self.faults.append(self.front.at)
                self.next += 2
            else:
                self.faults.append(self.front.at)

    def is_stray(self):
        """Whether the next token is one that can be passed over: it opens, closes and begins nothing."""
        return self.front.kind in ("name", "number") or self.front.kind == "sign" and self.front.text not in "(){}[];,"

    def has(self, text):
        return False if self.note((text,)) else super().has(text)

    def word(self, *texts):
        return None if self.note(texts) else super().word(*texts)

    def name(self, role):
        if self.front.kind == "cursor":
            return self.at_cursor(role)
        return self.take() if self.front.kind == "name" else self.missing("name")

    def number(self):
        if self.front.kind == "cursor":
            return Token("number", "", self.at_cursor("number").at)
        return self.take() if self.front.kind == "number" else self.missing("number")

    def operand(self, role):
        if self.front.kind == "cursor":
            return self.at_cursor(role)
        return self.take() if self.front.kind in ("name", "number") else self.missing("name")

    # Lists, blocks and declarations go on behind what is wrong in them.

    def went_on(self, begun):
        """Passes over a token where nothing was taken since a place; says whether something was."""
        if self.next > begun:
            return True
        self.faults.append(self.front.at)
        self.take()
        return False

    def rows(self, close, row):
        found = []
        while not self.has(close):
            if self.front.kind == "end" or self.front.text in CLOSING[close] or self.begins_other(close):
                self.faults.append(self.front.at)
                break
            begun = self.next
            one = row()
            if self.went_on(begun):
                found.append(one)
            if self.note((",", close)):
                self.is_asking = False
            elif not self.has(",") and self.front.text != close:
                self.faults.append(self.front.at)
        return found

    def begins_other(self, close):
        """Whether the next token begins a declaration, and does not go on with the list."""
        after = self.tokens[min(self.next + 1, len(self.tokens) - 1)].text
        is_option = close == ")" and after == "="
        return self.front.text in TOP and not is_option or close != "}" and self.front.text in STATEMENTS

    def declarations(self, app):
        while self.front.kind != "end":
            begun = self.next
            word = self.word(*DECLARED)
            if word:
                self.declaration(app, word)
            self.went_on(begun)

    def option(self, body, given):
        word = self.word(*(text for text in OPTIONS[body.kind] if text not in given))
        if word:
            given.append(word.text)
            self.option_value(body, word.text)
        elif self.front.kind == "cursor":
            self.at_cursor(None)
        elif self.front.text in OPTIONS["task"]:
            # it is not allowed here, or comes a second time: its value is that of no body
            self.faults.append(self.front.at)
            self.option_value(Body("task", self.front), self.take().text)

    def block(self):
        self.depth += 1
        if self.depth > DEEPEST:
            raise TooDeep
        self.skip("{")
        found = Block()
        found.at = self.last.at
        while not self.has("}"):
            if self.front.kind == "end" or self.front.text in TOP:
                self.faults.append(self.front.at)
                break
            begun = self.next
            statement = self.statement()
            statement.end = self.last.end
            if self.went_on(begun):
                found.append(statement)
        found.end = self.last.end
        self.depth -= 1
        return found

    def atom(self, role):
        self.depth += 1
        if self.depth > DEEPEST:
            raise TooDeep
        found = super().atom(role)
        self.depth -= 1
        return found


def read(text, tokens=None):
    """The tree of any text, and the reader of it; the tree is empty where the text nests deeper than may be."""
    reader = Tolerant(text, tokens)
    try:
        return reader.app(), reader
    except (TooDeep, RecursionError):
        reader.faults.append(0)
        return App(Token("name", "", 0)), reader
