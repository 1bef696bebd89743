"""The tokens of an application's text, by docs/LANGUAGE.md. A text is a str of one character a byte (latin-1)."""
import difflib
import re
from dataclasses import dataclass

# of the longest text that the program takes
MOST_BYTES = 262_144
WORDS = frozenset(
    "app bits dispatchers interrupts monotonic binds priority capacity shared local lock_free init idle task with let "
    "if else for in lock emit pend spawn spawn_after now cancel reschedule_after".split()
)
SIGNS = "( ) { } [ ] = , ; & | ^ + - * / % << >> == != < <= > >= ..".split()
NAME = re.compile(r"[A-Za-z_][A-Za-z0-9_]*")
TOKEN = re.compile(
    r"(?P<blank>[ \t\r\n]+)|(?P<comment>//[^\n]*)|(?P<name>[A-Za-z_][A-Za-z0-9_]*)|(?P<number>0x[0-9a-fA-F]+|[0-9]+)"
    r"|(?P<sign><<|>>|==|!=|<=|>=|\.\.|[(){}\[\]=,;&|^+\-*/%<>])|(?P<foreign>.)",
    re.DOTALL,
)


@dataclass(frozen=True)
class Token:
    """One token: its kind is name, word, number, sign, foreign or end; it begins at an offset of the text. A comment
    is one of that kind, from its `//` to the end of its line."""

    kind: str
    text: str
    at: int

    @property
    def end(self):
        return self.at + len(self.text)

    @property
    def value(self):
        """A number's value; any number of zeros may come before it."""
        return int(self.text, 16) if self.text.startswith("0x") else int(self.text.lstrip("0") or "0")


def pieces_of(text, start=0, stop=None):
    """The tokens and the comments from one offset on, as far as another."""
    stop = len(text) if stop is None else stop
    for found in TOKEN.finditer(text, start, stop):
        kind = found.lastgroup
        if kind == "name" and found.group() in WORDS:
            kind = "word"
        if kind != "blank":
            yield Token(kind, found.group(), found.start())


def tokens_of(text, start=0, stop=None):
    """The tokens alone."""
    return (piece for piece in pieces_of(text, start, stop) if piece.kind != "comment")


def skipped_bytes(text):
    """How many bytes are blanks and comments."""
    return len(text) - sum(len(token.text) for token in tokens_of(text))


def place_of(text, offset):
    """The line and the column of an offset, both from 1; a column counts bytes."""
    start = text.rfind("\n", 0, offset) + 1
    return text.count("\n", 0, offset) + 1, offset - start + 1


def offset_of(text, line, column):
    """The offset of a place."""
    start = 0
    for _ in range(line - 1):
        start = text.find("\n", start) + 1
    return start + column - 1


def between(tokens):
    """The tokens inside the parentheses that the first of these opens, and those after them."""
    depth = 0
    for number, token in enumerate(tokens):
        depth += {"(": 1, ")": -1}.get(token.text, 0)
        if depth == 0:
            return tokens[1:number], tokens[number + 1 :]
    return tokens[1:], []


def all_near(name, names, ratio):
    """Those of some names that have the same letters in another order, or few others; the nearest first, and few."""
    same = [one for one in names if sorted(one) == sorted(name)]
    return same + [one for one in difflib.get_close_matches(name, names, 3, ratio) if one not in same]


def nearest(name, names, ratio):
    """The one of some names that has the same letters in another order, or few others; or None."""
    same = next((one for one in names if sorted(one) == sorted(name)), None)
    return same or next(iter(difflib.get_close_matches(name, names, 1, ratio)), None)
