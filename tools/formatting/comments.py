"""Puts the comments of a text into its canonical text, and the empty lines between its declarations."""
from explaining.tokens import pieces_of

from .lines import Lines

INDENT = "    "
BLANKS = " \t\r\n"
# the feeds between two pieces that have an empty line between them
FEEDS = 2


class Amiss(Exception):
    """The program's text is not the canonical text of the other one."""


def comments_of(text):
    """The comments of a text in order, without blanks at their ends."""
    return [piece.text.rstrip(BLANKS) for piece in pieces_of(text) if piece.kind == "comment"]


def without_comments(text):
    """A canonical text that has comments and empty lines in it, without them: it has `//` before a comment alone."""
    lines = (line.split("//", 1)[0].rstrip(" ") for line in text.split("\n"))
    return "".join(line + "\n" for line in lines if line)


class Places:
    """Which comments and empty lines come before each line of the canonical text and after the last, and which comment
    is at the end of a line."""

    def __init__(self, text):
        pieces = list(pieces_of(text))
        self.lines = Lines([piece for piece in pieces if piece.kind != "comment"])
        self.before = [[] for _ in range(self.lines.count + 1)]
        self.after = {}
        coming, at = 0, 0
        for piece in pieces:
            blanks = text[at : piece.at]
            self.empty_line(blanks, coming)
            if piece.kind == "comment":
                self.comment(piece.text.rstrip(BLANKS), blanks, coming)
            else:
                coming += 1
            at = piece.end

    def line(self, coming):
        """The line with the token that comes next, or that after the last."""
        return self.lines.lines[coming] if coming < self.lines.next else self.lines.count

    def empty_line(self, blanks, coming):
        """An empty line stays where a declaration begins next, or where no token comes any more."""
        is_between = coming in self.lines.begins or coming == self.lines.next
        if blanks.count("\n") >= FEEDS and is_between:
            self.before[self.line(coming)].append("")

    def comment(self, comment, blanks, coming):
        """A comment in a line of its own stays before the line with the token after it. Another one stays at the end
        of the line that ends there, or where the canonical line goes on, comes before that."""
        if coming == 0 or "\n" in blanks:
            place = self.line(coming)
        elif coming - 1 not in self.lines.ends:
            place = self.line(coming - 1)
        else:
            place = self.lines.ends[coming - 1] + 1
            if not self.before[place]:
                self.after[place - 1] = comment
                return
        self.before[place].append(comment)


def with_comments(text, canonical):
    """The canonical text of a text with the comments of the text; both are of one character a byte."""
    lines = canonical.split("\n")
    try:
        places = Places(text)
    except IndexError:
        raise Amiss from None
    if len(lines) != places.lines.count + 1:
        raise Amiss
    found = []
    for number, line in enumerate(lines):
        margin = line[: len(line) - len(line.lstrip(" "))] + INDENT * line.lstrip(" ").startswith("}")
        for comment in places.before[number]:
            if comment or (found and found[-1]):
                found.append(comment and margin + comment)
        if line:
            found.append(" ".join([line, *([places.after[number]] if number in places.after else [])]))
    while not found[-1]:
        found.pop()
    result = "".join(line + "\n" for line in found)
    if without_comments(result) != canonical or comments_of(result) != comments_of(text):
        raise Amiss
    return result
