"""Open documents: their texts, places in the three encodings of the protocol, and what is read of a text once."""
import re
from functools import cached_property

from explaining.tokens import tokens_of

from .names import Names
from .tolerant import read

LINE_END = re.compile(r"\r\n|\n|\r")
UNITS = {"utf-8": "utf-8", "utf-16": "utf-16-le", "utf-32": "utf-32-le"}
# the most bytes of a text that the program takes
LONGEST = 262_144
UNIT_BYTES = {"utf-8": 1, "utf-16": 2, "utf-32": 4}


def bytes_of(text):
    """A text of the protocol as one of a character a byte, which is how tools/explaining has texts."""
    return text.encode("utf-8", "surrogatepass").decode("latin-1")


def text_of(data):
    """A text of a character a byte as one of the protocol."""
    return data.encode("latin-1").decode("utf-8", "replace")


class Text:
    """One text, never changed: one character a byte, with its lines, what is read of it, and what `check` said."""

    def __init__(self, data, encoding):
        self.data = data
        self.encoding = encoding
        self.starts = [0] + [found.end() for found in LINE_END.finditer(data)]
        self.report = None

    @cached_property
    def tokens(self):
        """The tokens; none of a text that is too long to be one."""
        return list(tokens_of(self.data)) if len(self.data) <= LONGEST else []

    @cached_property
    def reading(self):
        return read(self.data, self.tokens)

    @property
    def app(self):
        return self.reading[0]

    @property
    def is_whole(self):
        """Whether nothing is missing or out of place."""
        return not self.reading[1].faults

    @cached_property
    def names(self):
        return Names(self.app)

    @cached_property
    def has_comments(self):
        """Whether something stands between tokens that is no blank."""
        ends = [0] + [token.end for token in self.tokens]
        begins = [token.at for token in self.tokens] + [len(self.data)]
        return any(self.data[end:begin].strip() for end, begin in zip(ends, begins))

    # Places.

    def line_of(self, number):
        """Where a line begins, and where it ends before the sign of its end."""
        start = self.starts[number]
        stop = self.starts[number + 1] if number + 1 < len(self.starts) else len(self.data)
        return start, start + len(self.data[start:stop].rstrip("\r\n"))

    def offset(self, position):
        """The offset of a place of the protocol; one behind a line or the text counts as the end of it."""
        line, units = position["line"], position["character"]
        if line >= len(self.starts):
            return len(self.data)
        start, stop = self.line_of(line)
        source = self.data[start:stop]
        if source.isascii():
            return min(start + units, stop)
        wide = text_of(source).encode(UNITS[self.encoding], "surrogatepass")
        front = wide[: units * UNIT_BYTES[self.encoding]]
        return start + len(front.decode(UNITS[self.encoding], "ignore").encode("utf-8"))

    def position(self, offset):
        """The place of an offset."""
        low, high = 0, len(self.starts)
        while high - low > 1:
            middle = (low + high) // 2
            low, high = (middle, high) if self.starts[middle] <= offset else (low, middle)
        front = self.data[self.starts[low] : offset]
        if not front.isascii():
            front = text_of(front).encode(UNITS[self.encoding], "surrogatepass")
            return {"line": low, "character": len(front) // UNIT_BYTES[self.encoding]}
        return {"line": low, "character": len(front)}

    def range(self, start, stop):
        return {"start": self.position(start), "end": self.position(stop)}

    def range_of(self, token):
        return self.range(token.at, token.end)

    # Changes.

    def changed(self, change):
        """The text after a change of a part of it, or of all."""
        piece = bytes_of(change["text"])
        if "range" not in change:
            return Text(piece, self.encoding)
        start, stop = (self.offset(change["range"][end]) for end in ("start", "end"))
        return Text(self.data[:start] + piece + self.data[max(start, stop) :], self.encoding)


class Document:
    """A document that the editor has open: its newest text, and which version that is."""

    def __init__(self, uri, version, text):
        self.uri = uri
        self.version = version
        self.text = text

    def change(self, version, changes):
        for change in changes:
            self.text = self.text.changed(change)
        self.version = version
