"""A text with parts of it taken out or replaced, which knows for each place the place of the text that it came from."""
from .tokens import NAME


class Patched:
    """A text, and for each of its bytes the offset in the first text; `made` bytes are those that were put in."""

    def __init__(self, text, origins=None):
        self.text = text
        self.origins = origins or list(range(len(text) + 1))

    def edited(self, edits):
        """The text with each of these edits made: a start, a stop, and what is put there. They do not overlap."""
        text, origins = self.text, list(self.origins)
        for start, stop, put in sorted(edits, reverse=True):
            text = text[:start] + put + text[stop:]
            origins[start:stop] = [made(origins[start])] * len(put)
        return Patched(text, origins)

    def moved(self, start, stop, to):
        """The text with the part from start to stop put before an earlier place."""
        text, origins = self.text, self.origins
        return Patched(text[:to] + text[start:stop] + text[to:start] + text[stop:],
                       origins[:to] + origins[start:stop] + origins[to:start] + origins[stop:])

    def is_made(self, at):
        """Whether the byte at a place was put in."""
        return self.origins[at] < 0

    def origin(self, at):
        """The offset in the first text."""
        return unmade(self.origins[at])

    def fresh(self, count=1):
        """Names that the text does not have."""
        taken, found, number = set(NAME.findall(self.text)), [], 0
        while len(found) < count:
            number += 1
            if f"z{number}" not in taken:
                found.append(f"z{number}")
        return found


def made(origin):
    """An offset, marked as that of a byte that was put in."""
    return origin if origin < 0 else ~origin


def unmade(origin):
    return ~origin if origin < 0 else origin
