"""What goes to standard error: places, source lines with a caret, and sentences."""
import sys
import unicodedata

from .tokens import place_of

WIDTH = 100


def decoded(text):
    """A text of one character a byte, as its UTF-8 says, each wrong byte as a sign of its own."""
    return text.encode("latin-1").decode("utf-8", "replace").replace("\t", "    ")


def shown(text):
    """A text that can go to a terminal: a question mark for each control character."""
    return "".join("?" if unicodedata.category(sign) in ("Cc", "Cf", "Cs") else sign for sign in text)


def sentence_shown(sentence):
    """A sentence that may have words of a text of one character a byte in it."""
    try:
        return shown(sentence.encode("latin-1").decode("utf-8"))
    except UnicodeError:
        return shown(sentence)


def columns(text):
    """How many columns a shown text takes."""
    wide = sum(1 for sign in text if unicodedata.east_asian_width(sign) in "WF")
    return len(text) + wide - sum(1 for sign in text if unicodedata.combining(sign))


def cut(line, start, length):
    """A part of a long line round what is pointed at, as its text, and the part before and in it."""
    parts = (line[:start], line[start : start + length], line[start + length :])
    before, marked, behind = (shown(decoded(part)) for part in parts)
    if columns(before) + columns(marked) > WIDTH:
        before = "..." + before[-WIDTH // 2 :]
        marked = marked[:WIDTH]
    room = max(WIDTH - columns(before) - columns(marked), 20)
    if len(behind) > room:
        behind = behind[:room] + "..."
    return before, marked, behind


def line_at(text, offset):
    """The number and the text of the line in which an offset is."""
    start, stop = text.rfind("\n", 0, offset) + 1, text.find("\n", offset)
    return place_of(text, offset)[0], text[start : len(text) if stop < 0 else stop].rstrip("\r")


class Report:
    """Collects the lines, and writes them at once."""

    def __init__(self):
        self.lines = []

    def line(self, text):
        self.lines.append(text)

    def head(self, file, line, column, words):
        self.line(f"{file}:{line}:{column}: {words}")

    def say(self, kind, sentence):
        """A sentence after a picture; its kind is cause, help or note."""
        self.line(f"  = {kind}: {sentence_shown(sentence)}")

    def sentences(self, rows):
        """Sentences with their kinds."""
        for kind, sentence in rows:
            self.say(kind, sentence)

    def picture(self, text, offset, length, label="", lead=None):
        """The source line with a caret under so many bytes from an offset on, after the line of an earlier offset."""
        lines = [line_at(text, offset)]
        if lead is not None and not text[text.rfind("\n", 0, offset) + 1 : offset].strip():
            before = line_at(text, lead)
            lines = [before] * (before != lines[0]) + lines
        self.rows(lines, place_of(text, offset)[1] - 1, length, label)

    def rows(self, lines, start, length, label):
        """Numbered lines, with a caret under the last."""
        margin = len(str(lines[-1][0]))
        for number, source in lines[:-1]:
            self.line(f"{number:{margin}} | {''.join(cut(source, 0, 0))}".rstrip())
        before, marked, behind = cut(lines[-1][1], start, length)
        self.line(f"{lines[-1][0]:{margin}} | {before}{marked}{behind}".rstrip())
        mark = " " * columns(before) + "^" * max(columns(marked), 1)
        self.line(f"{'':{margin}} | {mark} {sentence_shown(label)}".rstrip())

    def note(self, sentence, file, text, offset, length):
        """A sentence on another place of the same file, with its picture."""
        line, column = place_of(text, offset)
        self.say("note", sentence)
        self.line(f"--> {file}:{line}:{column}")
        self.picture(text, offset, length)

    def write(self):
        """To standard error; where that is closed nothing is lost but this."""
        data = "".join(line + "\n" for line in self.lines).encode("utf-8", "replace")
        try:
            sys.stderr.flush()
            sys.stderr.buffer.write(data)
            sys.stderr.buffer.flush()
        except (OSError, ValueError):
            pass


class Mapped(Report):
    """A report on a text that was changed, with the pictures of the text that it came from."""

    def __init__(self, text, patched):
        super().__init__()
        self.text, self.patched = text, patched

    def picture(self, text, offset, length, label="", lead=None):
        lead = None if lead is None or self.patched.is_made(lead) else self.patched.origin(lead)
        super().picture(self.text, self.patched.origin(offset), length, label, lead)

    def note(self, sentence, file, text, offset, length):
        if self.patched.is_made(offset):
            return
        start = self.patched.origin(offset)
        line, column = place_of(self.text, start)
        self.say("note", sentence)
        self.line(f"--> {file}:{line}:{column}")
        super().picture(self.text, start, length)
