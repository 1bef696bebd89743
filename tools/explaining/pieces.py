"""The pieces of a text that need not be in the grammar: declarations and tasks, cut at the words that begin them."""
from .tokens import tokens_of

STARTS = ("app", "interrupts", "monotonic", "shared", "local", "init", "idle", "task")


class Piece:
    """A declaration or a task of a text: its tokens, and where they begin and end."""

    def __init__(self, tokens, stop):
        self.tokens = tokens
        self.start, self.stop = tokens[0].at, stop

    @property
    def word(self):
        return self.tokens[0].text

    @property
    def brace(self):
        """The brace that opens the body or the rows, or None."""
        return next((token for token in self.tokens if token.text == "{"), None)

    @property
    def is_balanced(self):
        """Whether as many braces are opened as closed."""
        texts = [token.text for token in self.tokens]
        return texts.count("{") == texts.count("}")

    @property
    def has_body(self):
        return self.word in ("init", "idle", "task")


def pieces_of(text):
    """The pieces of a text; what comes before the first word that begins one is of the first piece."""
    tokens = list(tokens_of(text))
    starts = [number for number, token in enumerate(tokens) if begins(tokens, number)]
    starts = sorted({0, *starts}) if tokens else []
    stops = starts[1:] + [len(tokens)]
    ends = [tokens[stop].at for stop in starts[1:]] + [len(text)]
    return [Piece(tokens[start:stop], end) for start, stop, end in zip(starts, stops, ends)]


def begins(tokens, number):
    """Whether a declaration or a task begins with a token: an option of the same word is none."""
    text = tokens[number].text
    behind = tokens[number + 1].text if number + 1 < len(tokens) else ""
    before = tokens[number - 1].text if number else ""
    if text in ("shared", "local"):
        return behind != "=" and before not in ("(", ",", "[", "=")
    return text in STARTS and before not in ("=", "let", "(", "[")
