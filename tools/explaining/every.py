"""`--all`: the refusals behind the first one. Each is the program's, of the text without those that were told before.

What is told is taken out of the text in a way that changes little else (recovery.py, neutral.py), and the program is
asked again. What could come of that change itself is not told: a refusal of what was put in, of a statement that was
mended, of a name that was taken out, and of a name in a body where it was told already.
"""
from .neutral import Neutral
from .patched import Patched
from .pieces import pieces_of
from .recovery import ENDS, Recovery
from .refusals import Telling, refusal_of
from .report import Mapped
from .rules import counted
from .tokens import place_of, tokens_of

MOST, QUESTIONS = 60, 4_000
OF_OPTIONS = (9, 13, 14, 15)


class Every:
    """The refusals of one text."""

    def __init__(self, program, text, command):
        self.program, self.text, self.command = program, text, command
        self.patched = Patched(text)
        self.seen, self.lost, self.mended = set(), set(), []
        self.in_doubt = False
        self.found, self.is_whole = [], True

    def refusals(self):
        """Finds them: each with the text at whose place it is, the program's own first, then by their places."""
        begun = self.program.asks
        while (refusal := self.next_refusal()) is not None:
            self.is_whole = len(self.found) < MOST and self.program.asks - begun < QUESTIONS and self.go_on(refusal)
            if not self.is_whole:
                break
        return self.found[:1] + sorted(self.found[1:], key=lambda one: one[1].origin(one[0].at))

    def next_refusal(self):
        _, output = self.program.ask(self.command, self.program.file("every", self.patched.text))
        return refusal_of(self.patched.text, output)

    def go_on(self, refusal):
        """Tells a refusal, where it is the text's own, and takes it out; says whether that was possible."""
        if refusal.number == 1:
            self.add(refusal, not self.found)
            return False
        return self.behind_syntax(refusal) if refusal.number <= 4 else self.behind_rule(refusal)

    def add(self, refusal, is_own):
        """Keeps a refusal of the text itself, with its place there."""
        if is_own:
            refusal.line, refusal.column = place_of(self.text, self.patched.origin(refusal.at))
            self.found.append((refusal, self.patched))

    def behind_syntax(self, refusal):
        """Goes on behind E02 to E04."""
        self.add(refusal, not self.patched.is_made(refusal.at))
        before = self.patched
        made, way = Recovery(self.program, before, refusal).out()
        if made is None:
            return False
        if way in ("one_token", "limits"):
            self.mended.append(statement_round(before, refusal.at))
        if left_open(made.text) != left_open(before.text):
            self.mended += bodies_round(before, refusal.at)
        self.in_doubt |= way in ("options", "wholes")
        kept = {origin for origin in made.origins if origin >= 0}
        self.lost |= {token.text for token in tokens_of(before.text) if before.origin(token.at) not in kept}
        self.patched = made
        return True

    def behind_rule(self, refusal):
        """Goes on behind E05 to E18."""
        neutral = Neutral(self.patched, refusal.at, refusal.number)
        key = neutral.body.name.at if neutral.body else None, neutral.name
        self.add(refusal, self.is_own(refusal, neutral, key))
        self.seen.add(key)
        if refusal.number == 6 and neutral.body is None:
            self.lost.add(neutral.name)
        before = self.patched.text
        self.patched = self.patched.edited(neutral.edits)
        return self.patched.text != before

    def is_own(self, refusal, neutral, key):
        """Whether a refusal is the text's own, and not told yet."""
        origin = self.patched.origin(refusal.at)
        if self.patched.is_made(refusal.at) or any(start <= origin < stop for start, stop in self.mended):
            return False
        if key in self.seen and neutral.name is not None:
            return False
        is_lost = neutral.name in self.lost and not neutral.rules.declared(neutral.name)
        return not (is_lost or self.in_doubt and refusal.number in OF_OPTIONS)


def tell(program, table, report, name, text, command):
    """Says of each refusal of a text what there is to say, and how many there are."""
    every = Every(program, text, command)
    found = every.refusals()
    for refusal, patched in found:
        mapped = Mapped(text, patched)
        Telling(program, table, mapped, name).tell(refusal)
        report.lines += mapped.lines
    behind = "" if every.is_whole else "; what is behind them is not known before these are mended"
    report.line(f"{name}: {counted(len(found), 'refusal')}{behind}")


def left_open(text):
    """How many braces more are opened than closed."""
    return text.count("{") - text.count("}")


def bodies_round(patched, at):
    """The offsets of the first text of the bodies to which a brace at a place can belong."""
    pieces = [piece for piece in pieces_of(patched.text) if piece.start <= at <= piece.stop]
    return [(patched.origin(piece.brace.at), patched.origin(piece.stop)) for piece in pieces
            if piece.has_body and piece.brace and piece.brace.at < at]


def statement_round(patched, at):
    """The offsets of the first text between the signs that end statements on both sides of a place; what begins at the
    place a declaration or a task is no part of it."""
    tokens = list(tokens_of(patched.text))
    before = [token for token in tokens if token.at < at and token.text in ENDS]
    start = patched.origin(before[-1].end) if before else 0
    if any(piece.start == at for piece in pieces_of(patched.text)):
        return start, patched.origin(at)
    stop = next((token.end for token in tokens if token.at >= at and token.text in ENDS), len(patched.text))
    return start, patched.origin(stop) + 1
