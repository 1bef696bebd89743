"""What takes a refusal E02 to E04 out of a text, so that the program goes on behind it: first what changes least.

A change counts where the program reads the whole piece with it, a declaration or a task (pieces.py). The changes are
tried in this order: one sign put in or one token taken out; a statement left out, or several; a body left out; the
options of a task without those that cannot be read; the piece moved, or left out.
"""
import difflib
import re

from .pieces import STARTS, pieces_of
from .refusals import refusal_of
from .signs import sign_at
from .tokens import WORDS, Token, tokens_of

PUT = (";", ",", ")", "]", "}", "{", "=", "(")
OTHERS = ("==", "=", ",", ";", "..", "0", "!=")
ENDS = ("{", "}", ";")
MOST_IN_A_PIECE = 4
LIMITED = {"interrupt": 495, "bits": 7, "capacity": 16, "number": 4_294_967_295}
LEAST = {"bits": 3, "capacity": 1, "interrupt": 0, "number": 0}
NEARLY = 0.75
OPTION = re.compile(
    r"\b(?:binds = [A-Za-z_]\w*|(?:priority|capacity) = \d+"
    r"|(?:shared|local) = \[ (?:(?:& )?[A-Za-z_]\w*(?: ,)? )*\])"
)


class Recovery:
    """One refusal of a text, and the text without it."""

    def __init__(self, program, patched, refusal):
        self.program, self.patched, self.refusal = program, patched, refusal
        self.at = refusal.at
        self.pieces = pieces_of(patched.text)

    def piece_at(self, at):
        """The piece in which a place is; of the end of the text the last one."""
        return next((piece for piece in reversed(self.pieces) if piece.start <= at), None)

    # What is tried.

    def read(self, texts):
        """Each of these texts with the refusal that it still has, or None."""
        answers = self.program.formats([one.text for one in texts])
        return [(one, refusal_of(one.text, output)) for one, (_, output) in zip(texts, answers)]

    def best(self, ways, piece):
        """The first text in which the piece is read to its end, or None."""
        texts = [self.patched.edited(edits) if isinstance(edits, list) else edits for edits in ways]
        for made, refusal in self.read(texts):
            if refusal is None or refusal.number > 1 and self.is_past(made, refusal, piece):
                return made
        return None

    def is_past(self, made, refusal, piece):
        """Whether a refusal is behind a piece and the word with which the next one begins."""
        return made.origin(refusal.at) > self.patched.origin(piece.stop)

    def out(self):
        """The text without the refusal, and how it is made; or None twice."""
        piece = self.piece_at(self.at)
        if piece is None:
            return None, None
        owners = self.owners(piece)
        for way in ("one_token", "limits", "statements", "chain", "bodies", "options", "moves", "wholes"):
            for owner in owners:
                made = self.chain(owner) if way == "chain" else self.best(getattr(self, way)(owner), owner)
                if made:
                    return made, way
        return None, None

    def owners(self, piece):
        """The pieces that may be wrong: of a word that begins one, the piece before it, which may not be closed."""
        place = self.pieces.index(piece)
        return self.pieces[place - 1 : place + 1] if piece.start == self.at and place else [piece]

    def chain(self, piece, left=MOST_IN_A_PIECE):
        """The text with a statement mended or left out, where the piece has more refusals, in other statements."""
        if not left or not piece.is_balanced:
            return None
        stop = next((token.at for token in piece.tokens if token.at >= self.at and token.text in ENDS), piece.stop)
        ways = self.one_token(piece) + self.statements(piece)
        for made, refusal in self.read([self.patched.edited(edits) for edits in ways]):
            if refusal is None or made.is_made(refusal.at) or made.origin(refusal.at) <= self.patched.origin(stop):
                continue
            again = Recovery(self.program, made, refusal)
            inner = again.piece_at(refusal.at)
            if again.best(again.one_token(inner) + again.statements(inner), inner) or again.chain(inner, left - 1):
                return made
        return None

    def token(self):
        return next(tokens_of(self.patched.text, self.at), Token("end", "", len(self.patched.text)))

    def one_token(self, piece):
        """One sign put before the place, or the token there taken out or replaced."""
        token, at = self.token(), self.at
        if self.refusal.number == 2:
            size = sign_at(self.patched.text, at)[1]
            blank = re.compile(r"\s|$").search(self.patched.text, at).start()
            return [[(at, at + size, "")], [(at, at + size, "=")], [(at, blank, "")]]
        ways = [[(at, at, f"{sign} ")] for sign in (*PUT, "z0", "0", "= 0")]
        if token.kind == "end" or any(one.start == at for one in self.pieces):
            return ways
        near = difflib.get_close_matches(token.text.lower(), sorted(WORDS), 2, NEARLY) if token.kind == "name" else []
        ways += [[(at, token.end, other)] for other in near]
        ways.append([(at, token.end, "")])
        return ways + [[(at, token.end, other)] for other in OTHERS]

    def limits(self, piece):
        """What passes a limit, replaced by what does not."""
        if self.refusal.number != 4:
            return []
        which, token = self.refusal.words.split(" ")[1], self.token()
        text = self.patched.text
        if which in LIMITED:
            value = min(max(token.value, LEAST[which]), LIMITED[which])
            return [[(token.at, token.end, str(value))]]
        if which == "name":
            return [self.renamed(token, piece)]
        if which == "turns":
            first = [one for one in tokens_of(text, 0, token.at)][-2]
            return [[(token.at, token.end, str(first.value + 1))]]
        return []

    def renamed(self, token, piece):
        """A name in all places: in those of the piece alone, where it is that of a variable."""
        name = self.patched.fresh()[0]
        is_declared = not piece.has_body or token == piece.tokens[1] or any(
            one.text == token.text for other in self.pieces if not other.has_body for one in other.tokens)
        pieces = self.pieces if is_declared else [piece]
        return [(one.at, one.end, name) for other in pieces for one in other.tokens if one.text == token.text]

    def statements(self, piece):
        """The statement round the place left out, its condition replaced, or its value."""
        inner = [token for token in piece.tokens if token.at < self.at]
        depth = sum({"{": 1, "}": -1}.get(token.text, 0) for token in inner)
        if not piece.has_body or depth < 1 or self.piece_at(self.at) is not piece:
            return []
        start = next(number for number in reversed(range(len(inner))) if inner[number].text in ("{", "}", ";")) + 1
        rest = piece.tokens[start:]
        return statement_ways(rest, piece.stop)

    def bodies(self, piece):
        """The body of the piece left out."""
        brace = piece.brace
        if not piece.has_body or brace is None or brace.at >= self.at:
            return []
        return [[(brace.end, piece.stop, " }\n")]]

    def options(self, piece):
        """The options of a task that can be read, each by itself; and its body, or none."""
        brace = piece.brace
        if not piece.has_body or brace is None or brace.at < self.at:
            return []
        front = piece.tokens[: piece.tokens.index(brace)]
        name = [front[1].text] if piece.word == "task" and len(front) > 1 and front[1].kind == "name" else ["z0"]
        head = " ".join([piece.word] + (name if piece.word == "task" else []))
        read = list(dict.fromkeys(OPTION.findall(" ".join(token.text for token in front))))
        kept = {option.split(" ")[0]: option for option in read}.values()
        told = [option for option in kept if piece.word == "task" or option.startswith(("shared", "local"))]
        put = f"{head}({', '.join(told)}) " if told else f"{head} "
        return [[(piece.start, brace.at, put)], [(piece.start, piece.stop, f"{put}{{ }}\n")]]

    def moves(self, piece):
        """The piece put before those that come after it by the order of declarations."""
        if piece.start != self.at or piece.word not in STARTS:
            return []
        later = next((one for one in self.pieces if one.word in STARTS[STARTS.index(piece.word) + 1 :]), piece)
        return [self.patched.moved(piece.start, piece.stop, later.start)] if later.start < piece.start else []

    def wholes(self, piece):
        """The piece left out, or the least that may be in its place."""
        least = {"interrupts": "interrupts { }\n", "app": "app z0(bits = 7);\n"}.get(piece.word, "")
        first = piece.start if piece is not self.pieces[0] else 0
        return [[(first, piece.stop, least)]]


def statement_ways(rest, stop):
    """The edits that leave out the statement with which some tokens begin, or what is wrong in it."""
    ways, first = [], rest[0] if rest else None
    brace = next((token for token in rest if token.text in ("{", ";", "}")), None)
    if brace and brace.text == "{" and first.text in ("if", "for", "lock"):
        put = {"if": "if 0 ", "for": "for z0 in 0..1 ", "lock": "if 1 "}[first.text]
        ways.append([(first.at, brace.at, put)])
    equal = next((token for token in rest[:3] if token.text == "="), None)
    semicolon = next((token for token in rest if token.text == ";"), None)
    if first and first.text == "let" and equal and semicolon and not any(
            token.text in ("{", "}") and token.at < semicolon.at for token in rest):
        ways.append([(equal.end, semicolon.at, " 0")])
    end = statement_end(rest)
    if end is not None:
        ways.append([(first.at, end, "")])
    close = next((token for token in rest if token.text in ("}", ";", "{")), None)
    if close and close.text == "}" and first is not close:
        ways.append([(first.at, close.at, "")])
    return ways


def statement_end(rest):
    """Where the statement ends with which some tokens begin: at its `;`, or at the last brace of its blocks."""
    depth = 0
    for number, token in enumerate(rest):
        if token.text == "{":
            depth += 1
        elif token.text == "}":
            depth -= 1
            if depth < 0:
                return None
            behind = rest[number + 1].text if number + 1 < len(rest) else ""
            if depth == 0 and behind != "else":
                return token.end
        elif token.text == ";" and depth == 0:
            return token.end
    return None
