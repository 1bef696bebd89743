"""One slip of the hand put right: changes at the place of an E03 that the program itself tries.

A change is told only where it is certain: the program takes the whole text with it; nothing is lost with it that says
something; and no other change that goes as far makes another text that the program takes, a bracket put elsewhere or a
value that is left out among them. Else nothing is told here, and what the program says of the place must do.
"""
import functools
import re
from dataclasses import dataclass

from .advice import WHOLE
from .expected import END, NAME, NUMBER
from .pieces import pieces_of
from .tokens import SIGNS, WORDS, nearest, offset_of, tokens_of

PUT = [";", ",", ")", "]", "}", "{", "=", "(", "["]
# a sign that is often typed for another one
LIKE = {
    ";": [",", ":"], ",": [";"], "=": ["=="], "==": ["="], "(": ["[", "{"], ")": ["]", "}", "("], "[": ["(", "{"],
    "]": [")", "}"], "{": ["(", "["], "}": [")", "]"], "..": [","], "*": ["&"], "-": ["="], "+": ["="],
    ":": ["=", ";", ","], ".": [",", ";", ".."], "\\": ["/"], "#": [],
}
CLOSED = {"{": "}", "(": ")", "[": "]"}
ENDS = (";", "{", "}")
BEGINS = ("let", "if", "for", "lock", "emit", "pend", "spawn", "spawn_after", "cancel", "reschedule_after")
VALUE_SIGNS = ("+", "-", "*", "/", "%", "&", "|", "^", "<<", ">>", "==", "!=", "<", "<=", ">", ">=")
RUN, AHEAD, FEW, MOST_OTHERS, NEAR = 6, 8, 3, 12, 3
# signs that say something by themselves, and bytes that mean something elsewhere
NO_MARKS = VALUE_SIGNS + ("!", "~", "?")
FILLS = ("1", "x")
# how alike a name is to a word that is due, with which it does not count as one too many
ALIKE = 0.6
# how far a change goes: a sign put in, two tokens that change places, a sign for another one; a sign taken out; more
LITTLE, MORE, MUCH = 1, 2, 3
TAKEN, REFUSED_THEN, READ_ON = 0, 1, 2


@dataclass
class Change:
    """A change of the text: what is said of it, the edit, and how far it goes."""

    told: str
    start: int
    stop: int
    put: str
    cost: int

    def made(self, text):
        return f"{text[: self.start]} {self.put} {text[self.stop :]}"


def is_due(token, found):
    """Whether a token is one of those that may come."""
    kind = {"name": NAME, "number": NUMBER, "end": END}.get(token.kind)
    return token.text in found or kind in found


def width(token):
    """How far it goes to take a token out: a sign says less than a word or a number."""
    return MORE if token.kind in ("word", "name", "number") else LITTLE


def put_in(syntax, found):
    """A sign put before the place; or a word, where few may come there."""
    at = syntax.at
    signs = [sign for sign in PUT if sign in found and (sign != "=" or not syntax.begins_unknown)]
    words = [word for word in found if word in WORDS] if len(found) <= FEW or syntax.token.text == "=" else []
    if "else" in found and syntax.token.text == "{":
        yield Change("with `else` put before it", at, at, "else ", LITTLE)
    for text in signs + sorted(words):
        yield Change(f"with `{text}` put before it", at, at, f"{text} ", LITTLE if text in SIGNS else MORE)


def is_beside_value(syntax, found):
    """Whether a value ends before the place and another one begins there: a sign between them may be missing."""
    return "+" in found and syntax.token.kind in ("name", "number") or {"=", "("} & found and syntax.begins_unknown


def taken_out(syntax, found):
    """The token at the place taken out, or some with those behind it in the statement; or the one before it."""
    rest = syntax.rest
    more = 1 if is_beside_value(syntax, found) else 0
    for count in range(1, min(RUN, len(rest)) + 1):
        behind = rest[count] if count < len(rest) else None
        between = syntax.text[syntax.at : rest[count - 1].at]
        if any(token.text in ENDS for token in rest[: count - 1]) or "//" in between:
            break
        if is_due(behind, found) if behind else END in found:
            told = " ".join(syntax.text[syntax.at : rest[count - 1].end].split())
            cost = max(width(token) for token in rest[:count]) + (count > 1) + more
            yield Change(f"with `{told}` taken out", syntax.at, rest[count - 1].end, "", cost)
    if syntax.front and rest:
        last = syntax.front[-1]
        cost = MUCH if last.kind == "word" else width(last) + more
        yield Change(f"with `{last.text}` before it taken out", last.at, last.end, "", cost)
        if re.fullmatch(r"\} *\{", syntax.text[last.at : syntax.token.end]):
            yield Change("with `} {` taken out", last.at, syntax.token.end, "", LITTLE)
    close = closing(rest) if syntax.token.text == "{" and "let" in found else None
    if close:
        inner = syntax.text[syntax.token.end : close.at]
        yield Change("with this `{` and its `}` taken out", syntax.at, close.end, inner, LITTLE)


def is_value_alone(syntax, found):
    """Whether a statement of a body is a value, or an equal sign is in one: more than a sign may be missing."""
    if "+" in found and syntax.token.text == "=":
        return True
    return found == {"="} and syntax.in_body and syntax.token.text in VALUE_SIGNS and (
        len(syntax.front) > 1 and syntax.front[-2].text in ENDS)


def in_place(syntax, found):
    """A sign for the one at the place, and for the one that closes it; or for the one before the place."""
    token, rest = syntax.token, syntax.rest
    signs = [] if is_value_alone(syntax, found) else SIGNS
    for sign in [sign for sign in signs if sign in found and token.kind in ("sign", "foreign")]:
        cost = LITTLE if sign in LIKE.get(token.text, []) else MUCH
        yield Change(f"with `{sign}` in place of `{token.text}`", syntax.at, token.end, f"{sign} ", cost)
        close = closing(rest) if sign in CLOSED and token.text in CLOSED else None
        if close:
            put = sign + syntax.text[token.end : close.at] + CLOSED[sign]
            told = f"with `{sign}` and `{CLOSED[sign]}` in place of `{token.text}` and `{close.text}`"
            yield Change(told, syntax.at, close.end, put, LITTLE)
    if token.kind == "name" and "with" in found and len(rest) > 1 and rest[1].kind == "name":
        yield Change(f"with `with` in place of `{token.text}`", syntax.at, token.end, "with", MORE)
    if syntax.front and rest:
        last = syntax.front[-1]
        for sign in LIKE.get(last.text, []):
            yield Change(f"with `{sign}` in place of the `{last.text}` before it", last.at, last.end, f"{sign} ",
                         LITTLE)


def closing(tokens):
    """The token that closes the bracket with which these begin, or None."""
    opened = []
    for token in tokens:
        if token.text in CLOSED:
            opened.append(token.text)
        elif token.text in CLOSED.values():
            if CLOSED[opened.pop()] != token.text:
                return None
            if not opened:
                return token
    return None


def moved(syntax, found):
    """Tokens of the statement in another order: the one that is due comes further behind, or the last two change."""
    rest, text = syntax.rest, syntax.text
    for count in range(1, min(AHEAD, len(rest))):
        token = rest[count]
        if count > 1 and any(one.text in ENDS for one in rest[: count + 1]):
            break
        if not is_due(token, found):
            continue
        passed = text[syntax.at : rest[count - 1].end]
        if "\n" in text[syntax.at : token.end] or "//" in passed:
            break
        told = f"with `{token.text}` moved before `{syntax.token.text}`"
        if count == 1:
            told = f"with `{token.text} {syntax.token.text}` in place of `{syntax.token.text} {token.text}`"
        yield Change(told, syntax.at, token.end, f"{token.text} {passed}", LITTLE if count == 1 else MORE)
    if syntax.front and rest and "\n" not in text[syntax.front[-1].at : syntax.at]:
        last, first = syntax.front[-1], syntax.token
        told = f"with `{first.text} {last.text}` in place of `{last.text} {first.text}`"
        yield Change(told, last.at, first.end, f"{first.text} {last.text}", LITTLE)


def begun(syntax, found):
    """A statement of a body that begins with no word: one put before it, or moved there from behind."""
    if found != {"="} or not syntax.in_body or len(syntax.front) < 2 or syntax.front[-2].text not in ENDS:
        return
    first, rest = syntax.front[-1], syntax.rest[: AHEAD + 1]
    last = next((number for number, token in enumerate(rest) if token.text in ENDS), len(rest))
    is_alone = syntax.token.text in (";", "}") and first.text not in syntax.named.interrupts
    if is_alone or is_value_alone(syntax, found) and [token.text for token in rest[last : last + 1]] != ["{"]:
        return
    word = next((token for token in rest[:last] if token.text in BEGINS), None)
    if word:
        put = f"{word.text} {syntax.text[first.at : word.at]}"
        yield Change(f"with `{word.text}` moved before `{first.text}`", first.at, word.end, put, MORE)
    for text in BEGINS if not word else ():
        yield Change(f"with `{text}` before `{first.text}`", first.at, first.at, f"{text} ", MORE)


def changes(syntax, found):
    """The changes that are tried, those first that go least far."""
    rows = [row for way in (put_in, taken_out, in_place, moved, begun) for row in way(syntax, found)]
    return sorted(rows, key=lambda row: row.cost)


def place_in(text, output):
    """The offset of the refusal in an answer of the program."""
    found = re.match(r"(\d+):(\d+) E\d\d ", output)
    return offset_of(text, int(found[1]), int(found[2]))


def is_idle(token, syntax, found):
    """Whether a token says nothing: a sign, what comes twice, or a name that is nowhere else and is like no word that
    is due."""
    others = [one for one in syntax.front + syntax.rest if one.text == token.text and one.at != token.at]
    if token.kind in ("sign", "foreign"):
        return True
    beside = [one for one in (syntax.front[-1:] + syntax.rest[:2]) if one.at != token.at]
    if any(one.text == token.text for one in beside):
        return True
    if token.kind != "name":
        return token.kind == "number" and any(one.kind == "number" for one in beside) or token.text in ("in", "with")
    words = [word for word in found if word in WORDS]
    return not others and not nearest(token.text.lower(), words, ALIKE) and not any(
        token.text.startswith(word) for word in words)


def loses_nothing(row, verdict, syntax, found):
    """Whether a change takes out only what says nothing; or one word, without which the program takes the text."""
    if row.put or row.start == row.stop:
        return True
    taken = [token for token in syntax.front[-1:] + syntax.rest[:RUN] if row.start <= token.at < row.stop]
    if len(taken) > 1 and any(token.text in VALUE_SIGNS for token in taken):
        return False
    if verdict == TAKEN and [token.kind for token in taken] == ["word"]:
        return True
    return all(is_idle(token, syntax, found) for token in taken)


def judged(program, syntax, rows):
    """Each change with the verdict of the program: those that the program takes, or reads on behind."""
    stop = next((piece.stop for piece in pieces_of(syntax.text) if piece.start <= syntax.at < piece.stop), 0)
    for row, (status, output) in zip(rows, program.formats([row.made(syntax.text) for row in rows])):
        text = row.made(syntax.text)
        if status == 0:
            status, output = program.ask("check", program.file("mended", text))
            if status == 0 or is_behind(syntax, text, output):
                yield row, TAKEN if status == 0 else REFUSED_THEN
        elif place_in(text, output) > stop + len(text) - len(syntax.text):
            yield row, READ_ON


def is_behind(syntax, text, output):
    """Whether a rule that is broken after a change is so behind the place, or in another declaration or task."""
    at = place_in(text, output)
    piece = next(piece for piece in reversed(pieces_of(text)) if piece.start <= at)
    return at > syntax.at or not piece.start <= syntax.at < piece.stop


class Mending:
    """The changes at one place, which the program tries once, when they are asked for."""

    def __init__(self, syntax, found, program):
        self.syntax, self.found, self.program = syntax, found, program

    @functools.cached_property
    def rows(self):
        """The changes that the program takes or reads on behind, the best first."""
        tried = judged(self.program, self.syntax, changes(self.syntax, self.found))
        kept = (row for row in tried if loses_nothing(row[0], row[1], self.syntax, self.found))
        return sorted(kept, key=lambda row: (row[1], row[0].cost))

    def slip(self, syntax, found):
        """What is said of the one change that is certain, or None."""
        likely = [row for row, verdict in self.rows if verdict == TAKEN]
        row, *others = [row for row in likely if row.cost == likely[0].cost] or [None]
        if row is None or row.cost > MORE:
            return None
        if is_order(row, syntax):
            others = [other for other in likely if other is not row and is_order(other, syntax)]
        if not is_of_marks(row, syntax) or self.has_rival(row, others):
            return None
        return f"{row.told} {WHOLE}"

    def has_rival(self, row, others):
        """Whether another change of the size makes another text that the program reads: one of these; the same bracket
        at another place, or its partner taken out; where something is taken out, a value or a name put before it. Texts
        that the program writes alike are the same."""
        syntax = self.syntax
        changed = [token for token in syntax.front[-1:] + syntax.rest[:RUN] if row.start <= token.at < row.stop]
        if row.start == row.stop and row.put.strip() == ")":
            others = others + bracket_elsewhere(syntax)
        elif not row.put and [token.text for token in changed] == [")"]:
            others = others + other_closing(syntax, changed[0])
        if not row.put and changed:
            stops = (row.start, row.stop)
            others = others + [Change("", row.start, stop, f"{fill} ", LITTLE) for fill in FILLS for stop in stops]
        texts = [other.made(syntax.text) for other in [row] + others]
        own, *rest = self.program.formatted(texts)
        return any(status == 0 and output != own[1] for status, output in rest)

    def takes_without(self, token):
        """Whether the program takes the text without the token before the place."""
        return any(row.start == token.at and not row.put and verdict == TAKEN for row, verdict in self.rows)

    def takes_less(self):
        """Whether the program takes the text without the token at the place."""
        return any(row.start == self.syntax.at and not row.put and row.stop == self.syntax.token.end
                   and verdict == TAKEN for row, verdict in self.rows)

    def takes_other(self):
        """Whether the program takes the text with another sign at the place."""
        return any(row.start == self.syntax.at and row.put and row.stop > row.start and row.cost == LITTLE
                   and verdict == TAKEN for row, verdict in self.rows)

    def takes(self, text, most=READ_ON):
        """Whether the program reads on with a sign put before the place, or does no worse than this."""
        return any(row.put.strip() == text and row.start == row.stop and verdict <= most
                   for row, verdict in self.rows)


def replaced(row, syntax):
    """The texts of the tokens that a change takes, and of those that it puts."""
    taken = [token.text for token in tokens_of(syntax.text, 0, row.stop) if token.at >= row.start]
    return taken, [token.text for token in tokens_of(row.put)]


def is_order(row, syntax):
    """Whether a change puts tokens into another order, and does no more."""
    taken, put = replaced(row, syntax)
    return len(taken) > 1 and sorted(taken) == sorted(put)


def is_of_marks(row, syntax):
    """Whether a change is of what has no meaning of its own: marks that separate, words, and what begins no token. An
    operator that is put in, taken out or moved makes another value, which nobody knows but who wrote it; a word may be
    a part of the name before it; and of a brace too many nobody knows whether the line that opens it is missing."""
    taken, put = replaced(row, syntax)
    if row.start == row.stop:
        names = [token.text for token in syntax.front[-NEAR:] if token.kind == "name"]
        return put[0] not in WORDS or not any(put[0] in name for name in names)
    if is_order(row, syntax):
        moved_ones = put[:1] if len(put) > 2 else put
        return not any(text in VALUE_SIGNS + ("(", ")") for text in moved_ones)
    if taken == ["=="]:
        return True
    if taken == ["}"] and not put:
        return False
    return not any(text in NO_MARKS for text in taken[:1] + taken[-1:] + put[:1])


def bracket_elsewhere(syntax):
    """A closing parenthesis at each place behind the last that is open, and that one taken out."""
    depth, rows = 0, []
    for token in reversed(syntax.front):
        depth += {")": 1, "(": -1}.get(token.text, 0)
        if depth < 0:
            return rows + [Change("", token.at, token.end, "", LITTLE)]
        if token.text in ENDS:
            return rows
        rows.append(Change("", token.at, token.at, ") ", LITTLE))
    return rows


def other_closing(syntax, taken):
    """Each other closing bracket of the same kind taken out, as far back as the declaration or the task before."""
    starts = [piece.start for piece in pieces_of(syntax.text) if piece.start <= taken.at]
    first = starts[-2] if len(starts) > 1 else 0
    rows = [token for token in syntax.front if token.text == taken.text and token.at >= first and token != taken]
    return [Change("", token.at, token.end, "", LITTLE) for token in rows[-MOST_OTHERS:]]
