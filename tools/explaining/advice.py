"""The one place from which a change of an application's text is advised: `advised` and `advised_line` say all of them.

Every other sentence says what holds, of the language or of the text. Behind the sign ` => ` a sentence can have a
change: what is to stand in the place of what is there, or behind a `~` what is to be left out. It is told where it is
certain: the program takes the whole text with it, nothing that the text declares and no number is lost with it, and it
makes no other text at another place of the same length. Else what holds is told alone; or nothing, where the sign is
` =>! `, because what holds may then be no cause.
"""
import re
from collections import Counter
from dataclasses import dataclass

from .tokens import tokens_of

WHOLE = "the whole text is read"
SIGN = re.compile(r" =>(!?) ")
NEAR, FAR, BESIDE = 8, 12, 2
GIVES = ("=", "in")


def advised(syntax, sentence, front=NEAR, behind=None):
    """The sentence with its change where that is certain; else without, or None. So many tokens before the place and
    from it on can be changed."""
    if sentence is None or not (found := SIGN.search(sentence)):
        return sentence
    fact, put = sentence[: found.start()], sentence[found.end() :]
    if change := certain(syntax, put, front, behind):
        return f"{fact}; {told(syntax.text, change)}"
    return None if found[1] else fact


def told(text, change):
    """What is said of a change."""
    taken = " ".join(text[change.start : change.stop].split())
    return f"with `{change.put}` in place of `{taken}` {WHOLE}" if change.put else f"without `{taken}` {WHOLE}"


@dataclass(frozen=True)
class Change:
    """What is put in the place of a part of the text, how many tokens that part has, and when it is tried."""

    start: int
    stop: int
    put: str
    size: int
    rank: tuple = ()

    def made(self, text):
        return f"{text[: self.start]} {self.put} {text[self.stop :]}"


def certain(syntax, put, front, behind):
    """The change that is certain, or None."""
    if not syntax.trials.can:
        return None
    is_less = put.startswith("~")
    changes = left_out(syntax, put[1:], front, behind or FAR) if is_less else replaced(syntax, put, front, behind)
    for rank in sorted({one.rank for one in changes}):
        if first := next(iter(read_whole(syntax, [one for one in changes if one.rank == rank])), None):
            texts = read_whole(syntax, [one for one in changes if one.size == first.size]).values()
            return first if len(set(texts)) == 1 and (is_less or keeps(syntax, first)) else None
    return None


def replaced(syntax, put, front, behind):
    """The places that the text to be put there can take."""
    first, *_, last = [token.text for token in tokens_of(put)] * 2
    starts = {0: syntax.at}
    for back, token in enumerate(reversed(syntax.front[-front:] if front else []), 1):
        if back <= BESIDE or back == front or token.text == first:
            starts[back] = token.at
    stops = {0: syntax.front[-1].end} if syntax.front else {}
    for count, token in enumerate(syntax.rest[:FAR], 1):
        if count <= (behind or FAR) or token.text == last and count <= (behind or FAR) + BESIDE:
            stops[count] = token.end
    return [Change(start, stop, put, back + count, ranked(back, count, behind)) for back, start in starts.items()
            for count, stop in stops.items() if back + count and start < stop]


def ranked(back, count, behind):
    """When a place is tried: where it is known how many tokens from the place on are meant, those come first, then one
    or two more, then fewer; else the shortest place comes first."""
    if behind is None:
        return back + count, 0
    return count - behind if count >= behind else BESIDE + behind - count, back


def left_out(syntax, text, front, behind):
    """The places at which the tokens of a text come, directly before the place or round it."""
    wanted = [token.text for token in tokens_of(text)]
    before, size = syntax.front[-front:] if front else [], len(wanted)
    near = before + syntax.rest[: behind + BESIDE]
    spans = [near[place : place + size] for place in range(len(before) + 1) if place + size >= len(before)]
    return [Change(span[0].at, span[-1].end, "", size) for span in spans if [token.text for token in span] == wanted]


def read_whole(syntax, changes):
    """Those of some changes with which the program takes the whole text, each with what `fmt` makes of that."""
    program, texts = syntax.trials.program, [one.made(syntax.text) for one in changes]
    answers = zip(changes, texts, program.formatted(texts))
    return {one: output for one, text, (status, output) in answers if status == 0 and syntax.trials.takes_text(text)}


def keeps(syntax, change):
    """Whether a change loses nothing that the text declares, and no number."""
    lost = Counter(token.text for token in tokens_of(syntax.text, change.start, change.stop))
    elsewhere = Counter(token.text for token in syntax.front + syntax.rest)
    elsewhere.subtract(lost)
    lost.subtract(token.text for token in tokens_of(change.put))
    named = {*syntax.named.tasks, *assigned(syntax)}
    gone = [text for text, count in lost.items() if count > 0]
    return not any(text in named and elsewhere[text] or text[0].isdigit() and text not in change.put for text in gone)


def assigned(syntax):
    """The names to which the text gives a number or a value, somewhere."""
    tokens = syntax.front + syntax.rest
    return {token.text for token, behind in zip(tokens, tokens[1:]) if token.kind == "name" and behind.text in GIVES}


def signed(syntax, size, put, fact):
    """What holds of a sign of several bytes at the place, and what is to stand in the place of each such sign, where
    the program takes the whole text with that."""
    sign = syntax.text[syntax.at : syntax.at + size]
    if not syntax.trials.takes_text(syntax.text.replace(sign, put)):
        return fact
    many = syntax.text.count(sign) > 1
    where = "each of them" if many else "it"
    if not put.strip():
        return f"{fact}: with {'a space in place of' if put else 'nothing in place of'} {where} {WHOLE}"
    return f"{fact}: with `{put}` in place of {where} {WHOLE}"


def advised_line(takes, line):
    """What is said of a line in the place of one that is of no form, where the program takes it; else None."""
    return f"with `{line}` as the whole line it is read" if takes(line) else None
