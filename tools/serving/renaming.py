"""Renaming: where a new name can take the place of an old one, so that the program reads the same application."""
from explaining.tokens import NAME, WORDS, Token, place_of

from .names import Names
from .tolerant import read

LONGEST = 32


class Refused(Exception):
    """Why a name cannot be renamed so, in words for a person."""


def word_fault(new):
    """Why a word is no name of the language, or None."""
    if not NAME.fullmatch(new):
        return f"`{new}` is no name: a letter or `_`, then letters, digits and `_`"
    if new in WORDS:
        return f"`{new}` is a word of the language and names nothing"
    if len(new) > LONGEST:
        return f"the name has {len(new)} bytes, and {LONGEST} is the most"
    return None


def renamed(text, symbol, new):
    """The names of the text with a symbol's tokens changed. Each token keeps its offset, by which it is known."""
    places = {one.token.at for one in symbol.occurrences}
    tokens = [Token(token.kind, new, token.at) if token.at in places else token for token in text.tokens]
    return Names(read(text.data, tokens)[0])


def meanings(names):
    """What each token that is a name stands for: by offsets, the one of the declaration, or nothing."""
    found = {one.token.at: one.symbol.token.at for one in names.occurrences}
    found.update({token.at: None for token in names.unknown})
    return found


def rename(text, occurrence, new):
    """The tokens to change. A name that is taken, or would be, is refused: then some name stood for something else."""
    if not text.is_whole:
        line, _ = place_of(text.data, min(text.reading[1].faults))
        raise Refused(f"the text is not in the grammar at line {line}: what names stand for is not known")
    fault = word_fault(new)
    if fault:
        raise Refused(fault)
    symbol = occurrence.symbol
    if new == symbol.token.text:
        return []
    after = renamed(text, symbol, new)
    clashed = {clash.token.at for clash in text.names.clashes}
    for clash in sorted(after.clashes, key=lambda one: one.token.at):
        if clash.token.at not in clashed:
            first, second = place_told(text, clash.first.at), place_told(text, clash.token.at)
            raise Refused(f"`{new}` is taken: it would be declared at {first} and at {second}")
    was = meanings(text.names)
    for at, meaning in sorted(meanings(after).items()):
        if was[at] != meaning:
            raise Refused(f"`{new}` is taken: the name at {place_told(text, at)} would stand for something else")
    return [one.token for one in symbol.occurrences]


def place_told(text, at):
    """The place of an offset, as a person says it."""
    line, column = place_of(text.data, at)
    return f"line {line}, column {column}"
