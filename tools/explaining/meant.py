"""The line that was meant: a line of no form, with its words put into the order of the form that takes all of them.

The words of the line fill the places of a form: a word of the form, perhaps misspelt, a name of its kind, a number.
A form counts only where each word of the line is used, but for words that say nothing, and each place is filled; where
two forms are as near, nothing is said.
"""
import itertools
import re

from .tokens import nearest

NUMERAL, NAME = re.compile(r"[0-9]{1,10}"), re.compile(r"[A-Za-z_]\w*(?:\.\w+)?")
WORD = re.compile(r"0[xX][0-9a-fA-F]+|\d[\d_,']*\d|\d+|[A-Za-z_]\w*(?:\.\w+)?|[#;-]")
# words that say nothing in a line: units, and what comes between the others in a sentence
IDLE = frozenset(
    "a again after and at by core cpu cycle cycles every for from in interrupt interrupts irq is it line micros millis "
    "ms more n nanos now of on once please s secs step steps the then tick ticks time times to us with x".split()
)
SIGNS = ("#", ";", "-")
ANY = None
MOST_WORDS, NEARLY, FEW = 8, 0.7, 3
EXACT, CLEANED, NEAR, OTHER_ORDER, LEFT_OUT, PUT_IN = 0, 1, 2, 2, 1, 3
TOO_FAR = 6
# a number with a sign, a moment, and a time, of which nobody knows how many steps it is
SENSELESS = re.compile(
    r"-\d|\b(?:at|after|from|until) \d|\d ?(?:[num]?s|secs?|seconds?|milli\w*|micros?|minutes?)\b"
    r"|\bpend\b.*(?:[+@] ?|\b(?:in|within|by|on|since|for|per) )\d"
)


def plain(word):
    """A number as a line has it, in decimal digits; or None."""
    if re.fullmatch(r"0[xX][0-9a-fA-F]+", word):
        return str(int(word, 16))
    bare = re.sub(r"[_,']", "", word).removeprefix("x")
    return (bare.lstrip("0") or "0") if NUMERAL.fullmatch(bare) else None


class Slot:
    """A place of a form: a number, one of some names, any name, or a word of the form itself."""

    def __init__(self, letter, names):
        self.is_number = letter.isupper() and letter not in names
        self.names = names.get(letter, [] if self.is_number else [letter])
        self.is_word = letter not in names and not self.is_number
        self.put = letter if self.is_word else {"DEVICE": "0"}.get(letter)

    def filled(self, word):
        """What stands at the place for a word, and how far that goes; or None."""
        if self.is_number:
            number = plain(word)
            return None if number is None else (number, EXACT if number == word else CLEANED)
        if self.names is ANY:
            return (word, EXACT) if NAME.fullmatch(word) else None
        if word in self.names:
            return word, EXACT
        same = next((name for name in self.names if name.lower() == word.lower()), None)
        if same:
            return same, CLEANED
        near = nearest(word.lower(), self.names, NEARLY) if len(word) > 2 else None
        return (near, NEAR) if near else None


def filled(slots, words, in_order=True):
    """The line of a form for some words, all of them, and how far it is from them; or None. The name of anything is no
    sign that a word of the form is left out."""
    if not slots:
        return None if words else ([], 0 if in_order else OTHER_ORDER)
    slot, found = slots[0], []
    for place, word in enumerate(words):
        made = slot.filled(word)
        rest = made and filled(slots[1:], words[:place] + words[place + 1 :], in_order and place == 0)
        found += [([made[0]] + rest[0], made[1] + rest[1])] if rest else []
    if slot.put is not None and not any(one.names is ANY for one in slots):
        rest = filled(slots[1:], words, in_order)
        found += [([slot.put] + rest[0], PUT_IN + rest[1])] if rest else []
    return min(found, key=lambda one: one[1], default=None)


def readings(words, own, of_forms):
    """The words, and the words without those that say nothing: each with what it leaves out. A word of the forms, or a
    name, says something, but where a word of the forms comes twice."""
    idle = [place for place, word in enumerate(words) if word in SIGNS
            or place and word == words[place - 1] and word in of_forms
            or word.lower() in IDLE and (word not in own or word in words[:place])]
    for count in range(len(idle) + 1):
        for left in itertools.combinations(idle, count):
            yield [word for place, word in enumerate(words) if place not in left], count * LEFT_OUT


def line_of(source, forms, names):
    """The line of one of the forms that was meant by a line, or None; `names` are those of each letter of a form that
    is no number's. A number with a sign, a moment and a time are told by no form."""
    forms = list(forms)
    found, own = {}, {word for form in forms for word in form.split(" ") if not word.isupper()}
    words = WORD.findall(re.sub(rf"\b({'|'.join(map(re.escape, own))})(?=\d)", r"\1 ", source))
    if not 0 < len(words) <= MOST_WORDS or SENSELESS.search(source):
        return None
    said = own.union(*(some for some in names.values() if some is not ANY))
    for form in forms:
        slots = [Slot(letter, names) for letter in form.split(" ")]
        for some, cost in readings(words, said, own):
            made = filled(slots, some) if abs(len(some) - len(slots)) < FEW else None
            if made and made[1] + cost < TOO_FAR:
                line = " ".join(made[0])
                found[line] = min(found.get(line, TOO_FAR), made[1] + cost)
    least = min(found.values(), default=None)
    nearby = [line for line, cost in found.items() if cost == least and line != source]
    return nearby[0] if len(nearby) == 1 else None
