"""What may come at the place of an E03: found by asking `fmt` of the good front and one token more.

That the place of E03 is exact is proved of the program: the tokens before it begin some text of the grammar, and with
one token more they are refused at this token just where they begin none. So each answer here is the program's.
"""
from .tokens import SIGNS, WORDS, tokens_of

ROOM = 262_144 - 40
NAME, NUMBER, END = "a name", "a number", "the end of the text"
EXPRESSION = {NAME, NUMBER, "("}
SPAWNS = {"spawn", "spawn_after", "cancel", "reschedule_after"}
VALUE = SPAWNS | {"now"}
STATEMENT = SPAWNS | {"let", "if", "for", "lock", "emit", "pend", NAME}
COMPARISONS = {"==", "!=", "<", "<=", ">", ">="}
OPERATORS = {"|", "^", "&", "<<", ">>", "+", "-", "*", "/", "%"}
# tokens that the grammar has in the same places, with the one that is asked for all of them; `&` also lists a resource
ALIKE = {
    "+": OPERATORS - {"&"}, "==": COMPARISONS, "spawn": SPAWNS, "let": STATEMENT - SPAWNS - {NAME},
}
ASKED = [text for text in sorted(WORDS) + SIGNS + ["fpu", "on"]
         if not any(text in alike and text != asked for asked, alike in ALIKE.items())]
ORDER = (
    "app bits dispatchers fpu on interrupts monotonic binds priority capacity shared local init idle task else "
    "lock_free ( with , & = ; { in .. ["
).split() + [NAME, NUMBER, ")", "]", "}", END]
NAMED = {
    "app": "the name of the application", "task": "the name of a task", "let": "the name of a variable",
    "for": "the name of a variable", "lock": "the name of a shared resource", "pend": "the name of an interrupt",
    "with": "the name of an argument", ")": "the name of a task", "spawn": "the name of a task",
    "cancel": "the name of a task",
}


def may_stand(program, front):
    """The tokens that may come after the good front, and the end of the text where it may; None if it is too long."""
    if len(front) > ROOM:
        front = " ".join(token.text for token in tokens_of(front))
    texts = {NAME: "x", NUMBER: "1", **{text: text for text in ASKED}}
    base = front + "\n"
    place = f"{base.count(chr(10)) + 1}:1 E03 "
    answers = program.formats([base + text for text in texts.values()] + [front])
    if any(" E01 " in answer for _, answer in answers):
        return None
    found = {kind for kind, (_, answer) in zip(texts, answers) if not answer.startswith(place)}
    found = found.union(*(alike for asked, alike in ALIKE.items() if asked in found))
    if NAME in found:
        found -= {"fpu", "on"}
    return found | ({END} if answers[-1][0] == 0 else set())


def joined(parts):
    """Parts with commas, and an `or` before the last."""
    return " or ".join([", ".join(parts[:-1]), parts[-1]] if len(parts) > 1 else parts)


def told(found, before):
    """What may come, as a person says it; `before` are the tokens of the front."""
    rest, first, last = set(found), [], []
    if STATEMENT <= rest:
        rest -= STATEMENT
        last = ["a statement"]
    elif EXPRESSION <= rest:
        rest -= EXPRESSION
        first = ["an expression"]
        if VALUE <= rest:
            rest -= VALUE
            first = ["an expression", "`now`", "a spawn"]
    if OPERATORS <= rest:
        last = ["an operator" if COMPARISONS <= rest else "an operator that does not compare"]
        rest -= OPERATORS | COMPARISONS
    words = [text for text in ORDER if text in rest] + sorted(rest - set(ORDER))
    told_words = [named(text, rest, before) for text in words]
    close = [text for text in told_words if text in ("`}`", "`]`", "`)`")] if last == ["a statement"] or first else []
    return joined(first + [text for text in told_words if text not in close] + last + close)


def named(text, rest, before):
    """One kind of token: a name by what it is to name, where that is known by the token before."""
    if text == NAME and rest == {NAME} and before:
        return NAMED.get(before[-1].text, NAME)
    return text if text in (NAME, NUMBER, END) else f"`{text}`"


def met(token):
    """The token that is there."""
    kinds = {"word": "the word ", "name": "the name ", "number": "the number "}
    return END if token.kind == "end" else f"{kinds.get(token.kind, '')}`{token.text}`"
