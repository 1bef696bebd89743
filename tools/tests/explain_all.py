#!/usr/bin/env python3
"""Tries `tools/explain --all` on accepted applications into which mistakes are put, one each in different declarations
and bodies: each is told, at the place at which the program refuses it where it is the only one, and nothing else is;
and with the told ones mended the program accepts.

Two numbers as words are how many texts are tried, and the first seed.
"""
import concurrent.futures
import os
import pathlib
import random
import sys
import time

HERE = pathlib.Path(__file__).resolve().parent
EXAMPLES = HERE.parents[1] / "examples"
sys.path.insert(0, str(HERE.parent))
sys.dont_write_bytecode = True

from explaining.every import Every
from explaining.patched import Patched
from explaining.pieces import pieces_of
from explaining.program import Program, asked_program
from explaining.refusals import refusal_of

COUNT, SEED, MOST, TRIES = 8, 57, 6, 8
SKIPPED = ("from_rtic",)


def chosen(chance, tokens, *texts):
    """One of the tokens with these texts, or None."""
    found = [token for token in tokens if token.text in texts]
    return chance.choice(found) if found else None


def behind(tokens, text):
    """The tokens that come directly after one with a text."""
    return [after for before, after in zip(tokens, tokens[1:]) if before.text == text]


def dropped(*texts):
    """A mistake: a token is forgotten."""

    def mistake(chance, tokens, body):
        token = chosen(chance, body, *texts)
        return token and (token.at, token.end, "")

    return mistake


def other(text, put):
    """A mistake: another token in the place of one."""

    def mistake(chance, tokens, body):
        token = chosen(chance, body, text)
        return token and (token.at, token.end, put)

    return mistake


def before(text, put):
    """A mistake: something before a token."""

    def mistake(chance, tokens, body):
        token = chosen(chance, body, text)
        return token and (token.at, token.at, put)

    return mistake


def first_statement(put):
    """A mistake: a statement at the beginning of a body."""

    def mistake(chance, tokens, body):
        return (body[0].end, body[0].end, f" {put} ") if body and tokens[0].text in ("init", "idle", "task") else None

    return mistake


def named(text, put):
    """A mistake: another name after a word."""

    def mistake(chance, tokens, body):
        found = [token for token in behind(tokens, text) if token.kind == "name"]
        token = chance.choice(found) if found else None
        return token and (token.at, token.end, put)

    return mistake


def valued(word, put):
    """A mistake: another number for an option or in a row."""

    def mistake(chance, tokens, body):
        found = [after for one, equal, after in zip(tokens, tokens[1:], tokens[2:])
                 if one.text == word and equal.text == "=" and after.kind == "number"]
        token = chance.choice(found) if found else None
        return token and (token.at, token.end, put)

    return mistake


def in_rows(put):
    """A mistake: another row in a declaration."""

    def mistake(chance, tokens, body):
        if tokens[0].text not in ("interrupts", "shared", "local"):
            return None
        return tokens[1].end, tokens[1].end, f" {put}, "

    return mistake


MISTAKES = {
    "a semicolon is forgotten": dropped(";"), "a parenthesis is forgotten": dropped(")"),
    "a brace is forgotten": dropped("}"), "a brace too many": before("}", "} "),
    "an equal sign is forgotten": dropped("="),
    "two equal signs for one": other("=", "=="), "an addition and assignment": other("=", "+="),
    "one equal sign for two": other("==", "="), "two ands": other("&", "&&"), "a sign twice": other("+", "+ *"),
    "a foreign byte": before(";", "?"), "a colon": other("=", ":"), "a misspelt emit": other("emit", "emitt"),
    "a misspelt let": other("let", "lett"), "let mut": other("let", "let mut"), "a misspelt if": other("if", "fi"),
    "a while": first_statement("while 1 { emit 1; }"), "an unknown variable": first_statement("emit nowhere;"),
    "an unknown task": first_statement("spawn nobody(1);"), "an unknown interrupt": first_statement("pend NOTHING;"),
    "an unknown lock": first_statement("lock nothing { emit 1; }"), "a return": first_statement("return;"),
    "a variable twice": first_statement("let twice = 1; let twice = 2;"), "a type": first_statement("u32 x = 1;"),
    "an else if": first_statement("if 1 { } else if 2 { }"), "a negation": first_statement("if !(1 == 2) { }"),
    "a loop that assigns": first_statement("for i in 0..2 { i = 3; }"),
    "many turns": first_statement("for i in 0..5000 { }"),
    "a long name": first_statement(f"let {'long' * 9} = 1;"), "a large number": first_statement("emit 4294967296;"),
    "a bound that is unknown": named("binds", "NOWHERE"), "a priority above all": valued("priority", "200"),
    "the priority of idle": valued("priority", "0"), "a large capacity": valued("capacity", "17"),
    "a row without its number": in_rows("FRESH"), "a row with a colon": in_rows("FRESH: 3"),
    "a row of another language": in_rows("FRESH = true"), "rows of one name": in_rows("FRESH = 490, FRESH = 491"),
    "rows of one number": in_rows("ONE = 489, OTHER = 489"),
}


class Text:
    """An accepted text, its pieces, and the mistakes that can be put into each."""

    def __init__(self, name, text):
        self.name, self.text = name, text
        self.pieces = pieces_of(text)

    def edit(self, chance, piece, mistake):
        """The edit that puts a mistake into a piece, or None."""
        brace = piece.brace
        body = [token for token in piece.tokens if brace is None or token.at >= brace.at]
        return mistake(chance, piece.tokens, body)


def first_refusal(program, text):
    """The program's refusal, or None where it accepts."""
    return refusal_of(text, program.ask("check", program.file("one", text))[1])


def single(program, whole, piece, edit):
    """The offset in the whole text and the number of the refusal of one mistake alone; None where it is elsewhere."""
    patched = Patched(whole.text).edited([edit])
    refusal = first_refusal(program, patched.text)
    if refusal is None:
        return None
    at = patched.origin(refusal.at)
    return (at, refusal.number) if piece.start < at <= piece.stop else None


def mistaken(chance, program, whole):
    """Edits for some pieces, each with its own refusal."""
    pieces = [piece for piece in whole.pieces if chance.randrange(4)]
    chance.shuffle(pieces)
    found = {}
    for piece in pieces:
        names = sorted(set(MISTAKES) - {name for name, _ in found})
        for name in chance.sample(names, TRIES) if len(found) < MOST else ():
            edit = whole.edit(chance, piece, MISTAKES[name])
            told = single(program, whole, piece, edit) if edit else None
            if told:
                found[name, piece.start] = (edit, told)
                break
    return found


def faults_of(program, whole, found):
    """What is not told, what is told besides, and whether the text is accepted with the told ones mended."""
    patched = Patched(whole.text).edited([edit for edit, _ in found.values()])
    own = first_refusal(program, patched.text)
    told = Every(program, patched.text, "check").refusals()
    places = [(patched.origin(one.origin(refusal.at)), refusal.number) for refusal, one in told]
    due = [one for _, one in found.values()]
    faults = [f"not told: {name}, {place}" for (name, _), (_, place) in found.items() if place not in places]
    faults += [f"told besides: {place}" for place in places if place not in due]
    if told and (told[0][0].line, told[0][0].column) != (own.line, own.column):
        faults.append("the first is not the program's own")
    left = [edit for edit, place in found.values() if place not in places]
    if first_refusal(program, Patched(whole.text).edited(left).text):
        faults.append("with the told ones mended the program refuses")
    return faults, patched.text


def tried(seed):
    """One text with mistakes: how many there are, and what is wrong."""
    chance, program = random.Random(seed), Program()
    if not program.answers:
        return 0, "", 0
    try:
        paths = [path for path in sorted(EXAMPLES.glob("*.rtic")) if path.stem not in SKIPPED]
        path = chance.choice(paths)
        whole = Text(path.stem, path.read_text())
        found = mistaken(chance, program, whole)
        if not found:
            return 0, "", 0
        faults, text = faults_of(program, whole, found)
        head = f"seed {seed}, {whole.name}: {', '.join(name for name, _ in found)}"
        return len(found), "\n".join([head] + faults + [text]) if faults else "", program.asks
    finally:
        program.folder.cleanup()


def main():
    program = asked_program()
    if program is None:
        print("explain_all: skipped: the proved program is not built (./build makes it), and RTIC names no other")
        return 0
    # looked for here, because a look goes through all sources, and each text would take one
    os.environ["RTIC"] = os.path.abspath(program)
    count = int(sys.argv[1]) if len(sys.argv) > 1 else COUNT
    first = int(sys.argv[2]) if len(sys.argv) > 2 else SEED
    begun = time.monotonic()
    with concurrent.futures.ProcessPoolExecutor(os.cpu_count()) as pool:
        rows = list(pool.map(tried, range(first, first + count), chunksize=2))
    wrong = [fault for _, fault, _ in rows if fault]
    print("\n".join(wrong) + "\n" * bool(wrong), end="")
    mistakes = sum(number for number, _, _ in rows)
    print(f"explain_all: {count - len(wrong)} of {count} texts with {mistakes} mistakes, in "
          f"{time.monotonic() - begun:.1f} s with {sum(asks for _, _, asks in rows)} questions")
    return 1 if wrong or mistakes < count else 0


if __name__ == "__main__":
    sys.exit(main())
