#!/usr/bin/env python3
"""Tries the walk of tools/explain through images on listings that are broken in many ways: its verdict is the program's
`no K`, and where the named instruction alone is mended, of the first rule one of the two from which the ways come, the
verdict or the named place is another.

The listings are those of `build` of some examples and examples/guarded.listing, each with one change or two: a line of
code, an operand, a note, a row or the first line. A number as the first word is how many are tried.
"""
import concurrent.futures
import os
import pathlib
import random
import subprocess
import sys
import time

HERE = pathlib.Path(__file__).resolve().parent
EXAMPLES = HERE.parents[1] / "examples"
sys.path.insert(0, str(HERE.parent))
sys.dont_write_bytecode = True

from explaining.listing import image_of
from explaining.program import Program, asked_program
from explaining.seven import least_broken

APPLICATIONS = ("tank", "four", "pump", "back")
COUNT = 400
NESTING = 1
SEED = 26
WORDS = (
    "mark", "ret", "serve", "wait", "noalarm", "set 0 0", "raise 0 224", "mask 0", "restore 0", "unmask 0", "clock 1",
)
NUMBERS = (0, 1, 2, 3, 9, 208, 224, 232, 240)
MENDED = ("{note}mark", "mark", "wait", "ret", "set 0 0")


def parts(line):
    """The words of a line of code before its note, and the note."""
    front, _, note = line.partition(" ; ")
    return front.split(" "), note


def line_of(words, note):
    return " ".join(words) + (f" ; {note}" if note else "")


def other_code(chance, lines, place):
    """A line of code with another instruction, note or operand."""
    words, note = parts(lines[place])
    codes = [number for number, line in enumerate(lines) if line.startswith("code ")]
    other, other_note = parts(lines[chance.choice(codes)])
    kind = chance.randrange(6)
    if kind == 0:
        note = chance.choice(["", other_note])
    elif kind == 1:
        words = words[:2] + other[2:]
    elif kind == 2:
        words, note = words[:2] + other[2:], other_note
    elif kind == 3:
        words = words[:2] + chance.choice(WORDS + (f"jump {chance.randrange(len(codes) + 2)}",)).split(" ")
    elif kind == 4:
        words = words[:2] + ["jumpz", "0", str(chance.randrange(len(codes)))]
    else:
        numbers = [number for number, word in enumerate(words) if number > 2 and word.isdigit()]
        for number in numbers[:1] if chance.randrange(2) else numbers[-1:]:
            words[number] = str(chance.choice(NUMBERS))
    return line_of(words, note)


def other_row(chance, line):
    """An `irq` row or the first line, with another number."""
    words = line.split(" ")
    places = {"image": (2, 3, 4), "irq": (2, 3, 4, 5)}.get(words[0], ())
    places = [place for place in places if place < len(words) and words[place].isdigit()]
    if places:
        place = chance.choice(places)
        words[place] = str(max(int(words[place]) + chance.choice([-16, -8, -2, -1, 1, 2, 8, 16]), 0))
    return " ".join(words)


def broken(chance, text):
    """A listing with one change or two."""
    lines = text.rstrip("\n").split("\n")
    for _ in range(chance.choice([1, 1, 2])):
        place = chance.randrange(len(lines))
        if lines[place].startswith("code "):
            lines[place] = other_code(chance, lines, place)
        else:
            lines[place] = other_row(chance, lines[place])
    return "\n".join(lines) + "\n"


def verdict(program, name, text):
    """The number of the rule that the program names, 0 for `yes`, None for a text that is no listing."""
    status, output = program.ask("verify", program.file(name, text))
    return {0: 0, 4: int(output[3:] or 0) if status == 4 else 0}.get(status)


def mended(text, place):
    """The listing with one line mended, in several ways."""
    lines = text.split("\n")
    words, note = parts(lines[place - 1])
    for form in MENDED if words[0] == "code" else ():
        kept = note if form.startswith("{note}") else ""
        yield with_line(lines, place, line_of(words[:2] + [form.replace("{note}", "")], kept))
    if words[0] == "irq":
        yield with_line(lines, place, " ".join(words[:3]) + " -")
        free = next(str(number) for number in range(496) if f" {number} " not in text)
        yield with_line(lines, place, " ".join(words[:2] + [free] + words[3:]))
    if words[0] == "image":
        for size in range(0, 4096, 8):
            yield with_line(lines, place, " ".join(words[:3] + [str(size)] + words[4:]))


def with_line(lines, place, line):
    """The text of some lines with another one at a place."""
    return "\n".join(lines[: place - 1] + [line] + lines[place:])


def is_mended(program, name, text, number, breach):
    """Whether some mending of a named line alone makes the program's verdict or the named place another one."""
    places = [breach.line] + [line for _, line in breach.notes if number == NESTING]
    for other in (one for place in places for one in mended(text, place)):
        found = verdict(program, name, other)
        if found is None:
            continue
        if found != number:
            return True
        again = least_broken(image_of(other))[1]
        if (again.line, again.cause) != (breach.line, breach.cause):
            return True
    return False


def tried(numbered):
    """The program's verdict on one listing, and what is wrong with the walk's."""
    place, text = numbered
    program = Program()
    if not program.answers:
        return None, ""
    try:
        number = verdict(program, f"image{place}", text)
        if number is None:
            return None, ""
        found, breach = least_broken(image_of(text))
        if (found or 0) != number:
            return number, f"the program says {number}, the walk {found}"
        if breach and not is_mended(program, f"image{place}", text, number, breach):
            return number, f"rule {number}: mending line {breach.line} mends nothing"
        return number, ""
    finally:
        program.folder.cleanup()


def listings():
    """The listings that are broken."""
    program = Program()
    found = [(EXAMPLES / "guarded.listing").read_text()]
    for name in APPLICATIONS:
        done = subprocess.run([program.path, "build", EXAMPLES / f"{name}.rtic"], capture_output=True, check=True)
        found.append(done.stdout.decode())
    program.folder.cleanup()
    return found


def main():
    program = asked_program()
    if program is None:
        print("explain_images: skipped: the proved program is not built (./build makes it), and RTIC names no other")
        return 0
    # looked for here, because a look goes through all sources, and each listing would take one
    os.environ["RTIC"] = os.path.abspath(program)
    count = int(sys.argv[1]) if len(sys.argv) > 1 else COUNT
    begun, chance, whole = time.monotonic(), random.Random(SEED), listings()
    texts = [broken(chance, chance.choice(whole)) for _ in range(count)]
    answers, wrong = {}, 0
    with concurrent.futures.ProcessPoolExecutor(os.cpu_count()) as pool:
        for text, (number, fault) in zip(texts, pool.map(tried, enumerate(texts), chunksize=8)):
            answers[number] = answers.get(number, 0) + 1
            wrong += bool(fault)
            if fault:
                print(f"explain_images: {fault}\n{text}")
    missing = [number for number in range(8) if number not in answers]
    told = ", ".join(f"{answers.get(number, 0)} {'yes' if not number else f'no {number}'}" for number in range(8))
    print(f"explain_images: {count - wrong} of {count} listings, {told}, in {time.monotonic() - begun:.1f} s")
    if missing:
        print(f"explain_images: no listing has the verdicts {missing}")
    return 1 if wrong or missing else 0


if __name__ == "__main__":
    sys.exit(main())
