#!/usr/bin/env python3
"""Tries tools/fmt: texts that were formatted by hand (fmt/by_hand.rows, docs/TOOLS.md), comments that are put by chance
between the tokens of texts whose canonical text is known or asked of the program, and the command line on a stand-in.

What the program writes is compared only where there is one that answers at once: that of RTIC, or the proved one."""
import contextlib
import os
import pathlib
import random
import re
import subprocess
import sys
import tempfile
import time

HERE = pathlib.Path(__file__).resolve().parent
TOOLS = HERE.parent
ROOT = TOOLS.parent
sys.dont_write_bytecode = True
sys.path[:0] = [str(TOOLS), str(ROOT / "bench" / "hostile")]

import rows
from documenting.commands import commands
from documenting.page import Page
from explaining.program import asked_program
from formatting.comments import Amiss, with_comments
from formatting.main import asked

SEED, TIMES = 57, 2
LONGEST = 2_000
# as many statements as make a text too long when each has a line of its own
MANY = 25_000
TOKEN = re.compile(r"\s+|//[^\n]*|([A-Za-z_0-9]+|<<|>>|==|!=|<=|>=|\.\.|.)", re.S)
COMMENTS = ("//", "// one", "/// two", "// a // b", "//\t\xff\0 ; } else {", "// inner\rreturn", "//=")
ENDS = ("", " ", "\r", " \t")
BLANKS = (" ", "\n", "\n\n", "\r\n \t\n\n", "")
LOOSE = "app a(bits=4); // one\ninterrupts{} // two\n"
FORMATTED = "app a(bits = 4); // one\ninterrupts {} // two\n"
CANONICAL = "app a(bits = 4);\ninterrupts {}\n"
STAND_IN = """#!/bin/sh
[ "$1" = fmt ] && [ -f "$2" ] || exit 2
cat -- "$CANONICAL"
exit "${STATUS:-0}"
"""


def bare(text):
    """A canonical text without its comments and empty lines: no token has `//` in it."""
    lines = [line.partition("//")[0].rstrip(" ") for line in text.split("\n")]
    return "".join(f"{line}\n" for line in lines if line)


def comments(text):
    """The comments of a text in order, each without blanks at its end."""
    return [found[0].rstrip(" \t\r") for found in re.finditer(r"//[^\n]*", text)]


class Trial:
    """Counts texts, and collects what is wrong; and the program that is asked, or None."""

    def __init__(self, folder):
        self.folder, self.program, self.wrong, self.count = folder, asked_program(), [], 0

    def expect(self, told, is_right):
        self.count += 1
        if not is_right:
            self.wrong.append(told)

    def asked(self, text):
        """What `fmt` of the program writes, and its status."""
        path = self.folder / "asked.rtic"
        path.write_bytes(text.encode("latin-1"))
        done = subprocess.run([self.program, "fmt", path], stdout=subprocess.PIPE, check=False)
        return done.returncode, done.stdout.decode("latin-1")


def by_hand():
    """The rows: a name, a text, and the formatted one; and the example of the document."""
    blocks = commands(Page("docs/TOOLS.md"))
    loose, formatted = next(block for block in blocks if block[0].command == "cat pump.rtic")
    yield "docs/TOOLS.md", "\n".join(loose.lines) + "\n", "\n".join(formatted.lines) + "\n"
    for part in re.split(r"^== ", (HERE / "fmt" / "by_hand.rows").read_text(encoding="utf-8"), flags=re.M)[1:]:
        name, text = part.split("\n", 1)
        yield (name, *text.split("-- formatted\n"))


def try_rows(trial):
    """The rows, also with other ends of lines, and without the last."""
    for name, text, due in by_hand():
        for form in (text, text.replace("\n", "\r\n"), text.removesuffix("\n"), due):
            trial.expect(name, with_comments(form, bare(due)) == due)
        if trial.program:
            trial.expect(f"{name}: what the program writes", trial.asked(text) == (0, bare(due)))


def texts(trial):
    """Texts with their canonical text: the cases that have it, and the examples, where the program can be asked."""
    known = {}
    for case in rows.cases("canonical"):
        if case["exit"] == b"0\n":
            known[case["app"].decode("latin-1")] = case["output"].decode("latin-1")
    if trial.program:
        asked = [path.read_text(encoding="latin-1") for path in sorted((ROOT / "examples").rglob("*.rtic"))]
        asked += [text.decode("latin-1") for text in rows.applications()[""]]
        for text in asked:
            status, canonical = trial.asked(text)
            if status == 0:
                known.setdefault(text, canonical)
    return {text: canonical for text, canonical in known.items() if len(text) < LONGEST}


def commented(text, chance):
    """A text with comments between its tokens by chance, in place of its own, and these comments."""
    density = chance.choice((0.05, 0.3, 1))
    found, put = [], []
    for piece in TOKEN.finditer(text):
        if piece[1] and chance.random() < density:
            put.append(chance.choice(COMMENTS))
            found += [" ", chance.choice(BLANKS), put[-1], chance.choice(ENDS), "\n", chance.choice(BLANKS)]
        if not piece[0].startswith("//"):
            found.append(piece[0])
    return "".join(found), put


def try_chance(trial):
    """Comments by chance: they stay in order, nothing else changes, and the second time nothing at all."""
    chance, known = random.Random(SEED), texts(trial)
    for text, canonical in known.items():
        for _ in range(TIMES):
            changed, put = commented(text, chance)
            found = with_comments(changed, canonical)
            right = bare(found) == canonical and comments(found) == put and "\n\n\n" not in found
            trial.expect(f"by chance: {changed!r}", right and with_comments(found, canonical) == found)
        if trial.program:
            trial.expect(f"the program on {found!r}", trial.asked(found) == (0, canonical))
    return len(known)


class Calls:
    """Calls of tools/fmt in a folder with a stand-in, which writes a canonical text whatever it is given."""

    def __init__(self, trial):
        self.trial, self.folder = trial, trial.folder / "calls"
        self.folder.mkdir()
        self.program = self.file("stand-in", STAND_IN)
        self.program.chmod(0o755)
        self.file("canonical", CANONICAL)

    def file(self, name, text):
        (self.folder / name).write_bytes(text.encode("latin-1"))
        return self.folder / name

    def text(self, name):
        return (self.folder / name).read_bytes().decode("latin-1")

    def ended(self, *words, status=0, text=None, **more):
        """The status, the output and the errors of a call."""
        environment = dict(os.environ, RTIC=str(self.program), STATUS=str(status),
                           CANONICAL=str(self.folder / "canonical"))
        done = subprocess.run([sys.executable, "-S", TOOLS / "fmt", *words], cwd=self.folder, input=text, text=True,
                              env=environment, check=False, **{"stdout": subprocess.PIPE, **more},
                              stderr=subprocess.PIPE)
        return done.returncode, done.stdout, done.stderr

    def expect(self, told, found, due):
        self.trial.expect(f"{told}: {found}", found == due)


def try_words(calls):
    """Which words are taken, and what is written where."""
    calls.file("loose.rtic", LOOSE)
    calls.file("right.rtic", FORMATTED)
    calls.expect("a file", calls.ended("loose.rtic"), (0, FORMATTED, ""))
    calls.expect("standard input", calls.ended("-", text=LOOSE), (0, FORMATTED, ""))
    calls.expect("check", calls.ended("--check", "right.rtic", "loose.rtic"), (1, "loose.rtic\n", ""))
    calls.expect("check of right ones", calls.ended("--check", "right.rtic", "-", text=FORMATTED), (0, "", ""))
    status, _, said = calls.ended("none.rtic")
    calls.expect("no such file", (status, said), (5, "none.rtic: No such file or directory\n"))
    status, output, said = calls.ended("a", "b")
    calls.expect("two files", (status, output, said[:7]), (2, "", "usage: "))
    calls.expect("the help", calls.ended("--help")[:2], (0, said))
    for words in ([], ["a", "b"], ["--check"], ["-w", "-"], ["--check", "-", "-"], ["-x", "a"], ["a", "-w"]):
        calls.expect(f"the words {words}", asked(words), None)
    with open("/dev/full", "wb") as full:
        calls.expect("a full device", calls.ended("right.rtic", stdout=full)[0], 6)


def try_in_place(calls):
    """Files that are written in place: through links, with their modes, and only where they change."""
    for name in ("first.rtic", "second.rtic"):
        calls.file(name, LOOSE).chmod(0o640)
    right = calls.file("right.rtic", FORMATTED)
    os.utime(right, (1, 1))
    (calls.folder / "link.rtic").symlink_to("second.rtic")
    names = sorted(os.listdir(calls.folder))
    calls.expect("in place", calls.ended("-w", "first.rtic", "link.rtic", "right.rtic"), (0, "", ""))
    calls.expect("the texts", [calls.text(name) for name in ("first.rtic", "second.rtic")], [FORMATTED] * 2)
    calls.expect("the mode", (calls.folder / "first.rtic").stat().st_mode & 0o777, 0o640)
    calls.expect("the link", (calls.folder / "link.rtic").is_symlink(), True)
    calls.expect("one that is right", right.stat().st_mtime, 1)
    calls.expect("nothing else is left", sorted(os.listdir(calls.folder)), names)


def try_refusals(calls):
    """What the program refuses is handed on, and no file is changed."""
    calls.file("loose.rtic", LOOSE)
    calls.file("canonical", "2:13 E03 syntax\n")
    said = "loose.rtic:2:13: E03 syntax\n"
    calls.expect("refused", calls.ended("loose.rtic", status=1), (1, "2:13 E03 syntax\n", said))
    for words in (("--check", "loose.rtic"), ("--write", "loose.rtic")):
        calls.expect(f"refused {words}", calls.ended(*words, status=1), (1, "", said))
    calls.expect("a program that fails", calls.ended("-w", "loose.rtic", status=70)[0], 70)
    calls.file("canonical", "app a(bits = 4);\n")
    calls.expect("no text of it", calls.ended("-w", "loose.rtic")[:2], (70, ""))
    calls.expect("the text", calls.text("loose.rtic"), LOOSE)
    for other in ("", CANONICAL + "\n", CANONICAL.replace(";", "; // one"), CANONICAL.replace("\n", "\n\n")):
        with contextlib.suppress(Amiss):
            calls.expect(f"no text of it: {other!r}", with_comments(LOOSE, other), None)
    calls.file("canonical", "app a(bits = 4);\ninterrupts {}\nidle {\n" + "    emit 1;\n" * MANY + "}\n")
    long = "app a(bits=4);interrupts{}idle{" + "emit 1;" * MANY + "}"
    calls.file("loose.rtic", long)
    calls.expect("a text that becomes too long", calls.ended("-w", "loose.rtic")[:2], (1, ""))
    calls.expect("the long text", calls.text("loose.rtic"), long)
    calls.program = calls.folder / "none"
    calls.expect("no program", calls.ended("loose.rtic")[:2], (70, ""))


def main():
    """Ends with 1 where anything is not as it is to be."""
    begun = time.monotonic()
    with tempfile.TemporaryDirectory() as name:
        trial = Trial(pathlib.Path(name))
        try_rows(trial)
        known = try_chance(trial)
        calls = Calls(trial)
        for part in (try_words, try_in_place, try_refusals):
            part(calls)
    for told in trial.wrong:
        print(f"fmt: {told[:1000]}: not as it is to be")
    print(f"fmt: {trial.count} trials, {known} texts with comments by chance, {len(trial.wrong)} wrong, in "
          f"{time.monotonic() - begun:.1f} s")
    if not trial.program:
        print("fmt: skipped in part: the proved program is not built (./build makes it), so the examples and the cases "
              "without a canonical text are left out")
    return 1 if trial.wrong else 0


if __name__ == "__main__":
    sys.exit(main())
