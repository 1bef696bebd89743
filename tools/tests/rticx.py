#!/usr/bin/env python3
"""Runs the second program itself with words, files and standard output: the rows of rticx/cases, texts and an output
that fail, reads, writes and memory that a library in front of the C library's disturbs, and each command in little
stack.

The program is that of RTICX, or the proved one where ./build or the gate has made it; without one nothing is run, and
without gcc no read, write or growth is disturbed, and this says so."""
import contextlib
import io
import os
import pathlib
import shutil
import sys
import textwrap

TOOLS = os.path.dirname(os.path.dirname(os.path.abspath(__file__)))
sys.dont_write_bytecode = True
sys.path[:0] = [TOOLS, os.path.join(os.path.dirname(TOOLS), "bench", "hostile")]

import memory
import outside
import reads
import writes
from commands import Command, built
from explaining.program import asked_program
from rows import cases
from starting import ROOT, Growths, Starter, Told, with_little_stack
from viewing.command import main as view

CASES = pathlib.Path(__file__).resolve().with_suffix("") / "cases"
TEXTS = ("app", "second", "third")
# the kibibytes of stack in which each command ends
STACK = 128
# what a program takes of a chip, with room for each application of the table
CHIP = b"flash 0 0x400000\nram 0x20000000 0x400000\nport 0x4002804c\ntick 24999\nbits 4\n"


def words_on(starter, row):
    """The words of a row, with the paths of its texts in place of their names; a text that it lacks is no file."""
    words = row["words"].decode().split()
    return [starter.write(word, row[word]) if word in row else starter.path("none") if word in TEXTS else word
            for word in words]


def try_rows(starter, told):
    """Each row of the table: its status and its output."""
    rows = cases(CASES)
    for number, row in enumerate(rows, 1):
        ended = starter.ended(words_on(starter, row))
        due = int(row["exit"]), row.get("output", b"")
        if (ended.status, ended.output) != due or ended.error:
            told.differs(f"row {number}: status {ended.status}, not {due[0]}: {ended.output[-200:]!r}")
    told.says(f"rows: {len(rows)} rows by files and standard output: status and output are theirs")


def shown_run(starter, told):
    """The trace that docs/RTICX.md shows is that of the example, and so are the reports that docs/RESPOND.md shows."""
    files = [str(ROOT / "examples" / f"echo.{ending}") for ending in ("rtic", "board", "script")]
    trace = starter.ended(["run", *files]).output.decode().partition("trace\n")
    page = (ROOT / "docs" / "RTICX.md").read_text(encoding="utf-8")
    if not trace[2] or textwrap.indent(trace[1] + trace[2], "    ") not in page:
        told.differs(f"docs/RTICX.md does not show {trace[2]!r}")
    page = (ROOT / "docs" / "RESPOND.md").read_text(encoding="utf-8")
    for name in ("order", "serial"):
        files = [str(ROOT / "examples" / f"{name}.{ending}") for ending in ("rtic", "limits")]
        report = starter.ended(["respond", *files]).output.decode()
        if not report or textwrap.indent(report, "    ") not in page:
            told.differs(f"docs/RESPOND.md does not show {report!r}")
    shown_view(starter, told, page, report)


def shown_view(starter, told, page, report):
    """The tables of `tools/view` that docs/RESPOND.md shows, where the first program is built."""
    program = asked_program("rtic")
    if program is None:
        told.says("view: skipped in part: the first program is not built")
        return
    first, app = Starter(program), str(ROOT / "examples" / "serial.rtic")
    runs = [first.ended([word, app, *more]).output for word, more in
            (("run", [str(ROOT / "examples" / "paced.script")]), ("check", []))]
    paths = [starter.write(f"view{number}", text) for number, text in enumerate([*runs, report.encode()])]
    shown = io.StringIO()
    with contextlib.redirect_stdout(shown):
        status = view(paths)
    for head in ("steps of", "messages of"):
        table = head + shown.getvalue().partition(head)[2].partition("\n\n")[0] + "\n"
        if status or textwrap.indent(table, "    ") not in page:
            told.differs(f"docs/RESPOND.md does not show {table!r}")


def strange_words(starter, told):
    """Words that are no text count as no words: the usage line is written."""
    usage = starter.ended([])
    if usage.status != 2 or not usage.output.startswith(b"usage: rticx run APP BOARD SCRIPT |"):
        told.differs(f"no words: status {usage.status}, {usage.output[:80]!r}")
    if starter.ended(["run", b"\xff", "board", "script"]) != usage:
        told.differs("a word that is no text: not the usage line")


def commands():
    """Each command on texts of the table, the first row that ends well; and `native`, whose output is no text."""
    found = {}
    for row in cases(CASES):
        word, *texts = row["words"].decode().split()
        if row["exit"].strip() == b"0" and word not in found:
            found[word] = Command(word, tuple(texts), tuple(row[text] for text in texts), free=word == "live")
    app, board = found["run"].texts[:2]
    native = Command("native", TEXTS[:2], (app, board + b"\n" + CHIP))
    return [*found.values(), native, Command("help", (), (), whole=2)]


def try_all(starter, told):
    """Each part in turn."""
    try_rows(starter, told)
    shown_run(starter, told)
    strange_words(starter, told)
    known, unknown = built(starter, commands())
    outside.write_faults(known, starter, told)
    outside.read_faults(known, starter, told)
    if shutil.which("gcc"):
        growths = Growths(starter)
        for ready in known:
            memory.refuse_first(ready, growths, told)
        reads.disturb_all(known, starter, told)
        writes.disturb_all(known, starter, told)
    else:
        told.says("rticx: skipped in part: gcc is not there, so no read, write or growth is disturbed")
    if unknown:
        told.differs(f"commands that are not known: {unknown}")


def try_little_stack(starter, told):
    """Each command."""
    known, failed = built(starter, commands())
    told.says(f"stack: {len(known)} commands in {STACK} KiB")
    if failed:
        told.differs(f"commands that do not end well in {STACK} KiB of stack: {failed}")


def main():
    """Ends with 1 where anything differs."""
    program = asked_program("rticx")
    if program is None:
        print("rticx: skipped: the proved program is not built (./build makes it), and RTICX names no other")
        return 0
    told, starter = Told(), Starter(program)
    with_little_stack(0, starter, lambda: try_all(starter, told))
    with_little_stack(STACK, starter, lambda: try_little_stack(starter, told))
    starter.folder.cleanup()
    print(f"rticx: {starter.starts} starts, {told.differences} differences")
    return 1 if told.differences else 0


if __name__ == "__main__":
    sys.exit(main())
