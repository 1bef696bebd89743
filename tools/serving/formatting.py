"""Formatting: by the program's `fmt`, which drops comments, and by `tools/fmt` where a text has comments."""
import pathlib
import subprocess
import sys

KEEPS_COMMENTS = pathlib.Path(__file__).resolve().parents[1] / "fmt"
LONGEST = 20


def with_comments(path):
    """What `tools/fmt` makes of a file, or None where it is not there or refuses it."""
    if not KEEPS_COMMENTS.is_file():
        return None
    try:
        done = subprocess.run([sys.executable, str(KEEPS_COMMENTS), path], stdin=subprocess.DEVNULL,
                              stdout=subprocess.PIPE, stderr=subprocess.DEVNULL, timeout=LONGEST, check=False)
    except (OSError, subprocess.TimeoutExpired):
        return None
    return done.stdout.decode("latin-1") if done.returncode == 0 else None


def edits(text, formatted):
    """One edit that makes a text the formatted one: of the lines between those at both ends that are the same."""
    if formatted is None or formatted == text.data:
        return []
    before, after = text.data.splitlines(True), formatted.splitlines(True)
    front = 0
    while front < min(len(before), len(after)) and before[front] == after[front]:
        front += 1
    back = 0
    while back < min(len(before), len(after)) - front and before[-1 - back] == after[-1 - back]:
        back += 1
    start = sum(map(len, before[:front]))
    stop = start + sum(map(len, before[front : len(before) - back]))
    piece = "".join(after[front : len(after) - back])
    return [{"range": text.range(start, stop), "newText": piece}]


def formatting(asked, text):
    """The edits of a text; none where it is not in the grammar, or has comments and nothing keeps them."""
    if text.has_comments:
        return edits(text, with_comments(asked.program.file("formatted.rtic", text.data)))
    status, output = asked.whole("fmt", text.data)
    return edits(text, output if status == 0 else None)
