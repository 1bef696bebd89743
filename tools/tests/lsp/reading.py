"""An independent reading of application texts for the test of the language server: by regular expressions and by asking
the program, never by the server's own reader."""
import concurrent.futures
import os
import pathlib
import re
import subprocess
import sys
import tempfile

ROOT = pathlib.Path(__file__).resolve().parents[3]
sys.path.insert(0, str(ROOT / "bench" / "hostile"))

from rows import cases

TABLES = ("reports", "builds", "runs", "messages", "canonical", "refusals", "alone")
TOKEN = re.compile(r"//[^\n]*|[ \t\r\n]+|[A-Za-z_]\w*|0x[0-9a-fA-F]+|[0-9]+|<<|>>|[=!<>]=|\.\.|.", re.ASCII | re.DOTALL)
NAME = re.compile(r"[A-Za-z_]\w*", re.ASCII)
WORDS = set(
    "app bits dispatchers interrupts monotonic binds priority capacity shared local lock_free init idle task with let "
    "if else for in lock emit pend spawn spawn_after now cancel reschedule_after".split()
)
REFUSAL = re.compile(r"(\d+):(\d+) E(\d\d) ")
LONGEST = 4_000
AT_ONCE = 4


def texts():
    """Application texts of the tables of cases and the examples, each once, as str: all are ASCII."""
    found = [path.read_bytes() for path in sorted((ROOT / "examples").rglob("*.rtic"))]
    for table in TABLES:
        found += [case["app"] for case in cases(table) if "app" in case]
    return [text.decode() for text in dict.fromkeys(found) if text.isascii() and len(text) < LONGEST]


def tokens(text):
    """The tokens of a text with their offsets, without blanks and comments."""
    return [(found.group(), found.start()) for found in TOKEN.finditer(text)
            if not found.group().isspace() and not found.group().startswith("//")]


def is_name(word):
    return bool(NAME.fullmatch(word)) and word not in WORDS


def place(text, offset):
    """The line and the character of an offset of an ASCII text."""
    return text.count("\n", 0, offset), offset - (text.rfind("\n", 0, offset) + 1)


def offset(text, position):
    """The offset of a place of the protocol in an ASCII text."""
    start = 0
    for _ in range(position["line"]):
        start = text.index("\n", start) + 1
    return start + position["character"]


def applied(text, edits):
    """An ASCII text after the edits of an answer."""
    spans = [(offset(text, edit["range"]["start"]), offset(text, edit["range"]["end"]), edit["newText"])
             for edit in edits]
    for start, stop, new in sorted(spans, reverse=True):
        text = text[:start] + new + text[stop:]
    return text


def declares(text, number):
    """Whether the token of a number declares a name, by the tokens round it: in a text of the grammar."""
    row = [word for word, _ in tokens(text)]
    before = row[number - 1]
    if before in ("app", "task", "let", "for", "with"):
        return True
    at = number
    while row[at - 1] == "," and is_name(row[at - 2]):
        at -= 2
    if row[at - 1] == "with":
        return True
    return row[number + 1 : number + 2] == ["="] and opened(row, number) in ("interrupts", "shared", "local")


def opened(row, number):
    """The word before the innermost brace that is open at a token."""
    depth = 0
    for at in range(number - 1, 0, -1):
        depth += {"}": 1, "{": -1}.get(row[at], 0)
        if depth < 0:
            return row[at - 1]
    return ""


class Asking:
    """The program, asked about texts."""

    def __init__(self, program):
        self.program = program
        self.folder = tempfile.TemporaryDirectory(prefix="rtic-lsp-test-")
        self.known = {}

    def ask(self, command, text):
        """The status and the output of a command on a text."""
        key = (command, text)
        if key not in self.known:
            path = os.path.join(self.folder.name, f"{abs(hash(key)):x}")
            with open(path, "w", encoding="ascii") as file:
                file.write(text)
            done = subprocess.run([self.program, command, path], stdin=subprocess.DEVNULL, stdout=subprocess.PIPE,
                                  check=False)
            os.unlink(path)
            self.known[key] = (done.returncode, done.stdout.decode("ascii"))
        return self.known[key]

    def all(self, command, these):
        """The answers to many texts."""
        with concurrent.futures.ThreadPoolExecutor(AT_ONCE) as pool:
            return list(pool.map(lambda text: self.ask(command, text), these))

    def refusal(self, text):
        """The offset and the number of the refusal of a text by `check`, or None twice."""
        found = REFUSAL.match(self.ask("check", text)[1])
        if not found:
            return None, None
        return offset(text, {"line": int(found[1]) - 1, "character": int(found[2]) - 1}), int(found[3])
