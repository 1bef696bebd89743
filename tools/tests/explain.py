#!/usr/bin/env python3
"""Tries tools/explain on the texts of tools/tests/explain/*.rows, and compares what it says, by string.

A row: `== NAME`, the first file, perhaps `-- second` and the second file, then `-- COMMAND STATUS ANSWER` and the
sentences that must come, each on a line (one that begins with two blanks goes on with the line before). ANSWER is the
beginning of what the program writes. `-- words W..` are other words, `-- warns` is an accepted application. In a file
`%repeat N TEXT` is N lines, a `%` in them their number; `%join N TEXT` N times the text; `%bytes HEX` bytes, and the
line's end after it is none; `%none`, `%folder` and `%closed` are no file, a folder, and a file that may not be read.
After `-- all COMMAND STATUS ANSWER` the words begin with `--all`, and the places that are told must be those of the
row, in its order.
With a word only rows whose names have it are tried, and what is said is printed.
"""
import concurrent.futures
import os
import pathlib
import re
import sys
import tempfile
import time

HERE = pathlib.Path(__file__).resolve().parent
sys.path.insert(0, str(HERE.parent))
sys.dont_write_bytecode = True

from explaining.main import explained_call
from explaining.program import Program, asked_program

PAGE = HERE.parents[1] / "docs" / "TOOLS.md"
FILES = ("app.rtic", "second")
TWO_FILES = ("run", "audit", "live", "times")
PLACE = re.compile(r"(?:app\.rtic|second):\d+:\d+: ")
DIRECTIVE = re.compile(r"%bytes ([0-9a-f]+)\n|%join (\d+) (.*)\n|^%repeat (\d+) (.*\n)", re.MULTILINE)


def rows_of(path):
    """The rows of a file: its name, two files, the words of the call, and the sentences."""
    for part in re.split(r"^== ", path.read_text(encoding="utf-8"), flags=re.MULTILINE)[1:]:
        name, body = part.split("\n", 1)
        first, second, call, sentences = "", "", "", ""
        blocks = re.split(r"^-- (.*)\n", body, flags=re.MULTILINE)
        first = blocks[0]
        for head, block in zip(blocks[1::2], blocks[2::2]):
            if head == "second":
                second = block
            else:
                call, sentences = head, re.sub(r"\n  ", " ", block)
        yield path.stem, name, (first, second), call.split(" "), [one for one in sentences.split("\n") if one]


def content(text):
    """The bytes of a file of a row."""

    def made(found):
        bytes_, times, joined, count, line = found.groups()
        if bytes_:
            return bytes.fromhex(bytes_).decode("latin-1")
        if times:
            return joined * int(times)
        return "".join(line.replace("%", str(number)) for number in range(int(count)))

    return DIRECTIVE.sub(made, text.encode("utf-8").decode("latin-1")).encode("latin-1")


def put(path, text):
    """Makes a file of a row, and says whether it can be one here."""
    kind = text.strip()
    if kind == "%folder":
        path.mkdir()
    elif kind == "%closed":
        path.write_bytes(b"")
        path.chmod(0)
        return os.geteuid() != 0
    elif kind != "%none":
        path.write_bytes(content(text))
    return True


def words_of(call, second):
    """The words of a call, its status, and the beginning of its answer."""
    if call[0] == "words":
        return [FILES[0] if word == "FILE" else word for word in call[1:]], 2, "usage: "
    if call[0] == "warns":
        return ["check", FILES[0]], 0, ""
    if call[0] == "all":
        words, status, answer = words_of(call[1:], second)
        return ["--all"] + words, status, answer
    two = second or call[0] in TWO_FILES
    return [call[0]] + list(FILES[: 2 if two else 1]), int(call[1]), " ".join(call[2:])


def plain(line):
    """A line without its margin."""
    line = re.sub(r"^\s*(\|\s*\^+|=)\s*", "", line)
    return re.sub(r"^--> [^:]*:", "--> ", line.strip())


def caret_is_right(lines, answer, text):
    """Whether the first caret is under the byte of the place."""
    place = re.match(r"(\d+):(\d+) E", answer)
    carets = [number for number, line in enumerate(lines) if re.match(r"\s*\|\s*\^", line)]
    if not place or not carets or answer.endswith("E01"):
        return True
    source = content(text).decode("latin-1").split("\n")[int(place[1]) - 1]
    if not source.isascii() or len(source) > 90:
        return True
    column = lines[carets[0]].index("^") - lines[carets[0] - 1].index("|") - 1
    return column == int(place[2]) and lines[carets[0] - 1].partition("|")[2].strip() == source.strip()


def wanted(call, sentences):
    if call[0] != "warns":
        return [one.replace("FILE:", "app.rtic:").replace("SECOND:", "second:") for one in sentences]
    return [re.sub(r"^(\d+:\d+) ", r"app.rtic:\1: warning: ", one) for one in sentences]


def faults_of(call, files, sentences, lines, status, output):
    """What is not as the row says."""
    words, wanted_status, answer = words_of(call, files[1])
    found = []
    if status != wanted_status or not output.startswith(answer) or call[0] not in ("words", "warns") and not call[1:]:
        found.append(f"status {status}, answer {output.strip()[:60]}")
    said = [plain(line) for line in lines]
    found += [f"not said: {one}" for one in wanted(call, sentences) if one not in said]
    if call[0] == "warns":
        heads = sum(1 for line in lines if ": warning: " in line)
        found += [f"{heads} warnings"] if heads != sum(1 for one in sentences if re.match(r"\d", one)) else []
    if call[0] == "all":
        heads = [line for line in lines if PLACE.match(line)]
        due = [one for one in wanted(call, sentences) if PLACE.match(one)]
        found += [f"the places are {heads}"] if heads != due else []
    if any("fault of tools/explain" in line for line in lines):
        found.append("tools/explain failed")
    if not caret_is_right(lines, answer, files[0]):
        found.append("the caret is elsewhere")
    return found


def tried(row):
    """One row: its faults, what was said, how many questions were asked, and how long it took."""
    _, _, files, call, sentences = row
    begun = time.monotonic()
    with tempfile.TemporaryDirectory() as folder:
        os.chdir(folder)
        possible = [put(pathlib.Path(folder, name), text) for name, text in zip(FILES, files) if text]
        if not all(possible):
            return None, [], 0, 0
        output = []
        program = Program(lambda piece: output.append(piece) or True)
        status, report = explained_call(program, words_of(call, files[1])[0])
        asks = program.asks
        program.folder.cleanup()
        os.chdir("/")
    text = b"".join(output).decode("latin-1")
    return faults_of(call, files, sentences, report.lines, status, text), report.lines, asks, time.monotonic() - begun


def pictures_amiss(said):
    """The pictures of the page that are not what is said of `pictures.rows`; files have other names there."""
    found = []
    text = PAGE.read_text(encoding="utf-8")
    for name in ("driver.rtic", "tank.rtic", "guarded.listing", "driver.script", "other.trace"):
        text = text.replace(name, FILES[0] if name.endswith((".rtic", ".listing")) else FILES[1])
    for block in re.findall(r"(?:^    .*\n)+", text, flags=re.MULTILINE):
        lines = [line[4:] for line in block.splitlines()]
        lines = [line for line in lines if not re.match(r"\$ |\d+:\d+ E|script:|no( \d+)?$", line)]
        if "^" in block and not any("\n".join(lines) in "\n".join(one) for one in said):
            found.append(f"a picture of {PAGE.name} is not what is said: {lines[0]}")
    return found


def main():
    word = sys.argv[1] if len(sys.argv) > 1 else ""
    program = asked_program()
    if program is None:
        print("explain: skipped: the proved program is not built (./build makes it), and RTIC names no other")
        return 0
    # looked for here, because a look goes through all sources, and each row would take one
    os.environ["RTIC"] = os.path.abspath(program)
    rows = [row for path in sorted(HERE.glob("explain/*.rows")) for row in rows_of(path) if word in row[1]]
    begun, wrong, asks, longest, left_out, pictures = time.monotonic(), 0, 0, 0.0, 0, []
    with concurrent.futures.ProcessPoolExecutor(os.cpu_count()) as pool:
        for row, (faults, lines, asked, took) in zip(rows, pool.map(tried, rows, chunksize=4)):
            asks, longest, left_out = asks + asked, max(longest, took), left_out + (faults is None)
            pictures += [lines] if row[0] == "pictures" else []
            if faults or word:
                print("\n".join([f"{row[0]}: {row[1]}"] + [f"    {one}" for one in faults or []] + lines))
            wrong += bool(faults)
    took = time.monotonic() - begun
    amiss = [] if word else pictures_amiss(pictures)
    print("\n".join(amiss) + "\n" * bool(amiss), end="")
    print(f"explain: {len(rows) - wrong - left_out} of {len(rows)} texts are answered as they are to be"
          + f", in {took:.1f} s with {asks} questions; the longest took {longest:.2f} s")
    if left_out:
        print(f"explain: skipped in part: {left_out} texts cannot be tried as root")
    return 1 if wrong or amiss else 0


if __name__ == "__main__":
    sys.exit(main())
