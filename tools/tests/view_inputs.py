#!/usr/bin/env python3
"""What `tools/view` shows of inputs in each of its forms, against the lines of a trace, and what it tells of inputs
that stand where no run has them."""
import base64
import io
import json
import os
import re
import sys

TOOLS = os.path.dirname(os.path.dirname(os.path.abspath(__file__)))
DATA = os.path.join(TOOLS, "tests", "view")
sys.dont_write_bytecode = True
sys.path[:0] = [TOOLS, DATA]

from traces import items_of
from viewing.command import main

FILES = tuple(os.path.join(DATA, "uart" + ending) for ending in (".run", ".check"))
# two tasks, one with two inputs; the second take of A is in the midst of B's job, and finds one value again
TRACE = """\
0 pend B
0 end init
1 take B 40
1 input pin 4294967295
3 emit 1
4 pend A
4 take A 80
4 input low 0
4 input high 5
6 ret A
9 ret B
20 pend A
20 take A 40
20 input low 3
20 input high 5
22 ret A
total 30
"""
# Traces that no run is, by what is put in place of what, and a part of what is told of them.
TOLD = (
    ("1 input pin 4294967295", "2 input pin 4294967295", "item 4, `2 input pin 4294967295`: an input comes behind"),
    ("1 input pin 4294967295", "0 input pin 4294967295", "2 core steps have been taken before it"),
    ("1 input pin 4294967295", "01 input pin 4294967295", "no line of an output of `run`"),
    ("1 input pin 4294967295", "1 input pin 4294967296", "no line of an output of `run`"),
    ("1 input pin 4294967295", "1 input pin", "no line of an output of `run`"),
    ("1 input pin 4294967295", "1 input 1pin 5", "no line of an output of `run`"),
    ("3 emit 1", "3 input pin 1", "an input comes behind the take"),
    ("3 emit 1", "2 emit 1\n2 input pin 1", "an input comes behind the take"),
    ("4 input high 5", "4 input pin 5", "an input comes behind the take of the task that lists it"),
    ("0 end init", "0 end init\n0 input pin 5", "an input comes behind the take"),
)
faults = []


def expect(what, is_right):
    """Notes a fault."""
    if not is_right:
        faults.append(what)


def view(*words, text=""):
    """What the tool writes: status, standard output, standard error."""
    kept = sys.stdin, sys.stdout, sys.stderr
    sys.stdin = io.TextIOWrapper(io.BytesIO(text.encode("utf-8")))
    sys.stdout, sys.stderr = io.StringIO(), io.StringIO()
    try:
        status = main(words)
        return status, sys.stdout.getvalue(), sys.stderr.getvalue()
    finally:
        sys.stdin, sys.stdout, sys.stderr = kept


def found_in(items):
    """The values of each input: the steps and values of its lines."""
    found = {}
    for step, what in items:
        words = what.split()
        if words[0] == "input":
            found.setdefault(words[1], []).append((step, int(words[2])))
    return found


def levels(pairs, total):
    """The value in each step; 0 before the first."""
    at, value, found = dict(pairs), 0, []
    for step in range(total):
        value = at.get(step, value)
        found.append(value)
    return found


def compare_summary(name, shown, found):
    """A row for each input: how often a value was found, how often another one, and which."""
    table = next((block for block in shown.split("\n\n") if block.startswith("input ")), "")
    rows = {line.split()[0]: line.split()[2:] for line in table.split("\n")[1:] if line}
    for each, pairs in found.items():
        values = [value for _, value in pairs]
        changes = sum(one != other for one, other in zip(values, values[1:]))
        want = [str(number) for number in (len(values), changes, min(values), max(values), values[-1])]
        expect(f"{name}: {each} {rows.get(each)}, not {want}", rows.get(each) == want)
    expect(f"{name}: inputs {list(rows)}", list(rows) == list(found))


def compare_text(name, shown, found):
    """In the text a stroke stands at each take that finds a value, and the value behind it, where there is room."""
    for piece in shown.split("\n\n"):
        lines = [line for line in piece.split("\n") if line and not line.startswith("(")]
        if not lines:
            continue
        begin, width = int(lines[0].split()[0]), len(lines[0]) - len(lines[0].lstrip())
        ruled = len(lines[0].rstrip()) - width
        for each, pairs in found.items():
            line = next((line[width:] for line in lines[1:] if line[:width].rstrip() == each), "")
            for stroke in re.finditer(r"\|(\d*)", line):
                value = dict(pairs).get(begin + stroke.start(), "none")
                expect(f"{name}: {each} at {begin + stroke.start()}", stroke[1] in ("", str(value)) and value != "none")
            wanted = [step for step, _ in pairs if begin <= step < begin + ruled]
            got = [begin + stroke.start() for stroke in re.finditer(r"\|", line)]
            expect(f"{name}: {each}: {wanted} in {got}", set(wanted) <= set(got))


def changes_of(text):
    """A waveform: for each variable its kind and size, and its changes."""
    names = {match[3]: match[4] for match in re.finditer(r"\$var (\w+) (\d+) (\S+) (\S+) \$end", text)}
    kinds = {match[4]: (match[1], match[2]) for match in re.finditer(r"\$var (\w+) (\d+) (\S+) (\S+) \$end", text)}
    found, moment = {name: [] for name in names.values()}, 0
    for line in text.partition("$enddefinitions $end\n")[2].split("\n"):
        if line.startswith("#"):
            moment = int(line[1:])
        elif line[:1] == "b":
            value, short = line[1:].split(" ")
            found[names[short]].append((moment, int(value, 2)))
        elif line[:1] in ("0", "1"):
            found[names[line[1:]]].append((moment, int(line[0])))
    return kinds, found


def compare_waveforms(name, full, alone, found, total):
    """An input is a vector of 32 wires, and in the file of wires alone its bits are wires."""
    unit = {"1 ns": 10 ** 3, "1 ps": 10 ** 6, "1 fs": 10 ** 9}[re.search(r"\$timescale (.*) \$end", full)[1]]
    kinds, changes = changes_of(full)
    wires, bits = changes_of(alone)
    for each, pairs in found.items():
        want = levels(pairs, total)
        got = levels([(moment // unit, value) for moment, value in changes[each]], total)
        expect(f"{name}: the vector {each}", kinds[each] == ("wire", "32") and got == want)
        count = max(max(want).bit_length(), 1)
        got = [sum(bit << at for at, bit in enumerate(row))
               for row in zip(*(levels(bits[f"{each}_{bit}"], total) for bit in range(count)))]
        expect(f"{name}: the bits of {each}", got == want and f"{each}_{count}" not in bits)
        expect(f"{name}: wires alone", set(wires.values()) == {("wire", "1")})


def compare_events(name, text, found):
    """An input is a counter, with each value that is another one."""
    events = [each for each in json.loads(text)["traceEvents"] if each["ph"] == "C"]
    for each, pairs in found.items():
        got = [(event["ts"], event["args"]["value"]) for event in events if event["name"] == each]
        want = [pair for at, pair in enumerate(pairs) if at == 0 or pair[1] != pairs[at - 1][1]]
        expect(f"{name}: the counter {each}: {got}", got == want)


def compare_page(name, text, found):
    """The page is told each value with its step."""
    data = json.loads(re.search(r'<script type="application/json" id="data">(.*?)</script>', text, re.S)[1])
    got = {}
    for each in data["inputs"]:
        numbers = base64.b64decode(each["found"])
        words = [int.from_bytes(numbers[at:at + 4], "little") for at in range(0, len(numbers), 4)]
        got[each["name"]] = list(zip(words[::2], words[1::2]))
    expect(f"{name}: the page has {got}", got == found)


def compare(name, *words, text):
    """Each form of a run."""
    os.environ["COLUMNS"] = "90"
    items, total = items_of(text)
    found = found_in(items)
    shown = {form: view(*words, *form.split(), text=text)[1]
             for form in ("", "--text", "--vcd -", "--wires -", "--trace-events -", "--html -")}
    compare_summary(name, shown[""], found)
    compare_text(name, shown["--text"], found)
    compare_waveforms(name, shown["--vcd -"], shown["--wires -"], found, total)
    compare_events(name, shown["--trace-events -"], found)
    compare_page(name, shown["--html -"], found)


def compare_told():
    """Inputs that stand where no run has them, and a board that was refused."""
    for old, new, words in TOLD:
        status, shown, told = view("-", text=TRACE.replace(old, new))
        wanted = 3 if words.startswith("no line") else 4
        expect(f"{new!r}: {status} {told}", status == wanted and words in told and shown == "")
    status, _, told = view("-", text="board:2 3 unknown task\n")
    expect(f"a refused board: {status} {told}", status == 3 and "the board was refused" in told)


with open(FILES[0], encoding="ascii") as uart:
    compare("uart", "-", FILES[1], text=uart.read())
compare("a trace alone", "-", text=TRACE)
compare_told()
for fault in faults[:20]:
    print("view_inputs: wrong:", fault)
print("view_inputs:", "wrong" if faults else "as expected")
sys.exit(1 if faults else 0)
