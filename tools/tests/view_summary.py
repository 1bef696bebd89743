#!/usr/bin/env python3
"""The summary of `tools/view` against the numbers of an independent judge, and what is told in place of a picture."""
import io
import json
import os
import re
import subprocess
import sys
import tempfile

TOOLS = os.path.dirname(os.path.dirname(os.path.abspath(__file__)))
ROOT = os.path.dirname(TOOLS)
DATA = os.path.join(TOOLS, "tests", "view")
VIEW = os.path.join(TOOLS, "view")
sys.dont_write_bytecode = True
sys.path.insert(0, TOOLS)

from viewing.command import main
from viewing.responses import read_responses

RUNS = ("two", "pump", "four", "serial", "burst", "station", "names")
# What `rticx respond` says of the application of `burst`, by an independent implementation, under `every UART0 500`,
# `every KEY 50` and `deadline digest 480`.
RESPONSES = ("irq UART0 3 204\ntask digest 1 493\nroom digest 1 4\nirq KEY 2 234\nmerge KEY\nfrom UART0 digest 493\n"
             "load 986\nlate digest 480\n")
faults = []


def expect(what, is_right):
    """Notes a fault."""
    if not is_right:
        faults.append(what)


def view(*words, text=""):
    """What the tool writes: status, standard output, standard error. It is called in this process, which is faster."""
    kept = sys.stdin, sys.stdout, sys.stderr
    sys.stdin = io.TextIOWrapper(io.BytesIO(text.encode("utf-8")))
    sys.stdout, sys.stderr = io.StringIO(), io.StringIO()
    try:
        status = main(words)
        return status, sys.stdout.getvalue(), sys.stderr.getvalue()
    finally:
        sys.stdin, sys.stdout, sys.stderr = kept


def compare_command():
    """The command itself writes and ends as the call does."""
    run, check = os.path.join(DATA, "two.run"), os.path.join(DATA, "two.check")
    for words, text in (((run, check), ""), (("-", check), "1:1 E01 text too long\n")):
        ended = subprocess.run([sys.executable, VIEW, *words], input=text.encode("utf-8"), capture_output=True,
                               check=False)
        written = ended.returncode, ended.stdout.decode("utf-8"), ended.stderr.decode("utf-8")
        expect(f"the command {words}: {written}", written == view(*words, text=text))


def tables(text):
    """The tables of a summary: for each its headings and rows, by the columns of the headings."""
    found = []
    for block in text.strip("\n").split("\n\n")[1:]:
        lines = block.split("\n")
        cells = [re.split(r"  +", line.strip()) for line in lines]
        found.append((cells[0], cells[1:]))
    return found


def expected(name):
    """The numbers of the judge as the rows of the three tables, by name."""
    heads, tasks, messages, sections = {}, {}, {}, {}
    with open(os.path.join(DATA, name + ".numbers"), encoding="utf-8") as file:
        for line in file:
            words = line.split()
            if words[0] == "task":
                tasks[words[1].replace("_", " ")] = words[2:]
            elif words[0] == "messages":
                messages[words[1]] = words[2:]
            elif words[0] == "section":
                sections[words[1]] = words[2:]
            else:
                heads[words[0]] = words[1:]
    return heads, tasks, messages, sections


def bounds(name):
    """What `check` printed: lines by their first words."""
    with open(os.path.join(DATA, name + ".check"), encoding="utf-8") as file:
        return dict(line.rstrip("\n").rsplit(" ", 1) for line in file)


def compare_tasks(name, tasks, steps, want, check):
    """The tables of tasks: the judge's numbers, and the costs and waiting bounds of `check` beside them.

    An interrupt that serves nothing has a row where it is requested, and no priority; the judge has none.
    """
    priorities = {row[0]: row[2] for row in tasks}
    runs = {row[0]: row[6] for row in tasks}
    unserved = [task for task, priority in priorities.items() if priority == "-"]
    expect(f"{name}: the tasks are {sorted(want)}", sorted(priorities) == sorted([*want, *unserved]))
    expect(f"{name}: two tables", [row[0] for row in steps] == [row[0] for row in tasks])
    for task, run, cost, wait, bound, response, _ in steps:
        numbers = want.get(task, ["0", "-", "-", response])
        expect(f"{name}: {task} {numbers}", numbers == [runs[task], run, wait, response])
        expect(f"{name}: cost {task}", cost == check.get("cost " + task, "-"))
        is_free = task in ("init", "idle", *unserved)
        expect(f"{name}: wait {task}", bound == ("-" if is_free else check["wait " + priorities[task]]))


def compare_run(name):
    """The whole summary of one output."""
    status, text, told = view(os.path.join(DATA, name + ".run"), os.path.join(DATA, name + ".check"))
    expect(f"{name}: status {status}, {told!r}", status == 0 and told == "")
    heads, tasks, messages, sections = expected(name)
    check = bounds(name)
    first = f"{heads['steps'][0]} core steps, {heads['items'][0]} items"
    expect(f"{name}: {first}", re.match(re.escape(first) + r"(, \d+ ticks)?\n", text) is not None)
    depth = f"deepest stack: {heads['deepest'][0]} of {heads['deepest'][2]} bytes"
    expect(f"{name}: {depth}", text.split("\n")[1] == depth)
    found = {head[0]: rows for head, rows in tables(text)}
    compare_tasks(name, found["task"], found["steps of"], tasks, check)
    got = {row[0]: row[1:] for row in found.get("messages of", [])}
    expect(f"{name}: messages {messages}, not {got}", got == messages)
    got = {row[0]: row[2:] for row in found.get("section of", [])}
    expect(f"{name}: sections {sections}, not {got}", got == sections)
    for row in found.get("section of", []):
        expect(f"{name}: ceiling {row[0]}", row[1] == check.get("ceiling " + row[0]))


def compare_told():
    """What is told in place of a run, with which status; no form makes a file of it."""
    with open(os.path.join(DATA, "told.json"), encoding="utf-8") as file:
        rows = json.load(file)
    with tempfile.TemporaryDirectory() as folder:
        target = os.path.join(folder, "made")
        for row in rows:
            for form in ((), ("--html", target)):
                status, text, told = view("-", *form, text=row["run"])
                expect(f"{row['run']!r}: {status} {told}", status == row["status"] and row["words"] in told)
                expect(f"{row['run']!r}: writes {text!r}", text == "" and not os.path.exists(target))


def compare_words():
    """The statuses of words, of files that are not there, of a report that is none, and of two applications."""
    two = os.path.join(DATA, "two.run")
    rows = (
        ((), 2, "usage: view RUN"), (("--html",), 2, "usage"), ((two,) * 4, 2, "usage"), (("-", "-"), 2, "usage"),
        ((two, "--picture"), 2, "usage"), ((two, "--text", "0"), 2, "usage"), ((two, "--text", "--text"), 2, "usage"),
        (("nowhere",), 5, "nowhere could not be read"), ((two, DATA), 5, "could not be read"),
        ((two, two), 3, "no line of an output of `check`"),
        ((two, os.path.join(DATA, "four.check")), 4, "two applications"),
        ((two, "--html", os.path.join(DATA, "nowhere", "page")), 6, "could not be written"),
    )
    for words, status, beginning in rows:
        got, text, told = view(*words)
        expect(f"{words}: {got} {told}", got == status and beginning in told and text == "")
    status, text, told = view(two, "-", text="1:1 E01 text too long\n")
    expect(f"a refusal as CHECK: {status} {told}", status == 1 and "no output of `check`" in told)
    status, text, told = view(two, "-", text="frame a 2\n")
    expect(f"a report cut off: {status} {told}", status == 3 and "cut off" in told)
    status, text, told = view("-", "--text", text="total 0\n")
    expect(f"no step: {status} {told}", status == 0 and text == "" and "nothing to draw" in told)
    status, text, told = view("-", text="0 end init\n2 emit 5\n")
    expect("no total is told", status == 0 and "the trace has no total" in text)


def compare_responses():
    """Beside a report of `respond` stands each bound, and the room of messages; a response over its bound is named, and
    one of `init` counts from its end, and a task with more places out than its room. A report of another application,
    or that is none, is told."""
    files = [os.path.join(DATA, "burst." + ending) for ending in ("run", "check")]
    alone, beside = view(*files), view(*files, "-", text=RESPONSES)
    expect(f"responses: {beside[0]} {beside[2]}", beside[0] == 0 and beside[2] == "")
    heads, rows = next(table for table in tables(beside[1]) if table[0][0] == "steps of")
    expect(f"responses: {heads}", heads[5:7] == ["longest response", "bound"])
    got = {row[0]: (row[5], row[6]) for row in rows}
    want = {name: row[3] for name, row in expected("burst")[1].items()}
    # `init` takes one step, and the first byte is requested before it
    want["byte"] = str(int(want["byte"]) - 1)
    expect(f"responses: {got}, not {want}", all(got[name][0] == want[name] for name in ("byte", "key", "digest")))
    expect(f"bounds: {got}", [got[name][1] for name in ("byte", "key", "digest")] == ["204", "234", "493"])
    over = f"a response of digest took {want['digest']} steps, over its bound 493: its requests, or those of others, "
    expect("responses: what is over", beside[1].count("over its bound") == 1 and over in beside[1])
    heads, rows = next(table for table in tables(beside[1]) if table[0][0] == "messages of")
    expect(f"room: {heads}", heads[4:7] == ["most places out", "room", "capacity"])
    expect(f"room: {rows}", [row[4:7] for row in rows] == [["4", "1", "4"]])
    over = "digest had 4 places out, over its room 1: its requests, or those of others, "
    expect("room: what is over", beside[1].count("over its room") == 1 and over in beside[1])
    expect("responses: without a report", "bound" not in alone[1] and "room" not in alone[1])
    for text, status, words in ((RESPONSES.replace("digest", "other"), 4, "the run has no `other`"),
                                (RESPONSES + "irq UART0 3\n", 3, "9: no line of an output of `respond`"),
                                ("limits:1 2 words\n", 3, "the limits were refused"), ("", 5, "is empty")):
        got = view(*files, "-", text=text)
        expect(f"responses {text!r}: {got}", got[0] == status and words in got[2] and got[1] == "")
    for task in ("- cycle", "- over", "- form"):
        got = view(*files, "-", text=RESPONSES.replace("1 493", f"1 {task}", 1))
        expect(f"responses {task}: {got[0]} {got[2]}", got[0] == 0 and "over its bound" not in got[1])
    got = view(*files, "-", text=RESPONSES.replace("room digest 1", "room digest -"))
    expect(f"room -: {got[0]} {got[2]}", got[0] == 0 and "over its room" not in got[1])
    expect("an output of `respond` as a run", view("-", text=RESPONSES)[0] == 3)
    bounds = read_responses("-", "task A 1 284\nirq A 3 4\n").bounds
    expect(f"a task and an interrupt of one name: {bounds}", bounds == {("task", "A"): 284, ("irq", "A"): 4})


def compare_account():
    """An output of `live` is shown as that of `run`: the lines of its account are passed over, only after a total."""
    with open(os.path.join(DATA, "two.run"), encoding="utf-8") as file:
        run = file.read()
    account = "account A 1 0 1 0\naccount B 0 0 0 0\n"
    for form in ((), ("--text",), ("--vcd", "-")):
        wanted, got = view("-", *form, text=run), view("-", *form, text=run + account)
        expect(f"an account, {form}: {got[0]} {got[2]}", got == wanted and got[0] == 0)
    status, _, told = view("-", text=run.replace("total", "account") + account)
    expect(f"an account without a total: {status} {told}", status == 3 and "no line of an output" in told)


def compare_program():
    """Where the proved program is built, its outputs on the examples are taken."""
    program = os.path.join(ROOT, "crates", "rtic", "out", "rtic")
    if not os.access(program, os.X_OK):
        print("view_summary: skipped in part: crates/rtic/out/rtic is not there (./build makes it)")
        return
    for name in RUNS[:5]:
        app = os.path.join(ROOT, "examples", ("serial" if name == "burst" else name) + ".rtic")
        script = os.path.join(ROOT, "examples", name + ".script")
        with tempfile.TemporaryDirectory() as folder:
            check = os.path.join(folder, "check")
            with open(check, "wb") as file:
                subprocess.run([program, "check", app], stdout=file, check=True)
            run = subprocess.run([program, "run", app, script], capture_output=True, check=True).stdout.decode("ascii")
            status, text, told = view("-", check, text=run)
        expect(f"{name} by the program: {status} {told}", status == 0 and told == "" and "over its" not in text)


for each in RUNS:
    compare_run(each)
compare_told()
compare_words()
compare_account()
compare_responses()
compare_command()
compare_program()
for fault in faults:
    print("view_summary: wrong:", fault)
print("view_summary:", "wrong" if faults else "as expected")
sys.exit(1 if faults else 0)
