#!/usr/bin/env python3
"""What `tools/view` says of requests: how many there were, which merged, which are pending at the end, and the load.

The numbers come from small traces that were counted by hand, from a count over the lines of seven outputs (view/
traces.py), and, where the proved program is built, from the scripts that it ran.
"""
import io
import os
import re
import subprocess
import sys
import tempfile

TOOLS = os.path.dirname(os.path.dirname(os.path.abspath(__file__)))
ROOT = os.path.dirname(TOOLS)
DATA = os.path.join(TOOLS, "tests", "view")
RUNS = ("two", "pump", "four", "serial", "burst", "station", "names")
TIMERS = {"station": "TIMER0"}
LEAST_CONTRAST = 3.0
sys.dont_write_bytecode = True
sys.path[:0] = [TOOLS, DATA]

from explaining.program import asked_program
from traces import items_of, requests_in, task_at
from viewing.command import main

# Counted by hand. A runs in the steps 3 to 9 and 10 to 14, 12 of 15. It is requested again at 5, while it runs, and at
# 6, where the request of 5 is still pending: they merge. What was requested at 5 has ended before step 15, after 10.
# `low` is requested at 6 and 7 and never taken.
STARVED = """0 end init
3 pend A
3 take A 48
5 pend A
6 pend A
6 pend low
7 pend low
9 ret A
10 take A 48
14 ret A
total 15
"""
STARVED_ROWS = {
    "init": ("-", "-", "-", "1", "6.7 %", "-", "-"),
    "A": ("3", "1", "0", "2", "80.0 %", "10", "1"),
    "low": ("2", "1", "1", "0", "0.0 %", "> 9", "1"),
}
STARVED_LINE = "low was requested twice, and never ran: pending from step 6 to the end, 9 steps\n"
STARVED_PICTURES = {"1": """           0         10
A             ===!========
low              -!-------
the thread  ==............
init       =
""", "5": """           0
A          4!=
low         !-
the thread 4..
init       2
"""}

# Requests during `init` count as one at its end, step 5: so the least distance of B is 3. One of them merges, because
# B is pending already. The job that is open at the end was requested at 8, 12 steps before.
EARLY = """1 pend B
2 pend B
4 end init
5 take B 48
7 ret B
8 pend B
8 take B 48
total 20
"""
EARLY_ROWS = {
    "init": ("-", "-", "-", "1", "25.0 %", "-", "-"),
    "B": ("3", "1", "0", "2", "75.0 %", "> 12", "3"),
}

# Eight requests of an interrupt and four takes: four merged. It is long enough pending at the end to be told.
EIGHT = "0 end init\n" + "".join(
    f"{step} pend K\n{step} pend K\n{step + 2} take K 48\n{step + 5} ret K\n" for step in (10, 20, 30, 40)
) + "total 60\n"
EIGHT_ROW = ("8", "4", "0", "4", "26.7 %", "6", "0")

# A message that is ready and never starts, behind another: `job` is asked for twice and ran once.
WAITS = """0 end init
1 pend T
1 take T 48
2 ready job
3 post D
5 ready job
6 post D
8 ret T
9 take D 48
10 start job
12 leave free.job
15 end job
16 ret D
total 40
""".replace("12 leave free.job", "11 enter free.job\n12 leave free.job")
WAITS_LINE = "job is pending from step 6 to the end, 34 steps, longer than any response before\n"
WAITS_ROW = ("2", "-", "1", "1", "20.0 %", "> 34", "-")

faults = []


def expect(what, is_right):
    """Notes a fault."""
    if not is_right:
        faults.append(what)


def view(*words, text=""):
    """What the tool writes to standard output."""
    kept = sys.stdin, sys.stdout
    sys.stdin, sys.stdout = io.TextIOWrapper(io.BytesIO(text.encode("ascii"))), io.StringIO()
    try:
        return main(words), sys.stdout.getvalue()
    finally:
        sys.stdin, sys.stdout = kept


def rows_of(summary):
    """For each task: requests, merged, still pending, runs, load, longest response, least distance; the interrupts."""
    found, interrupts = {}, {}
    for block in summary.split("\n\n"):
        cells = [re.split(r"  +", line.strip()) for line in block.rstrip("\n").split("\n")]
        if cells[0][0] == "task":
            found = {row[0]: tuple(row[3:]) for row in cells[1:]}
            interrupts = {row[0]: row[1] for row in cells[1:]}
        elif cells[0][0] == "steps of":
            found = {row[0]: found[row[0]] + tuple(row[5:]) for row in cells[1:]}
    return found, interrupts


def compare_by_hand():
    """Small traces that were counted by hand."""
    for text, rows in ((STARVED, STARVED_ROWS), (EARLY, EARLY_ROWS)):
        status, summary = view("-", text=text)
        expect(f"by hand: {rows_of(summary)[0]}, not {rows}", status == 0 and rows_of(summary)[0] == rows)
    expect("who is starved is told", STARVED_LINE in view("-", text=STARVED)[1])
    for steps, picture in STARVED_PICTURES.items():
        got = view("-", "--text", steps, text=STARVED)[1]
        expect(f"{steps} steps a column:\n{got}", got == picture)
    eight = view("-", text=EIGHT)[1]
    expect(f"eight requests: {eight}", rows_of(eight)[0]["K"] == EIGHT_ROW and "pending from" not in eight)
    waits = view("-", text=WAITS)[1]
    expect(f"a message waits: {waits}", rows_of(waits)[0]["job"] == WAITS_ROW and WAITS_LINE in waits)


def expected_rows(items, total, name):
    """Requests, merged, pending, and the least distance of each interrupt, by the lines of the trace."""
    found = {}
    for interrupt, (count, merged, pending, steps) in requests_in(items, TIMERS.get(name)).items():
        apart = [after - before for before, after in zip(steps, steps[1:])]
        found[interrupt] = (str(count), str(merged), str(pending), str(min(apart)) if apart else "-")
    return found


def compare_counts(name):
    """The requests and the load of an output against its lines."""
    path = os.path.join(DATA, name)
    with open(path + ".run", encoding="ascii") as file:
        text = file.read()
    items, total = items_of(text)
    rows, interrupts = rows_of(view(path + ".run", path + ".check")[1])
    want = expected_rows(items, total, name)
    at = task_at(items, total)
    boot = next(step for step, what in items if what == "end init") + 1
    ready = [what.split()[1] for _, what in items if what.startswith("ready ")]
    for task, (requests, merged, pending, runs, load, _, distance) in rows.items():
        if task in ("init", "idle"):
            busy = sum(runner == "the thread" and (step < boot) == (task == "init") for step, runner in enumerate(at))
            expect(f"{name}: {task}", (requests, merged, pending, distance) == ("-",) * 4)
        elif "start " + task in at:
            busy = at.count("start " + task)
            left = ready.count(task) - sum(what.split()[:2] == ["start", task] for _, what in items)
            expect(f"{name}: {task}", (requests, merged, pending) == (str(ready.count(task)), "-", str(left)))
        else:
            busy = at.count(interrupts[task])
            got = (requests, merged, pending, distance)
            expect(f"{name}: {task} {got}", got == want.get(interrupts[task], ("0", "0", "0", "-")))
        expect(f"{name}: load of {task}", load == f"{100 * busy / total:.1f} %")


APPLICATION = """app two(bits = 4);
interrupts { LOW = 3, HIGH = 7, NONE = 9 }
task low(binds = LOW, priority = 1) { emit 1; }
task high(binds = HIGH, priority = 2) { for i in 0..40 { emit i; } }
"""
# Eight requests of LOW while HIGH runs: one is answered behind it; NONE serves nothing.
SCRIPT = "step 5\npend HIGH\nstep 10\n" + "pend LOW\nstep 3\n" * 8 + "pend NONE 2\nstep 1000\n"


def compare_program():
    """A run of the program: as many requests as the script has, and one run of LOW, so that seven merged."""
    program = asked_program()
    if program is None:
        print("view_requests: skipped in part: the program is not built (./build makes it), and RTIC names no other")
        return
    with tempfile.TemporaryDirectory() as folder:
        paths = [os.path.join(folder, name) for name in ("app", "script", "check")]
        for path, text in zip(paths, (APPLICATION, SCRIPT)):
            with open(path, "w", encoding="ascii") as file:
                file.write(text)
        with open(paths[2], "wb") as file:
            subprocess.run([program, "check", paths[0]], stdout=file, check=True)
        run = subprocess.run([program, "run", *paths[:2]], stdout=subprocess.PIPE, check=True).stdout.decode("ascii")
        _, summary = view("-", paths[2], text=run)
    rows = {task: row[:4] for task, row in rows_of(summary)[0].items()}
    want = {"high": ("1", "0", "0", "1"), "low": ("8", "7", "0", "1"), "NONE": ("2", "1", "1", "0")}
    expect(f"by the program: {rows}", want.items() <= rows.items())
    expect(f"by the program: {summary}", "NONE was requested twice and serves nothing: pending from step" in summary)


def brightness(colour):
    """The relative luminance of a colour, by the Web Content Accessibility Guidelines."""
    parts = [int(colour[at:at + 2], 16) / 255 for at in (1, 3, 5)]
    red, green, blue = (part / 12.92 if part <= 0.04045 else ((part + 0.055) / 1.055) ** 2.4 for part in parts)
    return 0.2126 * red + 0.7152 * green + 0.0722 * blue


def contrast(one, other):
    """The contrast of two colours, from 1 on, by the same guidelines."""
    dark, light = sorted((brightness(one), brightness(other)))
    return (light + 0.05) / (dark + 0.05)


def compare_colours():
    """What is pending and the first two locks differ clearly, light and dark; both dark schemes are one."""
    with open(os.path.join(TOOLS, "viewing", "web", "style.css"), encoding="utf-8") as file:
        blocks = re.findall(r":root[^{]*\{([^}]*)\}", file.read())
    schemes = [dict(re.findall(r"--(\w+): (#[0-9a-f]{6})", block)) for block in blocks]
    expect("three schemes, two of them dark and alike", len(schemes) == 3 and schemes[1] == schemes[2] != schemes[0])
    for scheme in schemes:
        found = contrast(scheme["pending"], scheme["lock1"])
        expect(f"pending and the second lock: {found:.2f}", found >= LEAST_CONTRAST)
        expect("a lock's name on its colour", contrast(scheme["paper"], scheme["lock1"]) >= LEAST_CONTRAST)


compare_by_hand()
for each in RUNS:
    compare_counts(each)
compare_program()
compare_colours()
for fault in faults[:20]:
    print("view_requests: wrong:", fault)
print("view_requests:", "wrong" if faults else "as expected")
sys.exit(1 if faults else 0)
