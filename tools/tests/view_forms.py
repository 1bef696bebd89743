#!/usr/bin/env python3
"""The waveform of `tools/view` read back, its trace events, and its text, against the lines of the trace themselves."""
import io
import json
import os
import re
import sys
import tempfile
import time

TOOLS = os.path.dirname(os.path.dirname(os.path.abspath(__file__)))
DATA = os.path.join(TOOLS, "tests", "view")
RUNS = ("two", "pump", "four", "serial", "burst", "station", "names")
# its text has a row of values too, which view_inputs.py reads
WITH_INPUTS = "uart"
UNITS = {"1 ns": 10 ** 3, "1 ps": 10 ** 6, "1 fs": 10 ** 9}
sys.dont_write_bytecode = True
sys.path[:0] = [TOOLS, DATA]

from traces import merged_in, runner_at, spans_of_jobs, task_at, trace
from viewing.command import main

faults = []


def expect(what, is_right):
    """Notes a fault."""
    if not is_right:
        faults.append(what)


def made(run, check, *form):
    """What the tool writes for a run in a form."""
    with tempfile.TemporaryDirectory() as folder:
        target = os.path.join(folder, "made")
        status = main([run, check, *form, target])
        with open(target, encoding="utf-8") as file:
            return status, file.read()


def written(*words):
    """What the tool writes to standard output."""
    kept, sys.stdout = sys.stdout, io.StringIO()
    try:
        return main(words), sys.stdout.getvalue()
    finally:
        sys.stdout = kept


def read_waveform(text):
    """A waveform read back: units of a step, names of variables, and changes as time, name, value."""
    unit = UNITS[re.search(r"\$timescale (.*) \$end", text)[1]]
    names = {match[2]: match[3] for match in re.finditer(r"\$var (\w+) \d+ (\S+) (\S+) \$end", text)}
    head, _, body = text.partition("$enddefinitions $end\n")
    moment, changes = 0, []
    for line in body.split("\n"):
        if line.startswith("#"):
            expect(f"times rise: {line}", int(line[1:]) >= moment)
            moment = int(line[1:])
        elif line[:1] in ("b", "s"):
            value, short = line[1:].split(" ")
            changes.append((moment, names[short], value))
        elif line[:1] in ("0", "1"):
            changes.append((moment, names[line[1:]], line[0]))
    expect("each variable has a short name of its own", len(names) == head.count("$var "))
    return unit, changes


def compare_waveform(name, run, check):
    """The items are there again, in their order at their steps; stack, emitted values and time too."""
    status, text = made(run, check, "--vcd")
    items, total = trace(run)
    unit, changes = read_waveform(text)
    got = [(moment // unit, value.replace(":", " ")) for moment, variable, value in changes
           if variable == "item" and value != "-"]
    expect(f"{name}: the items of the waveform", status == 0 and got == items)
    emits = [int(value, 2) for moment, variable, value in changes[:] if variable == "emit"][1:]
    expect(f"{name}: emitted values", emits == [int(what.split()[1]) for _, what in items if what.startswith("emit ")])
    times = [int(value, 2) for moment, variable, value in changes if variable == "time"]
    expect(f"{name}: the time", times == list(range(sum(what == "tick" for _, what in items) + 1)))
    depths = {int(value, 2) for _, variable, value in changes if variable == "stack"}
    expect(f"{name}: depths", {int(what.split()[2]) for _, what in items if what.startswith("take ")} <= depths)
    compare_running(name, items, total, unit, changes)


def compare_running(name, items, total, unit, changes):
    """In each step the running wires say that one runs: the thread where no handler does."""
    ups = [0] * (total + 1)
    threads = [0] * (total + 1)
    for moment, variable, value in changes:
        if variable.endswith("_running") and (moment > 0 or value == "1"):
            is_thread = variable in ("the_thread_running", "idle_running", "init_running")
            (threads if is_thread else ups)[moment // unit] += 1 if value == "1" else -1
    handlers = thread = 0
    for step, runner in enumerate(runner_at(items, total)):
        handlers += ups[step]
        thread += threads[step]
        expect(f"{name}: step {step}", (handlers, thread) == ((0, 1) if runner == "the thread" else (1, 0)))


def compare_events(name, run, check):
    """The trace events: jobs as in the trace, spans of a row inside each other or apart, arrows with two ends."""
    status, text = made(run, check, "--trace-events")
    events = json.loads(text)["traceEvents"]
    items, total = trace(run)
    labels = {each["tid"]: each["args"]["name"] for each in events if each["name"] == "thread_name"}
    jobs = sorted((each["ts"], each["ts"] + each["dur"]) for each in events if each["ph"] == "X" and "cat" not in each
                  and labels[each["tid"]] not in ("init", "idle", "the thread"))
    expect(f"{name}: jobs", status == 0 and jobs == sorted(job[1:] for job in spans_of_jobs(items)))
    rows = {}
    for each in events:
        if each["ph"] == "X":
            rows.setdefault(each["tid"], []).append((each["ts"], each["ts"] + each["dur"]))
    for number, spans in rows.items():
        spans.sort(key=lambda span: (span[0], -span[1]))
        opened = []
        for begin, end in spans:
            while opened and opened[-1] <= begin:
                opened.pop()
            expect(f"{name}: {labels[number]} nests at {begin}", not opened or end <= opened[-1])
            opened.append(end)
    ends = [sorted(each["id"] for each in events if each["ph"] == kind) for kind in ("s", "f")]
    starts = sum(what.startswith(("start ", "fire ")) for _, what in items)
    posted = len(ends[0]) - starts
    expect(f"{name}: arrows {len(ends[0])} of {starts}", ends[0] == ends[1] and posted >= 0)
    expect(f"{name}: steps", all(0 <= each.get("ts", 0) <= total for each in events))


def read_picture(text, steps=1):
    """A text picture read back: for each row the marks by the first steps of their columns."""
    rows = {}
    for piece in text.split("\n\n"):
        lines = [line for line in piece.split("\n") if line and not line.startswith("(")]
        if not lines:
            continue
        begin = int(lines[0].split()[0])
        width = len(lines[0]) - len(lines[0].lstrip())
        for line in lines[1:]:
            marks = rows.setdefault(line[:width].rstrip(), {})
            marks.update({begin + at * steps: mark for at, mark in enumerate(line[width:])})
    return rows


def compare_text(name, run, check):
    """One row a task, folded: the row that runs in each step, sections, and the width."""
    os.environ["COLUMNS"] = "90"
    status, text = written(run, check, "--text")
    items, total = trace(run)
    expect(f"{name}: width", status == 0 and all(len(line) <= 90 for line in text.split("\n")))
    rows = read_picture(text)
    expect(f"{name}: one row a task", all(label.count("(") <= 1 for label in rows))
    for step, runner in enumerate(runner_at(items, total)):
        runs = [label for label, marks in rows.items() if marks.get(step, " ") in "=[]"]
        if not runs:
            # A request that is merged just there hides who runs.
            runs = [label for label, marks in rows.items() if marks.get(step) == "!" and runner in label]
        if not any(step in marks for marks in rows.values()):
            expect(f"{name}: step {step} is left out", runner == "the thread")
        elif runner == "the thread":
            expect(f"{name}: step {step} {runs}", len(runs) == 1 and runs[0] in ("idle", "init", "the thread"))
        else:
            expect(f"{name}: step {step} {runs}", len(runs) == 1 and (runs[0] == runner or f"({runner})" in runs[0]))
    for sign, word in (("[", "enter "), ("]", "leave ")):
        got = sorted(step for marks in rows.values() for step, mark in marks.items() if mark == sign)
        shown = {step for marks in rows.values() for step in marks}
        expect(f"{name}: {word}", got == [step for step, what in items if what.startswith(word) and step in shown])


def compare_shades(name, run, check, steps=8):
    """Where a column is more steps: for each task the tenths of each column that it runs, and the merged requests."""
    os.environ["COLUMNS"] = "90"
    items, total = trace(run)
    rows = {label: marks for label, marks in read_picture(written(run, check, "--text", str(steps))[1], steps).items()}
    names = labels_of(rows, items)
    at = [names.get(task, task) for task in task_at(items, total)]
    boot = next(step for step, what in items if what == "end init") + 1
    at = ["init" if step < boot and "init" in rows and label == names["the thread"] else label
          for step, label in enumerate(at)]
    shown = {begin for marks in rows.values() for begin in marks}
    for begin in shown:
        column = at[begin:begin + steps]
        for label, marks in rows.items():
            ran = column.count(label)
            tenths = str(min(int(ran * 10 / len(column) + 0.5), 9))
            want = {0: " .-!", len(column): "=!"}.get(ran, tenths + "!")
            expect(f"{name}: {label} at {begin}, {ran} of {len(column)}", marks.get(begin, " ") in want)
    got = {(label, begin) for label, marks in rows.items() for begin, mark in marks.items() if mark == "!"}
    lost = {(names[each], min(step, total - 1) // steps * steps) for step, word, each in merged_in(items)
            if each in names and not (word == "post" and names[each].startswith("dispatcher"))}
    expect(f"{name}: merged {got}, not {lost}", got == lost)


def labels_of(rows, items):
    """The label of each task that takes messages, as `start TASK`, and of each interrupt that serves another."""
    software = {what.split()[1] for _, what in items if what.startswith("start ")}
    found = {"the thread": next(label for label in rows if label in ("idle", "the thread"))}
    for label in rows:
        name, _, interrupt = label.partition(" (")
        found["start " + name if name in software else interrupt.rstrip(")") or name] = label
    return found


def many(activations):
    """A trace of so many activations of a task, with a section each, and a long rest of the thread after each tenth."""
    lines, step = ["0 end init"], 1
    for number in range(activations):
        lines += [f"{step} pend A", f"{step} take A 48", f"{step + 1} enter s", f"{step + 3} leave s {number}",
                  f"{step + 5} emit {number}", f"{step + 9} ret A"]
        step += 2_000 if number % 10 == 9 else 12
    return "\n".join(lines) + f"\ntotal {step}\n"


def compare_speed():
    """Ten thousand activations as text in under five seconds of the processor, with columns of one and of 100 steps."""
    with tempfile.TemporaryDirectory() as folder:
        run = os.path.join(folder, "run")
        with open(run, "w", encoding="ascii") as file:
            file.write(many(10_000))
        for steps in ("1", "100"):
            begun = time.process_time()
            status, text = written(run, "--text", steps)
            took = time.process_time() - begun
            expect(f"10,000 activations in {took:.1f} s", status == 0 and took < 5)
            print(f"view_forms: 10,000 activations as text, {steps} steps a column: {took:.2f} s, {len(text)} bytes")
        status, text = written(run, "--text")
        expect("each activation is drawn", text.count("[") == 10_000 and text.count("]") == 10_000)


for each in (*RUNS, WITH_INPUTS):
    files = os.path.join(DATA, each + ".run"), os.path.join(DATA, each + ".check")
    compare_waveform(each, *files)
    compare_events(each, *files)
    compare_text(each, *files)
    if each != WITH_INPUTS:
        compare_shades(each, *files)
compare_speed()
for fault in faults[:20]:
    print("view_forms: wrong:", fault)
print("view_forms:", "wrong" if faults else "as expected")
sys.exit(1 if faults else 0)
