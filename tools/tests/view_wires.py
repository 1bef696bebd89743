#!/usr/bin/env python3
"""The waveforms of `tools/view` in programs that read them: sigrok-cli, whose library is PulseView's, and GTKWave's.

The file of wires is also read here, and held against the lines of the trace, step by step. What is not there of these
programs is skipped, and this says so.
"""
import os
import re
import shutil
import subprocess
import sys
import tempfile

TOOLS = os.path.dirname(os.path.dirname(os.path.abspath(__file__)))
DATA = os.path.join(TOOLS, "tests", "view")
RUNS = ("two", "pump", "four", "serial", "burst", "station", "names", "uart")
THREAD = ("init", "idle", "the_thread")
VARIABLE = re.compile(r"\$var (\w+) (\d+) (\S+) (\S+) \$end")
sys.dont_write_bytecode = True
sys.path[:0] = [TOOLS, DATA]

from traces import merged_in, sections_of, task_at, trace
from viewing.command import main

faults = []


def expect(what, is_right):
    """Notes a fault."""
    if not is_right:
        faults.append(what)


def made(folder, name, form):
    """The path of what the tool writes for an output in a form."""
    path = os.path.join(folder, name + form)
    files = (os.path.join(DATA, name + ending) for ending in (".run", ".check"))
    expect(f"{name} {form} is made", main([*files, form, path]) == 0)
    return path


def read(path):
    """A waveform: for each variable its name, and its changes as time and value; a name that comes twice is one."""
    with open(path, encoding="ascii") as file:
        head, _, body = file.read().partition("$enddefinitions $end\n")
    names = {match[3]: match[4] for match in VARIABLE.finditer(head)}
    changes = {name: [] for name in names.values()}
    moment = 0
    for line in body.split("\n"):
        if line.startswith("#"):
            moment = int(line[1:])
        elif line and not line.startswith("$"):
            value, short = line[1:].split(" ") if line[0] in "bs" else (line[0], line[1:])
            value = str(int(value, 2)) if line[0] == "b" else value
            changes[names[short]].append((moment, value))
    return head, changes, moment


def levels(changes, end):
    """The value of a wire in each step."""
    found, value = [], "0"
    at = dict(changes)
    for step in range(end):
        value = at.get(step, value)
        found.append(value)
    return "".join(found)


def wire_name(task, has_booted, names):
    """The wire that is 1 where a task runs."""
    if task == "the thread":
        is_thread = has_booted or "init" not in names
        return next(each for each in names if each in THREAD and (each != "init") == is_thread)
    return task.removeprefix("start ")


def compare_wires(name, path):
    """The wires in each step: who runs, which sections a job is inside, and what happens there."""
    head, changes, end = read(path)
    items, total = trace(os.path.join(DATA, name + ".run"))
    expect(f"{name}: wires alone, up to {total}", end == total and set(VARIABLE.findall(head)) and all(
        (kind, size) == ("wire", "1") for kind, size, _, _ in VARIABLE.findall(head)))
    running = {each.removesuffix("_running"): levels(rows, total) for each, rows in changes.items()
               if each.endswith("_running")}
    interrupts = interrupts_of(name)
    boot = next(step for step, what in items if what == "end init") + 1
    for step, task in enumerate(task_at(items, total)):
        want = wire_name(interrupts.get(task, task), step >= boot, running)
        got = [each for each, row in running.items() if row[step] == "1"]
        expect(f"{name}: step {step}: {got}, not {want}", got == [want])
    for section in {what.split()[1] for _, what in items if what.startswith("enter ")}:
        inside = ["0"] * total
        for _, begin, after in (each for each in sections_of(items) if each[0] == section):
            inside[begin:after] = "1" * (after - begin)
        got = levels(changes[section.replace(".", "_")], total)
        left = len([what for _, what in items if what.startswith("leave " + section)])
        entered = sum(what == "enter " + section for _, what in items)
        expect(f"{name}: inside {section}", left < entered or got == "".join(inside))
    for wire, steps in (("emit", [step for step, what in items if what.startswith("emit ")]),
                        ("full", [step for step, what in items if what.startswith("full ")]),
                        ("merged", [step for step, word, _ in merged_in(items) if word == "pend"])):
        want = "".join("1" if step in set(steps) else "0" for step in range(total))
        expect(f"{name}: {wire}", levels(changes[wire], total) == want)


def interrupts_of(name):
    """The wire of each interrupt that serves a hardware task, the timer queue, or a dispatcher without a message."""
    found = {}
    for row, interrupt in rows_of(name):
        found.setdefault(interrupt, row.replace(" ", "_"))
    return found


def rows_of(name):
    """The tasks and their interrupts, by the declarations of the application."""
    paths = (os.path.join(DATA, name + ".rtic"),
             os.path.join(os.path.dirname(TOOLS), "examples", ("serial" if name == "burst" else name) + ".rtic"))
    with open(next(filter(os.path.exists, paths)), encoding="ascii") as file:
        text = file.read()
    yield from ((task, interrupt) for task, interrupt in re.findall(r"task (\w+)\(binds = (\w+)", text))
    yield from (("timer queue", interrupt) for interrupt in re.findall(r"monotonic\(binds = (\w+)", text))
    for names in re.findall(r"dispatchers = \[([^\]]*)\]", text):
        yield from (("dispatcher " + interrupt, interrupt) for interrupt in re.findall(r"\w+", names))


def compare_sigrok(command, name, path):
    """libsigrok reads every sample of every wire."""
    done = subprocess.run([command, "-I", "vcd", "-i", path, "-O", "csv"], capture_output=True, check=False, text=True)
    lines = done.stdout.split("\n")
    channels = next((line for line in lines if line.startswith("; Channels")), "").partition(": ")[2].split(", ")
    samples = [line.split(",") for line in lines if line[:2] in ("0,", "1,")]
    _, changes, end = read(path)
    said = f"{name}: sigrok-cli: {done.stderr[:80]}, {len(samples)} of {end}"
    expect(said, done.stderr == "" and len(samples) == end)
    expect(f"{name}: channels {channels}", channels == list(changes))
    for at, channel in enumerate(channels):
        got = "".join(sample[at] for sample in samples)
        expect(f"{name}: {channel} by sigrok-cli", got == levels(changes.get(channel, ()), end))


def compare_gtkwave(name, path):
    """GTKWave's converter reads every change of every variable, the texts too, and writes them again."""
    for command, one, other in (("vcd2fst", path, path + ".fst"), ("fst2vcd", path + ".fst", path + ".again")):
        words = [command, one, other] if command == "vcd2fst" else [command, one, "-o", other]
        done = subprocess.run(words, capture_output=True, check=False)
        expect(f"{name}: {command}: {done.stderr[:80]}", done.returncode == 0 and os.path.exists(other))
    wanted, got = read(path)[1], read(path + ".again")[1]
    expect(f"{name}: variables", set(wanted) == set(got))
    for variable, changes in wanted.items():
        expect(f"{name}: {variable} by fst2vcd", moves(changes) == moves(got.get(variable, [])))


def moves(changes):
    """The changes of a variable, with those that change nothing left out, and of those at the beginning the last."""
    found = []
    for moment, value in changes:
        if moment == 0:
            found = [(0, value)]
        elif not found or found[-1][1] != value:
            found.append((moment, value))
    return found


def check():
    """All outputs, by all programs that are there."""
    sigrok, gtkwave = shutil.which("sigrok-cli"), shutil.which("vcd2fst") and shutil.which("fst2vcd")
    with tempfile.TemporaryDirectory() as folder:
        for name in RUNS:
            wires = made(folder, name, "--wires")
            compare_wires(name, wires)
            if sigrok:
                compare_sigrok(sigrok, name, wires)
            if gtkwave:
                compare_gtkwave(name, made(folder, name, "--vcd"))
    missing = [words for words, is_there in (("sigrok-cli", sigrok), ("vcd2fst and fst2vcd", gtkwave)) if not is_there]
    if missing:
        print(f"view_wires: skipped in part: {' and '.join(missing)} not there")


check()
for fault in faults[:20]:
    print("view_wires: wrong:", fault)
print("view_wires:", "wrong" if faults else "as expected")
sys.exit(1 if faults else 0)
