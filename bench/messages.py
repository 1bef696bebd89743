#!/usr/bin/env python3
"""Writes the cases of messages in command_cases: applications with software tasks, scripts, and the items of runs.

    python3 messages.py PROGRAM CRATE

PROGRAM is an implementation of `rtic` whose `run` and `audit` take these applications; CRATE, which is
crates/command_cases, takes data/messages, and the stdout that is wanted of all tables in data/. The code of spawns and
dispatchers is the compiler's choice, so of a trace the items alone are compared, without their step numbers; scripts
let interrupts come where it makes no difference. Where a case says which items are wanted, PROGRAM is held against
them.
"""

import os
import subprocess
import sys
import tempfile
from pathlib import Path

EXAMPLES = Path(__file__).resolve().parent.parent / "examples"
# the tables in the order in which the crate runs them
TABLES = (
    "tokens", "canonical", "syntax", "limits", "reports", "refusals", "runs", "builds", "messages", "alone", "live",
    "slow", "held", "meetings", "pairs", "soaks", "demos", "failing", "scripts", "audits", "listings", "cuts", "lines",
    "calls", "commands",
)
SECTIONS = "enter leave"
UNSET = "enter leave set"

HIGHER = """\
app higher(bits = 4, dispatchers = [D]);
interrupts { A = 0, D = 1 }
shared { s = 0 }
task a(binds = A, priority = 1, shared = [s]) { lock s { spawn t(7); s = 1; } emit 1; }
task t(priority = 2, shared = [s]) with x { lock s { emit x + s; } }
"""
CAPACITY = """\
app cap(bits = 4, dispatchers = [D]);
interrupts { A = 0, D = 1 }
task a(binds = A, priority = 2) { spawn t(1); spawn t(2); spawn t(3); }
task t(priority = 1, capacity = 2) with x { emit x; if x == 1 { spawn t(4); } }
"""
LATE = """\
app late(bits = 4, dispatchers = [D]);
interrupts { A = 0, D = 1 }
task a(binds = A, priority = 2) { spawn t(); }
task t(priority = 1) { emit 4; }
"""
UNUSED = """\
app two(bits = 4, dispatchers = [C]);
interrupts { A = 3, B = 239, C = 0 }
task b(binds = B, priority = 16) { emit 0; emit 1; emit 2; }
task a(binds = A, priority = 16) {}
task c {}
"""
THREAD = """\
app thread(bits = 4, dispatchers = [E, D]);
interrupts { D = 1, E = 2 }
shared { r = 5 }
local { turns = 0 }
init { r = 6; let one = spawn low(1, r); emit one; let two = spawn low(2, r); emit two; spawn high(); }
idle(shared = [r], local = [turns]) {
    if turns < 3 {
        turns = turns + 1;
        lock r { r = r + 1; let l = spawn low(turns, r * 2); emit 10 + l; let h = spawn high(); emit 20 + h; }
    }
}
task low(priority = 1, shared = [r]) with n, x { lock r { r = r + x; } emit n * 1000 + x; }
task high(priority = 3, shared = [r]) { lock r { emit 30000 + r; } }
"""
MANY = """\
app many(bits = 5, dispatchers = [D]);
interrupts { A = 7, D = 4 }
task none(priority = 9, capacity = 2) { emit 0; }
task one(priority = 9) with a { emit a; }
task two(priority = 9, capacity = 3) with a, b { emit a * 10 + b; }
task three(priority = 9) with a, b, c { emit a * 100 + b * 10 + c; spawn one(9); }
task four(priority = 9, capacity = 2) with a, b, c, d {
    emit a * 1000 + b * 100 + c * 10 + d;
    if d { spawn four(d, c, b, 0); }
}
task all(binds = A, priority = 30) {
    spawn four(1, 2, 3, 4);
    spawn two(1, 2);
    spawn three(1, 2, 3);
    spawn none();
    spawn two(2, 1);
    spawn one(1);
    spawn none();
    let third = spawn none();
    emit third;
    let last = spawn two(3, 3);
    emit last;
}
"""
TOP = """\
app top(bits = 3, dispatchers = [D]);
interrupts { LOW = 0, MID = 5, D = 9 }
shared { r = 1 }
local { turns = 0 }
idle(shared = [r], local = [turns]) { if turns < 2 { turns = turns + 1; lock r { spawn t(r, 2); } } }
task low(binds = LOW, priority = 2, shared = [r]) {
    lock r { r = r * 2; spawn t(r, 3); spawn t(r, 4); let ok = spawn t(r, 5); emit ok; }
}
task mid(binds = MID, priority = 7) { spawn t(5, 5); emit 6; }
task t(priority = 8, capacity = 2, shared = [r]) with a, b { lock r { r = r + 1; emit a * 100 + b * 10 + r; } }
"""
TRANSIT = """\
app transit(bits = 4, dispatchers = [D]);
interrupts { LOW = 0, HIGH = 1, D = 2 }
task low(binds = LOW, priority = 2) { let ok = spawn t(1, 2, 3, 4); emit 20 + ok; }
task high(binds = HIGH, priority = 3) { let ok = spawn t(5, 6, 7, 8); emit 30 + ok; }
task t(priority = 1) with a, b, c, d { emit a * 1000 + b * 100 + c * 10 + d; }
"""
BETWEEN = """\
app between(bits = 4, dispatchers = [D]);
interrupts { A = 0, D = 3, B = 7 }
init { spawn t(0); spawn t(1); }
task first(binds = A, priority = 1) { emit 1; }
task last(binds = B, priority = 1) { emit 2; }
task t(priority = 1, capacity = 2) with n { emit 10 + n; pend A; pend B; pend D; }
"""
UP = """\
app up(bits = 4, dispatchers = [H, L]);
interrupts { A = 0, L = 1, H = 2 }
task a(binds = A, priority = 4) { let ok = spawn low(3); emit ok; }
task low(priority = 1, capacity = 1) with n {
    emit n;
    if n { spawn high(n); let ok = spawn low(n - 1); emit 50 + n * 10 + ok; }
}
task high(priority = 3) with n { emit 100 + n; if n == 2 { spawn low(0); } }
"""

# Name, application, script, words whose items are left out, and the items that are wanted where they are known from
# elsewhere.
CASES = [
    ("a lock that holds a message to a higher task", HIGHER, "pend A\nstep 500\n", "", (
        "pend A | end init | take A 104 | enter s | enter free.t | ok t | leave free.t | enter ready.2 | ready t"
        " | post D | leave ready.2 | leave s 1 | take D 200 | enter ready.2 | start t 7 | leave ready.2 | enter free.t"
        " | free t | leave free.t | enter s | emit 8 | leave s 1 | end t | ret D | emit 1 | ret A")),
    ("two places and three messages; a place is free again before the body", CAPACITY, "pend A\nstep 2000\n",
     "enter leave pend post", (
        "end init | take A 104 | ok t | ready t | ok t | ready t | full t | ret A | take D 96 | start t 1 | free t"
        " | emit 1 | ok t | ready t | end t | ret D | take D 96 | start t 2 | free t | emit 2 | end t | ret D"
        " | take D 96 | start t 4 | free t | emit 4 | end t | ret D")),
    ("two places and three messages, with the extended frame", CAPACITY.replace("]);", "], fpu = on);"),
     "pend A\nstep 2000\n", SECTIONS, None),
    ("a message from a higher task", LATE, "pend A\nstep 500\n", "", None),
    ("a dispatcher that finds nothing ready", LATE, "pend D\nstep 200\n", "", (
        "pend D | end init | take D 96 | enter ready.1 | leave ready.1 | ret D")),
    ("a software task that nobody sends to", UNUSED, "pend A\npend B\nstep 20\n", "", None),
    ("init and idle send, inside a lock too", THREAD, "step 1500\n", "end", None),
    ("five tasks of one level, with none to four values", MANY, "pend A\nstep 2000\n", SECTIONS, None),
    ("messages to the greatest priority of 3 bits", TOP,
     "step 400\npend LOW\nstep 400\npend MID\nstep 300\n", "end", None),
    ("a place in transit is out", TRANSIT, "step 1\npend LOW\nstep 18\npend HIGH\nstep 300\n", "", None),
    ("a task of the dispatcher's level between two messages", BETWEEN, "step 1000\n", SECTIONS, None),
    ("messages up and down between two levels", UP, "pend A\nstep 3000\n", SECTIONS, None),
]


def example(name, script):
    """A case of an example."""
    app, events = (EXAMPLES / name).read_text(), (EXAMPLES / script).read_text()
    return f"examples: {name} under {script}", app, events, SECTIONS, None


TIMED = """\
app timed(bits = 4, dispatchers = [D]);
interrupts { A = 0, D = 1, T = 2 }
monotonic(binds = T, priority = 3);
task a(binds = A, priority = 1) { spawn_after(2) t(1); spawn_after(2) t(2); spawn_after(0) t(3); }
task t(priority = 2, capacity = 3) with x { emit x; }
"""
UNDO = """\
app undo(bits = 4, dispatchers = [D]);
interrupts { A = 0, D = 1, T = 2 }
monotonic(binds = T, priority = 3);
task a(binds = A, priority = 1) {
    let h = spawn_after(5) t(1);
    let g = spawn_after(5) t(2);
    let x = reschedule_after(9) t(h);
    let y = cancel t(g);
    let z = cancel t(g);
    emit x + y * 2 + z * 4 + h * 10 + g * 100;
}
task t(priority = 2, capacity = 2) with x { emit x; }
"""
STALE = """\
app stale(bits = 4, dispatchers = [E, D], fpu = on);
interrupts { A = 0, B = 3, D = 1, E = 2, T = 5 }
monotonic(binds = T, priority = 5);
shared { kept = 0, other = 0 }
init { let first = spawn_after(3) low(now_or(1)); kept = first; }
task a(binds = A, priority = 2, shared = [kept, other]) {
    let h = spawn_after(7) high(4, 5);
    lock other { other = h; }
    let full = spawn_after(7) high(6, 7);
    let none = cancel low(h);
    lock kept { let gone = cancel low(kept); emit 100 + gone; }
    emit full * 10 + none;
}
task b(binds = B, priority = 4, shared = [kept, other]) {
    lock other { let late = reschedule_after(4) high(other); let never = cancel high(99); emit 20 + late * 2 + never; }
    let t = now;
    emit t;
}
task low(priority = 1) with x { emit x; let h = spawn_after(0) low(x + 1); emit h; }
task high(priority = 6) with x, y { emit x * 10 + y; }
"""
STALE = STALE.replace("now_or(1)", "1")

CASES += [
    ("two equal instants and a delay of 0", TIMED, "pend A\nstep 2000\ntick 2\nstep 2000\n", UNSET, (
        "pend A | end init | take A 136 | ok t | clock 0 | arm t 2 | ok t | clock 0 | arm t 2 | ok t | clock 0"
        " | arm t 0 | alarm | take T 264 | clock 0 | fire t | ready t | post D | ret T | take D 232 | start t 3"
        " | free t | emit 3 | end t | ret D | ret A | tick | tick | alarm | take T 128 | clock 2 | fire t | alarm"
        " | ready t | post D | ret T | take T 128 | clock 2 | fire t | ready t | post D | ret T | take D 96 | start t 1"
        " | post D | free t"
        " | emit 1 | end t | ret D | take D 96 | start t 2 | free t | emit 2 | end t | ret D")),
    ("the longest delay is 2^31 - 1", TIMED.replace("(2) t(1)", "(4294967295) t(1)"),
     "pend A\nstep 2000\ntick 2\nstep 2000\n", UNSET, None),
    ("three instants, the least in the middle", TIMED.replace("(2) t(1)", "(5) t(1)").replace("(2) t(2)", "(3) t(2)")
     .replace("(0) t(3)", "(5) t(3)"), "pend A\nstep 2000\ntick 5\nstep 2000\n", UNSET, (
        "pend A | end init | take A 136 | ok t | clock 0 | arm t 5 | ok t | clock 0 | arm t 3 | ok t | clock 0"
        " | arm t 5 | ret A | tick | tick | tick | alarm | tick | tick | take T 128 | clock 5 | fire t | alarm"
        " | ready t | post D | ret T | take T 128 | clock 5 | fire t | alarm | ready t | post D | ret T | take T 128"
        " | clock 5 | fire t | ready t | post D | ret T | take D 96 | start t 2 | post D | free t | emit 2 | end t"
        " | ret D | take D 96 | start t 1 | post D | free t | emit 1 | end t | ret D | take D 96 | start t 3 | free t"
        " | emit 3 | end t | ret D")),
    ("a message that is moved, and one that is taken back", UNDO, "pend A\nstep 2000\ntick 9\nstep 2000\n", UNSET,
     "pend A | end init | take A 176 | ok t | clock 0 | arm t 5 | ok t | clock 0 | arm t 5 | clock 0 | move t 1 9"
     " | cancel t 2 | free t | emit 214 | ret A | tick | tick | tick | tick | tick | tick | tick | tick | tick | alarm"
     " | take T 128 | clock 9 | fire t | ready t | post D | ret T | take D 96 | start t 1 | free t | emit 1 | end t"
     " | ret D"),
    ("handles of other tasks, of messages that fired, and that were never given", STALE,
     "step 2000\npend A\nstep 2000\npend B\nstep 2000\ntick 3\nstep 3000\ntick 5\nstep 3000\npend A\nstep 2000\n"
     "pend B\nstep 2000\n", SECTIONS, None),
    ("the same with every section", STALE,
     "step 2000\npend A\nstep 2000\npend B\nstep 2000\ntick 3\nstep 3000\n", "", None),
]
CASES += [example("serial.rtic", "serial.script"), example("serial.rtic", "burst.script")]
CASES += [
    example(f"from_rtic/{name}.rtic", "from_rtic/messages.script")
    for name in ("spawn", "task", "message", "capacity", "message_passing")
]


def told(program, *words):
    """What an implementation writes, at status 0."""
    ran = subprocess.run([program, *words], capture_output=True, text=True, env=os.environ, check=False)
    if ran.returncode != 0:
        sys.exit(f"messages.py: status {ran.returncode}: {ran.stdout}")
    return ran.stdout


def run(program, app, script):
    """The items of a run without their step numbers; the whole output is audited too."""
    with tempfile.TemporaryDirectory() as folder:
        paths = [Path(folder, name) for name in ("app", "script", "output")]
        paths[0].write_text(app)
        paths[1].write_text(script)
        paths[2].write_text(told(program, "run", *map(str, paths[:2])))
        trace = paths[2].read_text().split("\ntrace\n")[1]
        told(program, "audit", str(paths[0]), str(paths[2]))
    return [line.split(" ", 1)[1] for line in trace.splitlines() if not line.startswith("total ")]


def part(name, text):
    return "".join(f"{name} | {line}\n" for line in text.splitlines())


def written(program, name, app, script, without, known):
    """The lines of a case."""
    items = [item for item in run(program, app, script) if item.split(" ")[0] not in without.split()]
    if known is not None and items != known.split(" | "):
        sys.exit(f"messages.py: other items: {name}: {' | '.join(items)}")
    texts = (("app", app), ("second", script), ("without", without), ("items", "\n".join(items)))
    return f"= {name}\n" + "".join(part(*text) for text in texts) + "\n"


def main():
    program, crate = os.path.abspath(sys.argv[1]), Path(sys.argv[2])
    head = "; Written by bench/messages.py: applications with messages, and the items of another implementation.\n\n"
    (crate / "data" / "messages").write_text(head + "".join(written(program, *case) for case in CASES))
    lines = [line for table in TABLES for line in (crate / "data" / table).read_text().splitlines()]
    (crate / "stdout").write_text("".join(f"{line[2:]}: ok\n" for line in lines if line.startswith("= ")))


main()
