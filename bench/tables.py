#!/usr/bin/env python3
"""Writes tables of command_cases whose answers are another implementation's: runs beside devices that leave nothing
free, a text cut after each of its bytes, and a trace without each of its lines.

    python3 tables.py PROGRAM CRATE

PROGRAM is an implementation of `rtic` with `check`, `audit` and `live`; CRATE, which is crates/command_cases, takes
data/alone, data/cuts and data/lines. Run messages.py after it, which writes the names of all cases to stdout.
"""

import os
import subprocess
import sys
import tempfile
from pathlib import Path

HEAD = "; Written by bench/tables.py: {}\n\n"

STATION = """\
app station(bits = 4, dispatchers = [SSI0, QEI0]);
interrupts { GPIOA = 0, UART0 = 5, SSI0 = 7, QEI0 = 13, TIMER0 = 19 }
monotonic(binds = TIMER0, priority = 4);
shared { index = 0, led = 0 }
local { presses = 0 }
init { spawn_after(100) blink(1); }
idle(shared = [index]) { lock index { if index > 31 { index = 0; } } }
task rx(binds = UART0, priority = 3, shared = [index]) { lock index { index = index + 1; } }
task button(binds = GPIOA, priority = 2, shared = [led], local = [presses]) {
    presses = presses + 1;
    lock led { led = led ^ 1; }
    let ok = spawn report(presses);
}
task blink(priority = 1, shared = [led]) with on { lock led { led = on; } spawn_after(100) blink(1 - on); }
task report(priority = 2, capacity = 4) with n { emit n; }
"""
LATE = """\
app late(bits = 4, dispatchers = [D]);
interrupts { A = 0, D = 1 }
task a(binds = A, priority = 2) { spawn t(); }
task t(priority = 1) { emit 4; }
"""
LATE_TRACE = """\
0 pend D
0 end init
1 take D 96
2 enter ready.1
4 leave ready.1
5 pend A
5 take A 192
6 enter free.t
9 ok t
10 leave free.t
11 enter ready.1
15 ready t
16 post D
17 leave ready.1
18 ret A
19 ret D
20 take D 96
21 enter ready.1
24 start t
25 leave ready.1
26 enter free.t
27 free t
28 leave free.t
31 emit 4
32 end t
33 ret D
total 40
"""
TWO = """\
app two(bits = 4);
interrupts { A = 3, B = 7 }
task b(binds = B, priority = 2) { emit 20; }
task a(binds = A, priority = 2) { emit 10; }
"""
LAST = """\
app last(bits = 4);
interrupts { Z = 495, A = 3, FREE = 300 }
task z(binds = Z, priority = 2) { emit 495; }
task a(binds = A, priority = 16) { emit 3; }
"""
EDGES = [32 * word + bit for word in range(16) for bit in (0, 31) if 32 * word + bit <= 495]
WORDS = f"""\
app words(bits = 7);
interrupts {{ {", ".join(f"I{number} = {number}" for number in EDGES)} }}
task first(binds = I0, priority = 1) {{}}
"""
SIXTEEN = f"""\
app sixteen(bits = 4);
interrupts {{ {", ".join(f"D{device} = {device * 31}" for device in range(16))} }}
task first(binds = D0, priority = 1) {{}}
task last(binds = D15, priority = 16) {{ emit 15; }}
"""

# Name, application, and a script under which each run writes the same.
ALONE = [
    ("a device without a pend", TWO, "device 3 pend A 0\nstep 5\n"),
    ("a device without a pend, among pends of the script", TWO, "pend B\ndevice 3 pend A 0\nstep 3\npend A\nstep 7\n"),
    ("devices and nothing else", TWO, "device 0 pend A 3\ndevice 1 pend B\n"),
    ("two devices of one interrupt", TWO, "device 0 pend A 2\ndevice 15 pend A 2\n"),
    ("two lines of one device", TWO, "device 4 pend B 2\ndevice 4 pend A\ndevice 4 pend B\n"),
    ("no step in a script of ticks, pends and devices", TWO,
     "device 0 pend B 5\ntick 2\npend A\ndevice 0 pend A\ntick 1\npend B 2\n"),
    ("no line", TWO, ""),
    ("a device that pends the greatest number", LAST, "device 7 pend Z 2\n"),
    ("pends of an interrupt that nothing serves", LAST, "device 0 pend FREE 2\ndevice 1 pend FREE\npend FREE\n"),
    ("an unknown interrupt of a device", LAST, "device 0 pend Y\n"),
    ("the first bit and the last of each word", WORDS,
     "".join(f"device {number // 32} pend I{number}\n" for number in reversed(EDGES))),
    ("sixteen devices", SIXTEEN, "".join(f"device {device} pend D{device} {device + 1}\n" for device in range(16))),
]


def told(program, *words):
    """The status of an implementation, and what it writes."""
    ran = subprocess.run([program, *words], capture_output=True, text=True, env=os.environ, check=False)
    return ran.returncode, ran.stdout


def told_of(program, command, *texts):
    """The status and the output of a command on texts."""
    with tempfile.TemporaryDirectory() as folder:
        paths = [Path(folder, str(number)) for number in range(len(texts))]
        for path, text in zip(paths, texts):
            path.write_text(text)
        return told(program, command, *map(str, paths))


def part(name, text):
    return "".join(f"{name} | {line}\n" for line in text.splitlines())


def alone(program):
    """Runs whose output is the same each time."""
    cases = []
    for name, app, script in ALONE:
        status, output = told_of(program, "live", app, script)
        texts = part("app", app) + part("second", script) + f"exit | {status}\n" + part("output", output)
        cases.append(f"= live: {name}\n{texts}")
    return HEAD.format("runs beside devices in which nothing is left to chance.") + "\n".join(cases)


def answer(program, app):
    """The line of a refusal, or that there is none."""
    status, output = told_of(program, "check", app)
    return output if status else "accepted\n"


def cuts(program):
    """An application cut after each byte, from none on."""
    answers = "".join(answer(program, STATION[:cut]) for cut in range(len(STATION) + 1))
    head = HEAD.format("what `check` answers where a text ends behind each of its bytes, from none on.")
    return head + "= a text that ends behind each of its bytes\n" + part("app", STATION) + part("answers", answers)


def lines(program):
    """A trace without each of its lines."""
    trace = LATE_TRACE.splitlines(keepends=True)
    texts = ["".join(trace[:left_out] + trace[left_out + 1:]) for left_out in range(len(trace))]
    answers = "".join(told_of(program, "audit", LATE, text)[1] for text in texts)
    head = HEAD.format("what `audit` answers where one line of a trace is left out, from the first on.")
    parts = part("app", LATE) + part("second", LATE_TRACE) + part("answers", answers)
    return head + "= a trace without each of its lines\n" + parts


def main():
    program, data = os.path.abspath(sys.argv[1]), Path(sys.argv[2]) / "data"
    for name, written in (("alone", alone), ("cuts", cuts), ("lines", lines)):
        (data / name).write_text(written(program))


main()
