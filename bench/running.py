#!/usr/bin/env python3
"""Prints the times of `rtic run` beside a plain simulator, also where the served interrupts are declared last, of
`rtic audit` beside `wc -w` and a plain reader, and the memory of both as their input grows.

    python3 running.py PROGRAM SIMULATOR READER FOLDER

PROGRAM is rtic, SIMULATOR and READER are bench/simulator.rs and bench/reader.rs, FOLDER takes the texts. Times are
processor time, in the median of fifteen turns of the programs. What the simulator writes is compared with what rtic
writes, byte for byte.
"""

import os
import subprocess
import sys

from timing import peak, processor, used

TURNS = 15
EVENTS = 1_000_000
# The greatest number of an interrupt.
LAST = 495
# Interrupts that are pended at once. Their names are short: a script has a megabyte at most.
CROWD = [f"{letter}{digit}" for letter in "ABCDEF" for digit in range(10)]
MEGABYTE = 1 << 20
# The run with interrupts and the thread, where the interrupts that are served are declared last.
LATE = "busy, served last"

BODIES = """\
idle(shared = [low], local = [turns]) { lock low { turns = turns + low; } }
task slow(binds = SLOW, priority = 1, shared = [low, high]) {
    lock low {
        low = 1;
        for i in 0..4 { low = low + i; }
        lock high { high = low; }
        emit low;
    }
}
task fast(binds = FAST, priority = 2, shared = [high]) { lock high { high = 6; emit high; } }
"""

# An interrupt, the thread and messages send messages to two levels, with two values and with four; some find no place.
MESSAGES = """\
shared { lost = 0 }
local { turns = 0 }
idle(local = [turns]) { turns = turns + 1; spawn low(turns, 7); }
task slow(binds = SLOW, priority = 1) {}
task fast(binds = FAST, priority = 3, shared = [lost]) {
    for i in 0..3 {
        let sent = spawn low(i, 5);
        if sent == 0 { lock lost { lost = lost + 1; } }
    }
    spawn high(1, 2, 3, 4);
}
task low(priority = 1, capacity = 2) with a, b { spawn high(a, b, b, a); }
task high(priority = 2, capacity = 4) with a, b, c, d { emit a + b + c + d; }
"""


# Some fifty of the 64 places for delayed messages are armed: at each tick one is armed and one fires, and at every
# sixth one is cancelled and one moved. The thread never waits.
TIMED = """\
monotonic(binds = TIMER, priority = 3);
shared { lock_free last = 0 }
local { turns = 0 }
idle(local = [turns]) { turns = turns + 1; }
task arm(binds = ARM, priority = 2, shared = [last]) {
    let which = last % 4;
    let given = 0;
    if which == 0 { let a = spawn_after(60) t0(last); given = a; }
    if which == 1 { let b = spawn_after(60) t1(last); given = b; }
    if which == 2 { let c = spawn_after(60) t2(last); given = c; }
    if which == 3 { let d = spawn_after(60) t3(last); given = d; }
    if given > 0 { last = given; }
}
task change(binds = CHANGE, priority = 2, shared = [last]) {
    let which = (last - 1) % 4;
    if which == 0 { cancel t0(last - 12); reschedule_after(70) t0(last - 8); }
    if which == 1 { cancel t1(last - 12); reschedule_after(70) t1(last - 8); }
    if which == 2 { cancel t2(last - 12); reschedule_after(70) t2(last - 8); }
    if which == 3 { cancel t3(last - 12); reschedule_after(70) t3(last - 8); }
}
task t0(priority = 1, capacity = 16) with a {}
task t1(priority = 1, capacity = 16) with a {}
task t2(priority = 1, capacity = 16) with a {}
task t3(priority = 1, capacity = 16) with a {}
"""
TICK = "pend ARM\nstep 797\ntick 1\n"


def interrupts(names, irqs, last, come_last=False):
    """So many declared interrupts up to the last number, these among them: they take the first numbers or the last, and
    are declared before all others or behind them."""
    first = last + 1 - irqs
    served = range(first, first + len(names)) if first == 0 else range(last + 1 - len(names), last + 1)
    rows = [f"{name} = {number}" for name, number in zip(names, served)]
    others = [f"X{n} = {n}" for n in range(first, last + 1) if n not in served]
    return f"interrupts {{ {', '.join(others + rows if come_last else rows + others)} }}\n"


def application(irqs, last, name):
    """So many declared interrupts, of which a few are served; with `waiting` the thread waits, and with `busy, served
    last` those that are served are declared last."""
    if name == "messages":
        declared = interrupts(["SLOW", "FAST", "HIGH", "LOW"], irqs, last)
        return f"app bench(bits = 4, dispatchers = [HIGH, LOW]);\n{declared}{MESSAGES}"
    if name == "timed":
        declared = interrupts(["ARM", "CHANGE", "TIMER", "LOW"], irqs, last)
        return f"app bench(bits = 4, dispatchers = [LOW]);\n{declared}{TIMED}"
    if name == "crowded":
        tasks = [
            f"task k{n}(binds = {name}, priority = {1 + n % 15}) {{ emit {n}; }}\n" for n, name in enumerate(CROWD)
        ]
        return f"app bench(bits = 4);\n{interrupts(CROWD, irqs, last)}{''.join(tasks)}"
    bodies = BODIES[BODIES.index("task") :] if name == "waiting" else BODIES
    declared = interrupts(["SLOW", "FAST"], irqs, last, name == LATE)
    return f"app bench(bits = 4);\n{declared}shared {{ low = 1, high = 2 }}\nlocal {{ turns = 0 }}\n{bodies}"


def write(folder, name, text):
    path = os.path.join(folder, name)
    with open(path, "w", encoding="ascii") as to:
        to.write(text)
    return path


def output(words, path):
    with open(path, "wb") as to:
        subprocess.run(words, stdout=to, check=True)
    return path


def takes(program, folder, last):
    """Whether the program takes an interrupt of this number: an older one may not."""
    app = write(folder, "app", f"app bench(bits = 4);\ninterrupts {{ A = {last} }}\n")
    return subprocess.run([program, "check", app], capture_output=True, check=False).returncode == 0


def measure_run(program, simulator, folder, irqs, last, name, script):
    """Prints a line, and returns the seconds."""
    app = write(folder, "app", application(irqs, last, name))
    events = write(folder, "script", script)
    listing = output([program, "build", app], os.path.join(folder, "listing"))
    ours = output([program, "run", app, events], os.path.join(folder, "ours"))
    plain = output([simulator, listing, events], os.path.join(folder, "plain"))
    if open(ours, "rb").read() != open(plain, "rb").read():
        sys.exit(f"running.py: the simulator writes another trace, {name}, {irqs} interrupts up to {last}")
    words = [program, "run", app, events]
    seconds, other = processor(TURNS, words, [simulator, listing, events])
    print(
        f"run, {name}, {irqs} interrupts up to {last}, {EVENTS} events: {seconds * 1000:.0f} ms, "
        f"{seconds / other:.2f} times a plain simulator ({other * 1000:.0f} ms); {peak(words, folder)} KiB "
        f"for {os.path.getsize(ours) // 1024} KiB of output"
    )
    return seconds


def measure_memory(program, folder):
    """The peak memory of a short run and of a long one."""
    app = write(folder, "app", application(2, 1, "spinning"))
    sizes = [peak([program, "run", app, write(folder, "script", f"step {n}\n")], folder) for n in (10_000, 1_000_000)]
    print(f"run, spinning: {sizes[0]} KiB for 10000 steps, {sizes[1]} KiB for 1000000")


def rounds_of(program, folder, app):
    """The items of one pend of each task and sixty steps, as `rtic run` has them: the first, and the others by step."""
    once = write(folder, "script", "step 1\npend SLOW\nstep 9\npend FAST\nstep 60\n")
    told = subprocess.run([program, "run", app, once], capture_output=True, check=True).stdout.decode("ascii")
    rows = [line.split(" ", 1) for line in told.split("\ntrace\n")[1].splitlines()]
    return " ".join(rows[0]), [(int(step) - 1, what) for step, what in rows[1:-1]]


def trace_of(program, folder, app, items):
    """A trace of so many items: such rounds, one after the other."""
    first, rounds = rounds_of(program, folder, app)
    lines, at = [first], 1
    while len(lines) < items:
        lines += [f"{at + step} {what}" for step, what in rounds]
        at += 69
    lines = lines[:items]
    return write(folder, "trace", "\n".join(lines) + "\n")


def audit_of(program, app, trace):
    return subprocess.run([program, "audit", app, trace], capture_output=True, check=False).stdout.decode("ascii")


def measure_audit(program, reader, folder, irqs, last, items):
    """Prints a line, and returns the nanoseconds that an item takes."""
    app = write(folder, "app", application(irqs, last, "waiting"))
    trace = trace_of(program, folder, app, items)
    told = audit_of(program, app, trace)
    if told != f"yes {items}\n":
        sys.exit(f"running.py: the audit of {items} items says {told}")
    words = [program, "audit", app, trace]
    seconds, counted, read = processor(TURNS, words, ["wc", "-w", trace], [reader, trace])
    size = os.path.getsize(trace)
    print(
        f"audit, {irqs} interrupts up to {last}, {items} items, {size // 1024} KiB: {seconds * 1000:.0f} ms, "
        f"{seconds / items * 1e9:.0f} ns an item, 1/{seconds / counted:.1f} of the speed of wc -w, "
        f"{seconds / read:.1f} times a plain reader; {peak(words, folder)} KiB"
    )
    return seconds / items


def write_long(folder, name, size, first, rounds, last):
    """A trace of about so many bytes: its path, and how many items it has. The last line is this one."""
    path, items, at = os.path.join(folder, name), 1, 1
    with open(path, "w", encoding="ascii") as to:
        to.write(f"{first}\n")
        while to.tell() < size:
            for _ in range(1000):
                to.write("".join(f"{at + step} {what}\n" for step, what in rounds))
                at += 69
                items += len(rounds)
        to.write(f"{at} {last}\n")
    return path, items + 1


def measure_long_audits(program, folder):
    """The peak memory of audits of a short trace and of a long one, right and with a fault in the last line."""
    app = write(folder, "app", application(2, 1, "waiting"))
    first, rounds = rounds_of(program, folder, app)
    memory = []
    for size in MEGABYTE, 200 * MEGABYTE:
        trace, items = write_long(folder, "long", size, first, rounds, "tick")
        seconds = used([program, "audit", app, trace]).processor
        right = audit_of(program, app, trace)
        memory.append(peak([program, "audit", app, trace], folder))
        wrong = audit_of(program, app, write_long(folder, "long", size, first, rounds, "emit 1")[0])
        if (right, wrong) != (f"yes {items}\n", f"no {items}\n"):
            sys.exit(f"running.py: audits of {items} items say {right} and {wrong}")
        print(f"audit, {items} items, {size // MEGABYTE} MiB: {seconds:.2f} s, {memory[-1]} KiB")
    print(f"audit: {memory[1] - memory[0]} KiB more for two hundred times the trace")


def main(program, simulator, reader, folder):
    busy = "pend SLOW\nstep 9\npend FAST\nstep 29\n" * (EVENTS // 40)
    messages = "pend FAST\nstep 499\n" * (EVENTS // 500)
    for irqs, last in (2, 1), (240, 239), (240, LAST):
        if takes(program, folder, last):
            measure_run(program, simulator, folder, irqs, last, "waiting", f"step {EVENTS}\n")
            measure_run(program, simulator, folder, irqs, last, "spinning", f"step {EVENTS}\n")
            first = measure_run(program, simulator, folder, irqs, last, "busy", busy)
            if irqs > 2:
                late = measure_run(program, simulator, folder, irqs, last, LATE, busy)
                print(f"a run whose served interrupts are declared last takes {late / first:.2f} times the other")
    for irqs, last in (4, 3), (240, 239), (240, LAST):
        if takes(program, folder, last):
            measure_run(program, simulator, folder, irqs, last, "messages", messages)
    timed = f"{TICK * 5}pend CHANGE\n{TICK}" * (EVENTS // 4800)
    for irqs, last in (4, 3), (240, 239), (240, LAST):
        if takes(program, folder, last):
            measure_run(program, simulator, folder, irqs, last, "timed", timed)
    crowd = "".join(f"pend {name}\n" for name in CROWD) + "step 440\n"
    for irqs, last in (len(CROWD), len(CROWD) - 1), (240, 239), (240, LAST):
        if takes(program, folder, last):
            measure_run(program, simulator, folder, irqs, last, "crowded", crowd * (EVENTS // 500))
    measure_memory(program, folder)
    few = measure_audit(program, reader, folder, 2, 1, EVENTS)
    many = measure_audit(program, reader, folder, 240, LAST, EVENTS)
    print(f"an item with 240 declared interrupts takes {many / few:.2f} times one with 2")
    measure_long_audits(program, folder)


main(*sys.argv[1:])
