#!/usr/bin/env python3
"""Prints the times of `rtic live` and `rtic soak` beside plain peers with the same threads.

    python3 beside.py PROGRAM PEER FOLDER

PROGRAM is rtic, PEER is bench/beside.rs, FOLDER takes the texts. The programs take turns, and the median of seven turns
counts. Beside a peer it is processor time, of all threads together; how much faster more workers are is time by the
clock, which a busy machine stretches: so the load is said. What `soak` writes is compared byte for byte, for each
number of workers; of `live`, where the moment of a pend is free, the total and the pends of each interrupt are
compared.
"""

import os
import subprocess
import sys

from timing import load, medians, processor

TURNS = 7
RUNS = 1000
NUMBER = 7
DEVICES = """\
device 0 pend SLOW {0}
device 1 pend FAST {0}
device 2 pend SLOW {0}
device 3 pend FAST {0}
step {1}
"""
HEAD = """\
app bench(bits = 4);
interrupts { SLOW = 3, FAST = 40 }
shared { low = 1, high = 2 }
local { turns = 0 }
"""
IDLE = "idle(shared = [low], local = [turns]) { lock low { turns = turns + low; } }\n"
TASKS = """\
task slow(binds = SLOW, priority = 1, shared = [low, high]) {
    lock low {
        low = 1;
        for i in 0..4 { low = low + i; }
        lock high { high = low; }
        emit low;
    }
}
task fast(binds = FAST, priority = 2, shared = [high]) { lock high { high = 6; emit high; } }
"""


def write(folder, name, text):
    path = os.path.join(folder, name)
    with open(path, "w", encoding="ascii") as to:
        to.write(text)
    return path


def told(words):
    return subprocess.run(words, capture_output=True, check=True).stdout.decode("ascii")


def listing_of(program, folder, app):
    return write(folder, "listing", told([program, "build", app]))


def end_of(output):
    """The total, and of each interrupt its pends and whether it was latched as often as raised and nothing is left."""
    total, *account = output[output.rindex("\ntotal ") + 1 :].splitlines()
    rows = []
    for line in account:
        _, name, raised, merged, latched, left = line.split()
        rows.append((name, int(raised) + int(merged), raised == latched, left))
    return total, rows


def measure_live(program, peer, folder, pends, steps, idle):
    """Prints a line: the thread has this body, or waits where there is none."""
    app = write(folder, "app", HEAD + idle + TASKS)
    script = write(folder, "script", DEVICES.format(pends, steps))
    listing = listing_of(program, folder, app)
    ours, plain = [program, "live", app, script], [peer, "live", listing, script]
    if end_of(told(ours)) != end_of(told(plain)):
        sys.exit("beside.py: the peer's total or account is another one")
    seconds, other = processor(TURNS, ours, plain)
    print(
        f"live, {'busy' if idle else 'waiting'}, 4 devices of {pends} pends, {2 * steps} steps: "
        f"{seconds * 1000:.0f} ms, {seconds / other:.2f} times a plain program ({other * 1000:.0f} ms)"
    )


def measure_soak(program, peer, folder):
    app = write(folder, "app", told([program, "demo", "48"]))
    listing = listing_of(program, folder, app)
    workers = sorted({1, 2, 4, 64, os.cpu_count()})
    soaks = [[program, "soak", app, str(NUMBER), str(RUNS), str(n)] for n in workers]
    plain = [peer, "soak", listing, str(NUMBER), str(RUNS), "1"]
    wanted = told(plain)
    for words in soaks:
        if told(words) != wanted:
            sys.exit(f"beside.py: {' '.join(words[2:])} counts otherwise than the peer")
    *times, other = medians(TURNS, *soaks, plain)
    one, all_ = times[0], times[workers.index(os.cpu_count())]
    print(
        f"soak, demo 48, {RUNS} runs: {one.processor * 1000:.0f} ms with one worker, "
        f"{one.processor / other.processor:.2f} times a plain simulator without text ({other.processor * 1000:.0f} ms)"
    )
    print(
        f"soak with {os.cpu_count()} workers: by the clock {all_.clock * 1000:.0f} ms, {one.clock / all_.clock:.2f} "
        f"times as fast as with one ({load()}); of a processor {all_.processor / one.processor:.2f} times as much; "
        f"the same bytes with {', '.join(map(str, workers))}"
    )


def main(program, peer, folder):
    measure_live(program, peer, folder, 10_000, 480_000, IDLE)
    measure_live(program, peer, folder, 100_000, 300_000, IDLE)
    measure_live(program, peer, folder, 10_000, 480_000, "")
    measure_soak(program, peer, folder)


main(*sys.argv[1:])
