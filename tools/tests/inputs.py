#!/usr/bin/env python3
"""Runs the examples that have a board: what devices wrote and what was emitted is, item by item, what
examples/NAME.values has from an independent implementation (`bench/inputs run`); and the traces are judged right, and
without an input wrong. Beside a device that gives words in a thread of its own, the handler finds words that were
given, each later than the one before, and the last of all at the end.

The program is that of RTICX, or the second one where ./build or the gate has made it; without one nothing is run."""
import pathlib
import subprocess
import sys
import tempfile

TOOLS = pathlib.Path(__file__).resolve().parents[1]
EXAMPLES = TOOLS.parent / "examples"
sys.dont_write_bytecode = True
sys.path.insert(0, str(TOOLS))

from explaining.program import asked_program

NAMES = ("uart", "debounce", "filter")
SHOWN = ("input", "emit")
# the example whose device gives words in a thread: how many it gives, from 0 on
LIVE, SCRIPT, GIVEN = "uart", "stream.script", 20_000


def told(program, *words):
    """The status and the output of the program."""
    done = subprocess.run([program, *map(str, words)], capture_output=True, check=False)
    return done.returncode, done.stdout.decode("ascii")


def faults_of(program, name, folder):
    """What is not as it is to be of an example."""
    app, board, script = (EXAMPLES / f"{name}.{ending}" for ending in ("rtic", "board", "script"))
    status, output = told(program, "run", app, board, script)
    lines = output.partition("\ntrace\n")[2].splitlines(keepends=True)
    values = "".join(line.partition(" ")[2] for line in lines if line.split()[1] in SHOWN)
    if status != 0 or values != (EXAMPLES / f"{name}.values").read_text(encoding="ascii"):
        yield f"{name}: status {status}, values {values[:80]!r}"
    trace = folder / "trace"
    trace.write_text("".join(lines), encoding="ascii")
    status, answer = told(program, "audit", app, board, trace)
    if (status, answer) != (0, f"yes {len(lines) - 1}\n"):
        yield f"{name}: the trace is judged {status} {answer!r}"
    first = next((at for at, line in enumerate(lines) if line.split()[1:2] == ["input"]), 0)
    trace.write_text("".join(lines[:first] + lines[first + 1:]), encoding="ascii")
    status, answer = told(program, "audit", app, board, trace)
    if (status, answer) != (4, f"no {first + 1}\n"):
        yield f"{name}: the trace without its first input is judged {status} {answer!r}"


def live_faults(program, folder):
    """What is not as it is to be of the example beside a device in a thread."""
    app, board = (EXAMPLES / f"{LIVE}.{ending}" for ending in ("rtic", "board"))
    status, output = told(program, "live", app, board, EXAMPLES / SCRIPT)
    trace = output.partition("\ntrace\n")[2].splitlines()
    found = [int(line.split()[3]) for line in trace if line.split()[1] == "input"]
    if status != 0 or found != sorted(set(found)) or found[-1:] != [GIVEN - 1]:
        yield f"{SCRIPT}: status {status}, the handler finds {found[:20]}"
    account = [[int(word) for word in line.split()[2:]] for line in trace if line.startswith("account UART0 ")]
    if [(raised + merged, latched - raised, left) for raised, merged, latched, left in account] != [(GIVEN, 0, 0)]:
        yield f"{SCRIPT}: the account is {account}"
    path = folder / "live"
    path.write_text(output, encoding="ascii")
    status, answer = told(program, "audit", app, board, path)
    if (status, answer) != (0, f"yes {sum(line[0].isdigit() for line in trace)}\n"):
        yield f"{SCRIPT}: what was written is judged {status} {answer!r}"


def main():
    """Ends with 1 where an example is not as it is to be."""
    program = asked_program("rticx")
    if program is None:
        print("inputs: skipped: the second program is not built (./build makes it), and RTICX names no other")
        return 0
    with tempfile.TemporaryDirectory() as folder:
        faults = [fault for name in NAMES for fault in faults_of(program, name, pathlib.Path(folder))]
        faults += live_faults(program, pathlib.Path(folder))
    for fault in faults:
        print("inputs: wrong:", fault)
    print(f"inputs: {len(NAMES) + 1} examples,", "wrong" if faults else "as expected")
    return 1 if faults else 0


if __name__ == "__main__":
    sys.exit(main())
