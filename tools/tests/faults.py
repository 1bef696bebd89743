#!/usr/bin/env python3
"""Runs bench/faults and bench/stack as a person does: two parts one after the other find no difference in the program,
each command has its whole answer in little stack, and programs that are wrong on purpose are found out.

The program is that of RTIC, or the proved one where ./build or the gate has made it; without one nothing is run."""
import os
import subprocess
import sys
import tempfile

TOOLS = os.path.dirname(os.path.dirname(os.path.abspath(__file__)))
BENCH = os.path.join(os.path.dirname(TOOLS), "bench")
sys.dont_write_bytecode = True
sys.path.insert(0, TOOLS)

from explaining.program import asked_program

SECONDS = 600
# in the order in which they come where no part is named
PARTS = ("space", "outside")
CHOSEN = ("--command", "check", "--command", "run")
# wrong programs, and what finds them
ENDS_WELL = '"{program}" "$@" || true'
TALKS = 'echo wrong >&2\nexec "{program}" "$@"'
NEEDS_MORE = '[ "$(ulimit -s)" != 128 ] || kill -SEGV $$\nexec "{program}" "$@"'
WRONG = {
    "a program that always ends with 0": (ENDS_WELL, "faults", (*CHOSEN, "outside")),
    "a program that writes on standard error": (TALKS, "faults", ("--command", "check", "--texts", "20", "texts")),
    "a program that needs more stack": (NEEDS_MORE, "stack", ()),
}


def ended(script, words, program):
    """The status of a script of bench/, and the lines that it wrote."""
    command = [os.path.join(BENCH, script), "--program", program, *words]
    done = subprocess.run(command, stdin=subprocess.DEVNULL, stdout=subprocess.PIPE, stderr=subprocess.STDOUT,
                          text=True, timeout=SECONDS, check=False)
    return done.returncode, done.stdout.splitlines()


def right_faults(program):
    """What is amiss where the program is the right one."""
    status, lines = ended("faults", (*CHOSEN, *PARTS), program)
    begun = [line.split(":")[0] for line in lines if line.split(":")[0] in PARTS]
    if status or begun != list(PARTS) or not lines[-1].endswith(" starts, 0 differences"):
        yield f"bench/faults on the right program: status {status}, {lines[-3:]}"
    status, lines = ended("stack", (), program)
    if status or len(lines) < 2:
        yield f"bench/stack on the right program: status {status}, {[line for line in lines if 'FAILS' in line]}"


def wrong_faults(program, folder):
    """The wrong programs that are not found out."""
    for number, (name, (text, script, words)) in enumerate(WRONG.items()):
        path = os.path.join(folder, f"wrong{number}")
        with open(path, "w", encoding="utf8") as to:
            to.write("#!/bin/sh\n" + text.format(program=program) + "\n")
        os.chmod(path, 0o700)
        status, lines = ended(script, words, path)
        if status != 1:
            yield f"{name} is not found out: status {status}, {lines[-3:]}"


def main():
    """Ends with 1 where anything is amiss."""
    program = asked_program()
    if program is None:
        print("faults: skipped: the proved program is not built (./build makes it), and RTIC names no other")
        return 0
    with tempfile.TemporaryDirectory(prefix="rtic-faults-test-") as folder:
        faults = [*right_faults(os.path.abspath(program)), *wrong_faults(os.path.abspath(program), folder)]
    for fault in faults:
        print(f"faults: {fault}")
    print(f"faults: {len(PARTS)} parts of bench/faults, bench/stack, and {len(WRONG)} wrong programs")
    return 1 if faults else 0


if __name__ == "__main__":
    sys.exit(main())
