#!/usr/bin/env python3
"""Runs every command that README shows after a `$`, and compares what it writes with the lines below it; and looks for
the lines of output that three more documents quote in what the examples write.

Further documents may be named. The program is the one that the other tests of the tools try: that of RTIC, or the
proved one where ./build or the gate has made it; without one the commands are not run, and this says so."""
import os
import sys

TOOLS = os.path.dirname(os.path.dirname(os.path.abspath(__file__)))
sys.dont_write_bytecode = True
sys.path.insert(0, TOOLS)

from documenting.commands import commands, faults_of, quotes_amiss
from documenting.page import Page
from explaining.program import asked_program

DOCUMENTS = ["README.md"]
PLANTED = [
    "    $ ./rtic demo 1\n    app nothing\n",
    "    $ ./rtic nothing\n",
    "    $ ./rtic demo 1  # status 4\n",
    "    $ ./build_nothing\n",
    "    $ ./rtic demo 1\n    ..\n    no such last line\n",
]


def main():
    """Ends with 1 where a command writes something else, or a planted fault is not seen."""
    program = asked_program()
    if program is None:
        count = sum(len(block) for path in DOCUMENTS for block in commands(Page(path)))
        missing = "the proved program is not built (./build makes it), and RTIC names no other"
        print(f"shown: skipped: {count} commands, because {missing}")
        return 0
    faults = [f"not seen: {text}" for text in PLANTED if not faults_of("README.md", program, text)[-1]]
    run, left_out, lacking = 0, [], []
    for path in sys.argv[1:] or DOCUMENTS:
        ran, left, lacks, found = faults_of(path, program)
        run, left_out, lacking, faults = run + ran, left_out + left, lacking + lacks, faults + found
    quoted, found = quotes_amiss(program)
    faults += found
    if lacking:
        print(f"shown: skipped in part: what needs {' and '.join(sorted(set(lacking)))}, because that is not there")
    print("\n".join(faults) + "\n" * bool(faults), end="")
    print(f"shown: {run} commands run, {quoted} lines of output found, {len(PLANTED)} planted faults tried;"
          f" too long for a test: {', '.join(left_out)}")
    return 1 if faults else 0


if __name__ == "__main__":
    sys.exit(main())
