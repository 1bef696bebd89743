#!/usr/bin/env python3
"""Prints what the launcher takes over the program that it starts.

    python3 launching.py LAUNCHER PROGRAM

Both write an application of one task. Times are processor time, in the median of a hundred turns of the two; the first
call of the launcher, which may look at more, is made before them.
"""

import sys

from timing import processor, used

TURNS = 100
WORDS = ["demo", "1"]


def main(launcher, program):
    used([launcher, *WORDS])
    whole, alone = processor(TURNS, [launcher, *WORDS], [program, *WORDS])
    print(f"the launcher takes {(whole - alone) * 1000:.1f} ms over the program ({alone * 1000:.1f} ms)")


main(*sys.argv[1:])
