#!/usr/bin/env python3
"""Runs the program itself with words, files and standard output: rows of the tables of commands, words that are no
text, texts and an output that fail, reads, writes and memory that a library in front of the C library's disturbs, and
each command in little stack.

The program is the one that the other tests of the tools try: that of RTIC, or the proved one where ./build or the gate
has made it; without one nothing is run, and without gcc no read, write or growth is disturbed, and this says so. The
parts are those of bench/faults, which goes through all growths, and through texts made by chance."""
import os
import shutil
import sys

TOOLS = os.path.dirname(os.path.dirname(os.path.abspath(__file__)))
sys.dont_write_bytecode = True
sys.path[:0] = [TOOLS, os.path.join(os.path.dirname(TOOLS), "bench", "hostile")]

import commands
import memory
import outside
import reads
import tables
import writes
from explaining.program import asked_program
from starting import Growths, Starter, Told, with_little_stack

# the statuses that have to be seen of these commands
SEEN = {"live": {0, 1, 2, 3, 5, 6}, "pair": {0, 1, 2, 3, 5, 6}, "audit": {4}}
DISTURBED = {"live": {7}, "pair": {7}}
# the kibibytes of stack in which each command ends
STACK = 128


def strange_words(starter, told):
    """Words that are no text count as no words: the usage line is written."""
    usage = starter.ended([])
    if usage.status != 2 or not usage.output.startswith(b"usage: rtic run APP SCRIPT |"):
        told.differs(f"no words: status {usage.status}, {usage.output[:80]!r}")
    for words in (["live", b"\xff", "script"], [b"pair\xc3", "app", "second", "script"]):
        if starter.ended(words) != usage:
            told.differs(f"the words {words}: not the usage line")


def no_memory(known, starter, told):
    """The first growth of memory is refused, alone or with all others; and each, where no text is read. The first ones
    are those of the words."""
    growths = Growths(starter)
    for ready in known:
        memory.refuse_first(ready, growths, told)
    told.says(f"memory: {len(known)} commands whose first growth is refused: status {memory.MEMORY}, nothing written")
    memory.refuse_growths([ready for ready in known if not ready.command.files], starter, told)


def unseen(starter, wanted):
    """The statuses that are wanted of commands and were not seen."""
    return [f"{word} {status}" for word, statuses in wanted.items() for status in sorted(statuses)
            if (word, status) not in starter.statuses]


def try_all(starter, told):
    """Each part in turn."""
    known, unknown = commands.built(starter)
    tables.rows_on_files(starter, told)
    strange_words(starter, told)
    outside.all_faults(known, starter, told)
    missing = unseen(starter, SEEN)
    if shutil.which("gcc"):
        no_memory(known, starter, told)
        reads.disturb_all(known, starter, told)
        writes.disturb_all(known, starter, told)
        missing += unseen(starter, DISTURBED)
    else:
        told.says("program: skipped in part: gcc is not there, so no read, write or growth is disturbed")
    if unknown or missing:
        told.differs(f"commands that are not known: {unknown}; statuses that were not seen: {missing}")


def try_little_stack(starter, told):
    """Each command, on small texts and on large ones."""
    for chosen in (commands.COMMANDS, commands.LARGE):
        known, failed = commands.built(starter, chosen)
        told.says(f"stack: {len(known)} commands in {STACK} KiB")
        if failed:
            told.differs(f"commands that do not end well in {STACK} KiB of stack: {failed}")


def main():
    """Ends with 1 where anything differs."""
    program = asked_program()
    if program is None:
        print("program: skipped: the proved program is not built (./build makes it), and RTIC names no other")
        return 0
    told, starter = Told(), Starter(program)
    with_little_stack(0, starter, lambda: try_all(starter, told))
    with_little_stack(STACK, starter, lambda: try_little_stack(starter, told))
    starter.folder.cleanup()
    print(f"program: {starter.starts} starts, {told.differences} differences")
    return 1 if told.differences else 0


if __name__ == "__main__":
    sys.exit(main())
