"""Writes of each command: one byte at a time, and one of them that fails."""
from itertools import count

from starting import Writes

WRITE = 6


def is_failed(ready, ended):
    """Whether an end is that of a failed write: status 6, and a beginning was taken, not all of the answer."""
    is_part = ready.command.free or len(ended.output) < len(ready.answer.output)
    return ended.status == WRITE and not ended.error and is_part and ready.is_beginning(ended.output)


def disturb(ready, writes, told):
    """Lets each write of a command in turn fail, until a run makes no such write; answers how many there are."""
    for number in count(1):
        ended, asked = writes.ended(ready.words, 0, number)
        if asked < number:
            if not ready.is_whole(ended):
                told.differs(f"{ready.command.word}: status {ended.status}, {ended.error[:80]!r}")
            return number - 1
        if not is_failed(ready, ended):
            told.differs(f"{ready.command.word}, write {number} fails: status {ended.status}, "
                         f"{len(ended.output)} bytes")


def disturb_all(commands, starter, told):
    """Disturbs the writes of each command."""
    writes, tried = Writes(starter), 0
    for ready in commands:
        ended, asked = writes.ended(ready.words, 1)
        if not ready.is_whole(ended):
            told.differs(f"{ready.command.word} writes byte by byte: status {ended.status}")
        if asked < len(ready.answer.output) and not ready.command.free:
            told.differs(f"{ready.command.word}: it does not write by the call that is disturbed")
        tried += disturb(ready, writes, told)
    told.says(f"output: {tried} writes, each of which fails: status {WRITE}, and a beginning was taken")
