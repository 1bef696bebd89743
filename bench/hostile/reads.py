"""Reads of each text of each command: few bytes at a time, and one of them that fails or finds the end of the file."""
from itertools import count

from commands import fixed
from starting import Reads

READ = 5
# bytes that a read moves at most, 0 for as many as the program asks for
PIECES = (0, 100)


def is_failed(ended):
    """Whether an end is that of a failed read: status 5, and nothing written."""
    return ended.status == READ and not ended.output and not ended.error


def cut_answer(ready, place, size):
    """How a command ends where the text at a place of its words has its first bytes alone, so many."""
    text = ready.starter.read(ready.words[place])[:size]
    return ready.starter.ended(ready.words[:place] + [ready.starter.write("cut", text)] + ready.words[place + 1:])


def are_same(ready, one, other):
    """Whether two ends are the same, but for the trace where that is free."""
    if ready.command.free:
        return (one.status, one.error, fixed(one.output)) == (other.status, other.error, fixed(other.output))
    return one == other


def disturb(ready, place, most, reads, told):
    """Lets each read of a text in turn fail, and find the end, until a run makes no such read; answers how many."""
    path, name = ready.words[place], f"{ready.command.word}, text {place}, {most} bytes a read"
    for number in count(1):
        failed, asked, _before = reads.ended(ready.words, path, most, number, reads.FAILS)
        if asked < number:
            if not ready.is_whole(failed):
                told.differs(f"{name}: status {failed.status}, {failed.error[:80]!r}")
            return number - 1
        if not is_failed(failed):
            told.differs(f"{name}, number {number} fails: status {failed.status}, {len(failed.output)} bytes")
        ended, _asked, before = reads.ended(ready.words, path, most, number, reads.ENDS)
        if not are_same(ready, ended, cut_answer(ready, place, before)):
            told.differs(f"{name}, number {number} finds the end: status {ended.status}, {ended.output[:80]!r}")


def disturb_all(commands, starter, told):
    """Disturbs the reads of each text of each command."""
    reads, tried = Reads(starter), 0
    for ready in commands:
        for place in range(1, 1 + len(ready.command.files)):
            ended, _asked, _before = reads.ended(ready.words, ready.words[place], 1)
            if not ready.is_whole(ended):
                told.differs(f"{ready.command.word}, text {place} byte by byte: status {ended.status}")
            found = [disturb(ready, place, most, reads, told) for most in PIECES]
            if 0 in found:
                told.differs(f"{ready.command.word}: its text {place} is not read by the call that is disturbed")
            tried += sum(found)
    told.says(f"input: {tried} reads, each of which fails, with status {READ}, and finds the end, with the answer to"
              " the text that is cut there")
