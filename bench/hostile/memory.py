"""The end of memory: each growth refused in turn, and the address space grown step by step."""
from commands import LARGE, built
from starting import Growths

MEMORY, USAGE = 7, 2
# kibibytes: the steps of the sweep where memory decides, how far after the first whole answer they go on, and how much
# the coarse steps reach, in which the stacks of threads find room or none
STEP, BEHIND, COARSE, LAST = 8, 256, 512, 24 << 10
MOST_GROWTHS = 200_000


def is_out_of_memory(ended):
    """Whether an end is that of used up memory: status 7, and nothing written."""
    return ended.status == MEMORY and not ended.output and not ended.error


def in_turn(ready, growths, told, only):
    """Refuses one growth after another, or each from one on, until a run is not disturbed; answers how many ended with
    7, and how many with the whole answer all the same."""
    ended_by_it = whole = 0
    for number in range(1, MOST_GROWTHS):
        ended, asked, _bytes = growths.ended(ready.words, number, number if only else growths.ALL)
        if is_out_of_memory(ended):
            ended_by_it += 1
        elif ready.is_whole(ended):
            whole += 1
        else:
            told.differs(f"growth {number} refused: {' '.join(ready.words[:1])}: status {ended.status}, "
                         f"{len(ended.output)} bytes")
        if asked < number:
            return ended_by_it, whole - 1
    told.differs(f"{ready.command.word}: {MOST_GROWTHS} growths, and no end")
    return ended_by_it, whole


def refuse_first(ready, growths, told):
    """How many growths a command asks for, and of how many bytes, where it has no memory if the first is refused."""
    ended, asked, size = growths.ended(ready.words)
    if not ready.is_whole(ended):
        told.differs(f"{ready.command.word}: counted growths change the answer")
    for until in (1, growths.ALL):
        first, _asked, _bytes = growths.ended(ready.words, 1, until)
        if asked == 0 or not is_out_of_memory(first):
            told.differs(f"{ready.command.word}: the first of {asked} growths refused: status {first.status}, "
                         f"{len(first.output)} bytes")
            return 0, 0
    return asked, size


def refuse_growths(commands, starter, told):
    """Each growth of each command refused in turn, once it is shown that its memory comes from there."""
    growths = Growths(starter)
    for ready in commands:
        asked, size = refuse_first(ready, growths, told)
        if asked == 0:
            continue
        one, whole = in_turn(ready, growths, told, only=True)
        rest, rest_whole = in_turn(ready, growths, told, only=False)
        told.says(f"growths: {ready.command.word}: {asked} of {size} bytes; each refused alone: {one} times status 7, "
                  f"{whole} times the whole answer; from each one on: {rest} times 7, {rest_whole} times whole")


def limited(starter, words, kibibytes):
    """How the program ends in so much address space."""
    return starter.ended(words, wrapper=("/bin/sh", "-c", f'ulimit -v {kibibytes}; exec "$0" "$@"'))


def least_for_usage(starter):
    """The least address space, in kibibytes, in which the usage line is written."""
    whole = starter.ended([])
    low, high = 0, LAST
    while high - low > 1:
        middle = (low + high) // 2
        if limited(starter, [], middle) == whole:
            high = middle
        else:
            low = middle
    return high


def sweep_space(starter, told, chosen=LARGE):
    """The address space of each command on a large application, from the least at which the usage line is written."""
    commands, _unknown = built(starter, chosen)
    least = least_for_usage(starter)
    told.says(f"address space: the usage line needs {least} KiB")
    for ready in commands:
        counts, first = {MEMORY: 0, ready.answer.status: 0}, None
        space = least
        while space <= LAST:
            ended = limited(starter, ready.words, space)
            if is_out_of_memory(ended):
                counts[MEMORY] += 1
            elif ready.is_whole(ended):
                counts[ready.answer.status] += 1
                first = first or space
            else:
                told.differs(f"{ready.command.word} in {space} KiB: status {ended.status}, {len(ended.output)} bytes, "
                             f"{ended.error[:80]!r}")
            space += STEP if first is None or space < first + BEHIND else COARSE
        told.says(f"address space: {ready.command.word}: {counts[MEMORY]} times status 7, "
                  f"{counts[ready.answer.status]} times the whole answer, first in {first} KiB")
