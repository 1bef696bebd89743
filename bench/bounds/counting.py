"""Loops of a listing that count, by their definition, and the longest ways on which each turns as often as it does: every
situation is tried, a situation being an address and how often the jump of each loop may still go on.

It shares nothing with the program: sources of addresses are sets, constants are found by going back over lines, turns by
counting, and no loop is folded.
"""

import collections

Loop = collections.namedtuple("Loop", "first last head jump stay out turns")
COMPARED = {"eq": lambda a, b: a == b, "ne": lambda a, b: a != b, "lt": lambda a, b: a < b, "le": lambda a, b: a <= b,
            "gt": lambda a, b: a > b, "ge": lambda a, b: a >= b}
WRITERS = {"set", "copy", "load", "loadat", "clock", "raise", "mask", "add", "sub", "mul", "div", "rem", "and", "or",
           "xor", "shl", "shr", *COMPARED}
WORD, MOST_TURNS = 2 ** 32, 5_000
ENDS = {"ret", "back", "call"}


class Code:
    """The code of one owner: its lines, what is open at each address that it comes to, and where it begins."""

    def __init__(self, lines, inside, begins, is_init, exits):
        self.lines, self.inside, self.begins, self.is_init = lines, inside, set(begins), is_init
        self.onward = {a: [] if self.ends(a) else sorted(set(exits(lines, a))) for a in inside}
        self.sources = collections.defaultdict(set)
        for address, tos in self.onward.items():
            for to in tos:
                self.sources[to].add(address)

    def ends(self, address):
        return self.is_init and self.lines[address].word == "serve"

    def only_from(self, source, address):
        return address not in self.begins and self.sources[address] == {source}

    def writes(self, address, slot):
        line = self.lines[address]
        return line.word in WRITERS and line.numbers[0] == slot

    def held_after(self, address, slot):
        """What a slot holds after a line, where that is a constant."""
        while not self.writes(address, slot):
            if not self.only_from(address - 1, address):
                return None
            address -= 1
        line = self.lines[address]
        return line.numbers[1] if line.word == "set" else None

    def held_at(self, address, slot):
        return self.held_after(address - 1, slot) if self.only_from(address - 1, address) else None


def shaped(code, first, last):
    """The head, the jump, where it goes on and where it leads out, of lines with one way in and one way out."""
    lines = {a for a in range(first, last + 1) if a in code.inside}
    heads = {a for a in lines if first - 1 in code.sources[a]}
    if lines & code.begins or len(heads) != 1 or any(code.sources[a] - lines - {first - 1} for a in lines):
        return None
    ways_out = {(a, to) for a in lines for to in code.onward[a] if to not in lines}
    if len(ways_out) != 1 or any(not code.onward[a] for a in lines):
        return None
    (jump, out), = ways_out
    stays = [to for to in code.onward[jump] if to in lines]
    if len(stays) != 1 or any(len(code.inside[a]) < len(code.inside[jump]) for a in lines):
        return None
    return lines, heads.pop(), jump, stays[0], out


def phases(code, lines, head, jump, change):
    """Whether the counter changes once in each turn, lines being passed in the order of their addresses, round and round."""
    span = max(lines) + 1
    changed = {a: 0 < (a - change) % span <= (jump - change) % span for a in lines}
    for a in lines:
        after = True if a == change else False if a == jump else changed[a]
        if any(changed[to] != after for to in code.onward[a] if to in lines):
            return False
    return changed[head]


def tests(code, lines, first, jump):
    """Each pair of a slot that may count and a function from its value to what the jump looks at."""
    slot = code.lines[jump].numbers[0]
    yield slot, lambda value: value
    line = code.lines[jump - 1] if jump else None
    if not line or not code.only_from(jump - 1, jump) or line.word not in COMPARED or line.numbers[0] != slot:
        return
    compare, (_, one, other) = COMPARED[line.word], line.numbers
    limit = constant(code, lines, first, jump - 1, other)
    if limit is not None:
        yield one, lambda value: int(compare(value, limit))
    mark = constant(code, lines, first, jump - 1, one)
    if mark is not None:
        yield other, lambda value: int(compare(mark, value))


def constant(code, lines, first, address, slot):
    """What a slot holds at an address of a loop, where that is a constant."""
    value = code.held_at(address, slot)
    if value is None and not any(code.writes(a, slot) for a in lines):
        value = code.held_after(first - 1, slot)
    return value


def changing(code, lines, first, counter):
    """The line that changes a counter, and by how much, where it is one line."""
    writers = [a for a in lines if code.writes(a, counter)]
    if len(writers) != 1:
        return None
    line = code.lines[writers[0]]
    if line.word not in ("add", "sub") or counter not in line.numbers[1:]:
        return None
    if line.word == "sub" and line.numbers[1] != counter:
        return None
    by = line.numbers[2] if line.numbers[1] == counter else line.numbers[1]
    step = constant(code, lines, first, writers[0], by)
    return None if step is None else (writers[0], step if line.word == "add" else -step)


def counted(start, step, test, jump, stay, to):
    """How often a jump goes on before it leads out, where no value wraps."""
    goes_on = lambda value: (to if test(value) == 0 else jump + 1) == stay
    value = start
    for turns in range(MOST_TURNS):
        if not goes_on(value):
            return turns
        value += step
        if not 0 <= value < WORD or step == 0:
            return None
    # the constants of listings that are tried are smaller: it has passed them all
    return None


def loop_at(code, last):
    """The loop that a line jumps back in, if it counts."""
    line = code.lines[last]
    if line.word not in ("jump", "jumpz") or line.numbers[-1] > last or line.numbers[-1] == 0:
        return None
    first = line.numbers[-1]
    shape = shaped(code, first, last)
    if shape is None:
        return None
    lines, head, jump, stay, out = shape
    for counter, test in tests(code, lines, first, jump):
        change = changing(code, lines, first, counter)
        start = code.held_after(first - 1, counter)
        if change and start is not None and phases(code, lines, head, jump, change[0]):
            turns = counted(start, change[1], test, jump, stay, code.lines[jump].numbers[1])
            if turns is not None:
                return Loop(first, last, head, jump, stay, out, turns)
    return None


def counting_loops(code):
    found = [loop_at(code, last) for last in sorted(code.inside)]
    return [loop for loop in found if loop]


def steps(code, loops, depth, situation):
    """The situations that one leads to, where at least so many sections are open."""
    address, left = situation
    for to in code.onward[address]:
        if len(code.inside[to]) < depth:
            continue
        after = list(left)
        for number, loop in enumerate(loops):
            if address == loop.jump:
                after[number] = left[number] - 1 if to == loop.stay else loop.turns
        if min(after, default=0) >= 0:
            yield to, tuple(after)


def longest(code, loops, depth, start):
    """The longest way from an address on which loops turn no more often than they do, or None where there is none."""
    loops = [loop for loop in loops if loop.turns or True]
    first = (start, tuple(loop.turns for loop in loops))
    known, open_now, trail = {}, {first}, [(first, steps(code, loops, depth, first), 0)]
    while trail:
        situation, onward, most = trail.pop()
        to = next(onward, None)
        if to is None:
            open_now.discard(situation)
            known[situation] = most + 1
            if trail:
                above, rest, so_far = trail.pop()
                trail.append((above, rest, max(so_far, most + 1)))
        elif to in open_now:
            return None
        elif to in known:
            trail.append((situation, onward, max(most, known[to])))
        else:
            trail.append((situation, onward, most))
            open_now.add(to)
            trail.append((to, steps(code, loops, depth, to), 0))
    return known[first]
