"""The bounds of a listing that keeps the rules, found by trying all situations: addresses, with the turns that loops which
count have left.

It reads the listing itself and shares no text with the program or with bench/witness. A bound is a number, or the set
of the addresses at which a loop can be told.
"""

import collections

from counting import Code, counting_loops, longest

Line = collections.namedtuple("Line", "word numbers note")
Row = collections.namedtuple("Row", "name number value entry frame")
ENTRY_WORDS = {1: 8, 2: 26}


def read(text):
    """The numbers of the first line, the rows of interrupts and the code."""
    head, rows, code = None, [], []
    for line in text.splitlines():
        words = line.split(" ")
        if words[0] == "image":
            head = [int(word) for word in words[1:]]
        elif words[0] == "irq":
            enabled = words[3] != "-"
            rows.append(Row(words[1], *(int(word) for word in words[2:6])) if enabled else None)
        elif words[0] == "code":
            front, _, note = line.partition(" ; ")
            parts = front.split(" ")[2:]
            numbers = [int(part) for part in parts[1:] if part.isdigit()]
            code.append(Line(parts[0], numbers, note.split(" ")))
    return head, rows, code


def exits(code, address):
    line = code[address]
    if line.word == "jump":
        return [line.numbers[0]]
    if line.word == "jumpz":
        return [address + 1, line.numbers[1]]
    if line.word == "wait":
        return [address]
    return [] if line.word in ("ret", "call", "back") else [address + 1]


def behind(line, inside):
    """What is open behind a line, outermost first."""
    if line.note[0] == "enter":
        return inside + ((line.note[1], line.word, tuple(line.numbers)),)
    return inside[:-1] if line.note[0] == "leave" else inside


def explore(code, starts, is_init):
    """What is open at each address that is come to, and where `init` ends."""
    inside, todo, ended = dict(starts), collections.deque(starts), []
    while todo:
        address = todo.popleft()
        line = code[address]
        for to in exits(code, address):
            after = behind(line, inside[address])
            if is_init and line.word == "serve":
                ended.append((to, after))
            elif to not in inside:
                inside[to] = after
                todo.append(to)
    return inside, ended


def region(code, depth):
    """What each address leads to, where at least so many sections are open."""
    return {address: [to for to in tos if len(code.inside[to]) >= depth] for address, tos in code.onward.items()}


def reachable(onward, starts):
    seen, todo = set(starts), list(starts)
    while todo:
        for to in onward[todo.pop()]:
            if to not in seen:
                seen.add(to)
                todo.append(to)
    return seen


def bound(code, loops, depth, address):
    """The longest way from an address, or the addresses that are come to and from there come to again."""
    found = longest(code, loops, depth, address)
    if found is not None:
        return found
    onward = region(code, depth)
    return {place for place in reachable(onward, [address]) if place in reachable(onward, onward[place])}


def worse(one, other):
    if one is None:
        return other
    if isinstance(one, set) or isinstance(other, set):
        return (one if isinstance(one, set) else set()) | (other if isinstance(other, set) else set())
    return max(one, other)


def value_inside(value, inside):
    """The execution priority, as a value."""
    for _, word, numbers in inside:
        value = min(value, {"raise": numbers[-1] if numbers else 0, "mask": 0}.get(word, value))
    return value


class Bounds:
    """The bounds of an image."""

    def __init__(self, text):
        self.head, self.rows, self.code = read(text)
        self.bits, self.thread_words = self.head[1], self.head[3]
        self.sections, self.handlers = collections.OrderedDict(), []
        self.values = sorted({row.value for row in self.rows if row}, reverse=True)
        self.waits = {value: None for value in self.values}
        inside, ended = explore(self.code, {0: ()}, True)
        self.init = self.take(("init",), 0, Code(self.code, inside, [0], True, exits), 0)
        if ended:
            inside, _ = explore(self.code, dict(ended), False)
            self.take(("thread",), 256, Code(self.code, inside, dict(ended), False, exits), None)
        for row in self.rows:
            if row:
                inside, _ = explore(self.code, {row.entry: ()}, False)
                code = Code(self.code, inside, [row.entry], False, exits)
                self.handlers.append((row.name, self.take(("handler", row.name), row.value, code, row.entry)))

    def take(self, owner, value, code, entry):
        """The sections of an owner, and its bound where it has one."""
        loops, inside = counting_loops(code), code.inside
        for address in sorted(inside, key=lambda place: (len(inside[place]), place)):
            line, here = self.code[address], inside[address]
            if line.note[0] != "enter":
                continue
            found = bound(code, loops, len(here) + 1, address)
            key = (*owner, line.note[1])
            self.sections[key] = worse(self.sections.get(key), found)
            before, after = value_inside(value, here), value_inside(value, behind(line, here))
            for held in self.values:
                if after <= held < before:
                    self.waits[held] = worse(self.waits[held], found)
        return None if entry is None else bound(code, loops, 0, entry)

    def stack(self):
        entry = ENTRY_WORDS[self.head[0]]
        need = 4 * self.thread_words
        for value in self.values:
            need += 4 * (entry + max(row.frame for row in self.rows if row and row.value == value))
        return need

    def lines(self):
        """Each line: its first words, and its bound."""
        yield "init", self.init
        for name, found in self.handlers:
            yield f"handler {name}", found
        for key, found in self.sections.items():
            yield f"section {' '.join(key)}", found
        for value in self.values:
            yield f"wait {2 ** self.bits - value // 2 ** (8 - self.bits)}", self.waits[value] or 0
        yield "stack", self.stack()


def differs(text, answer):
    """The first line of an answer that is not right, if there is one."""
    lines = answer.splitlines()
    wanted = list(Bounds(text).lines())
    for number, (words, found) in enumerate(wanted):
        line = lines[number] if number < len(lines) else "nothing"
        if isinstance(found, set):
            if line not in {f"{words} - {address}" for address in found}:
                return f"`{line}`, wanted `{words} -` and one of {sorted(found)}"
        elif line != f"{words} {found}":
            return f"`{line}`, wanted `{words} {found}`"
    return f"more lines: {lines[len(wanted)]}" if len(lines) > len(wanted) else None
