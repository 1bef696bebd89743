"""The core of docs/MACHINE.md in plain Python: an image read from its listing, under the events of a script.

`Core` has one function for each of its rules that could be wrong, so that a fault can be planted in each."""
import struct

OPS = (
    "set copy add sub mul div rem and or xor shl shr eq ne lt le gt ge load store loadat storeat jump jumpz emit post"
    " clock alarm noalarm raise restore mask unmask mark serve wait call back ret"
).split()
ENTERED, DONE = 1, 2
STEP, TICK, PEND = range(3)
WORD = 0xFFFFFFFF
RETURNED = WORD


class Image:
    """What a listing says. Interrupts have lines of the controller, in the order of their numbers."""

    def __init__(self, listing):
        rows = [line.split(" ; ")[0].split() for line in listing.split("\n") if line]
        head = rows[0]
        self.fpu, self.bits, self.thread = head[1] == "2", int(head[2]), int(head[4])
        self.cells = [int(row[2]) for row in rows if row[0] == "cell"]
        declared = sorted((int(row[2]), row) for row in rows if row[0] == "irq")
        self.lines = {row[1]: line for line, (_, row) in enumerate(declared)}
        self.rows = [(1, *map(int, row[3:6])) if row[3] != "-" else (0, 0, 0, 0) for _, row in declared]
        self.bodies = [tuple(map(int, row[2:5])) for row in rows if row[0] == "body"]
        self.code = [self.instruction(row[2:]) for row in rows if row[0] == "code"]

    def instruction(self, words):
        """The number of an operation, and three operands."""
        operands = [self.lines[word] if word in self.lines else int(word) for word in words[1:]]
        return (OPS.index(words[0]), *operands, 0, 0, 0)[:4]

    def words(self, events):
        """The words that core.c reads."""
        head = (self.fpu, self.thread, len(self.rows), len(self.bodies), len(self.cells), len(self.code), len(events))
        parts = [head, *self.rows, *self.bodies, self.cells, *self.code, *events]
        return [word for part in parts for word in part]


def blob(images):
    """The bytes at INPUT: how many images there are, where each begins, and their words."""
    starts, at = [], 1 + len(images)
    for words in images:
        starts.append(at)
        at += len(words)
    every = [len(images), *starts, *(word for words in images for word in words)]
    return struct.pack(f"<{len(every)}I", *every)


def events_of(script, image):
    """The events of a script: kind, line and count. Interrupts that are not in the listing request nothing."""
    found = []
    for line in script.split("\n"):
        words = line.split()
        if not words or line.startswith("#"):
            continue
        words = words[2:] if words[0] == "device" else words
        if words[0] == "pend":
            found.append((PEND, image.lines[words[1]], int(words[2]) if len(words) > 2 else 1))
        else:
            found.append((STEP if words[0] == "step" else TICK, 0, int(words[1])))
    return found


def compared(op, a, b):
    """What an operation on two numbers of 32 bits gives."""
    if op in ("div", "rem"):
        return (a // b if op == "div" else a % b) if b else (0 if op == "div" else a)
    if op in ("shl", "shr"):
        return (a << b if op == "shl" else a >> b) & WORD if b < 32 else 0
    if op in ("add", "sub", "mul"):
        return {"add": a + b, "sub": a - b, "mul": a * b}[op] & WORD
    if op in ("and", "or", "xor"):
        return {"and": a & b, "or": a | b, "xor": a ^ b}[op]
    return int({"eq": a == b, "ne": a != b, "lt": a < b, "le": a <= b, "gt": a > b, "ge": a >= b}[op])


class Core:
    """The state of the core. `records` has for each step what core.c tells, `items` what `run` shows of it."""

    def __init__(self, image):
        self.image, self.records, self.items = image, [], []
        self.cells, self.time, self.alarm = list(image.cells), 0, None
        self.pending, self.contexts = set(), []
        self.address, self.slots, self.caller = 0, [0] * image.thread, None
        self.basepri, self.primask, self.steps = 0, 1, 0

    def execution(self):
        """The execution priority."""
        values = [self.image.rows[context[0]][1] for context in self.contexts]
        return min([256, *values, *self.masked()])

    def masked(self):
        """What the masks say."""
        return ([self.basepri] if self.basepri else []) + ([0] if self.primask else [])

    def ready(self):
        """The lines that may be taken, the first one first."""
        rows = self.image.rows
        lines = [line for line in self.pending if rows[line][0] and self.is_above(rows[line][1])]
        return sorted(lines, key=lambda line: (rows[line][1], line))

    def is_above(self, value):
        """Whether a priority value is above the execution priority."""
        return value < self.execution()

    def frame_bytes(self):
        """What exception entry takes of the stack."""
        return 104 if self.image.fpu else 32

    def request(self, line):
        """An interrupt becomes pending."""
        self.pending.add(line)

    def tick(self):
        """The time rises, and the alarm may come."""
        self.time += 1
        if self.alarm and self.alarm[0] <= self.time:
            self.request(self.alarm[1])
            self.alarm = None

    def enter(self, line):
        """Exception entry."""
        self.pending.discard(line)
        self.contexts.append((line, self.address, self.slots, self.caller))
        _, _, self.address, words = self.image.rows[line]
        self.slots, self.caller = [0] * words, None
        self.items.append((self.steps, "take", line))

    def leave(self):
        """Return from a handler."""
        line, self.address, self.slots, self.caller = self.contexts.pop()
        self.items.append((self.steps, "ret", line))

    def step(self):
        """A core step, with its record."""
        ready = self.ready()
        if ready:
            self.enter(ready[0])
            told = (ENTERED, ready[0], self.frame_bytes())
        else:
            depth = len(self.contexts)
            self.execute()
            told = (DONE, RETURNED if len(self.contexts) < depth else self.address, 0)
        self.steps += 1
        active = sum(1 << line for line in {context[0] for context in self.contexts})
        pending = sum(1 << line for line in self.pending)
        self.records.append((*told[:2], self.basepri, self.primask, pending, active, told[2]))

    def execute(self):
        """One instruction."""
        number, a, b, c = self.image.code[self.address]
        op, slots, cells = OPS[number], self.slots, self.cells
        self.address += 1
        if op == "set":
            slots[a] = b
        elif op == "copy":
            slots[a] = slots[b]
        elif op == "load":
            slots[a] = cells[b]
        elif op == "store":
            cells[a] = slots[b]
        elif op == "loadat":
            slots[a] = cells[b + slots[c]]
        elif op == "storeat":
            cells[a + slots[b]] = slots[c]
        elif op == "jump" or (op == "jumpz" and slots[a] == 0):
            self.address = a if op == "jump" else b
        elif op == "emit":
            self.items.append((self.steps, "emit", slots[a]))
        elif op in ("post", "clock", "alarm", "noalarm"):
            self.ask(op, a, b)
        elif op in ("raise", "restore", "mask", "unmask", "serve"):
            self.set_mask(op, a, b)
        elif op == "wait":
            self.address -= 1
        elif op in ("call", "back", "ret"):
            self.go(op, a, b)
        elif op not in ("mark", "jumpz"):
            slots[a] = compared(op, slots[b], slots[c])

    def ask(self, op, a, b):
        """A request by software, and the timer."""
        if op == "post":
            self.request(a)
            self.items.append((self.steps, "post", a))
        elif op == "clock":
            self.slots[a] = self.time
        elif op == "alarm" and self.slots[a] > self.time:
            self.alarm = (self.slots[a], b)
        else:
            self.alarm = None
            if op == "alarm":
                self.request(b)

    def set_mask(self, op, a, b):
        """BASEPRI and PRIMASK."""
        if op == "raise":
            self.slots[a], self.basepri = self.basepri, b
        elif op == "restore":
            self.basepri = self.slots[a]
        elif op == "mask":
            self.slots[a], self.primask = self.primask, 1
        else:
            self.primask = 0 if op == "serve" else self.slots[a]

    def go(self, op, a, b):
        """Calls and returns."""
        if op == "ret":
            self.leave()
        elif op == "back":
            self.slots, self.caller = self.caller, None
            self.address = self.slots[-1]
        else:
            entry, words, arguments = self.image.bodies[a]
            self.slots[-1], self.caller, self.address = self.address, self.slots, entry
            self.slots = self.caller[b : b + arguments] + [0] * (words - arguments)

    def run(self, events):
        """All events, and then the records."""
        for kind, line, count in events:
            for _ in range(count):
                if kind == STEP:
                    self.step()
                elif kind == TICK:
                    self.tick()
                else:
                    self.request(line)
        return self.records


class EqualPriorityPreempts(Core):
    """A planted fault."""

    def is_above(self, value):
        return value <= self.execution()


class BasepriMasksBelowOnly(Core):
    """A planted fault: an interrupt of the value of BASEPRI is taken."""

    def masked(self):
        return ([self.basepri + 1] if self.basepri else []) + ([0] if self.primask else [])


class PrimaskIsIgnored(Core):
    """A planted fault."""

    def masked(self):
        return [self.basepri] if self.basepri else []


class GreatestOfEqualFirst(Core):
    """A planted fault: of equal priorities the greatest number is taken."""

    def ready(self):
        rows = self.image.rows
        return sorted(super().ready(), key=lambda line: (rows[line][1], -line))


class LowestPriorityFirst(Core):
    """A planted fault: of several that may be taken the least urgent is."""

    def ready(self):
        return super().ready()[::-1]


class PendOfActiveIsLost(Core):
    """A planted fault."""

    def request(self, line):
        if line not in {context[0] for context in self.contexts}:
            super().request(line)


class EntryKeepsPending(Core):
    """A planted fault."""

    def enter(self, line):
        super().enter(line)
        self.pending.add(line)


class EntryClearsBasepri(Core):
    """A planted fault."""

    def enter(self, line):
        super().enter(line)
        self.basepri = 0


class ReturnClearsBasepri(Core):
    """A planted fault: a return takes the mask away."""

    def leave(self):
        super().leave()
        self.basepri = 0


class BasicFrameAlways(Core):
    """A planted fault: no extended frame."""

    def frame_bytes(self):
        return 32


PLANTED = (
    EqualPriorityPreempts, BasepriMasksBelowOnly, PrimaskIsIgnored, GreatestOfEqualFirst, LowestPriorityFirst,
    PendOfActiveIsLost, EntryKeepsPending, EntryClearsBasepri, ReturnClearsBasepri, BasicFrameAlways,
)
