"""A run on the emulated board, one machine instruction at a time, with requests at chosen ones, and what it shows.

The emulated processor executes the code; nothing is interpreted. As a commit is executed its image instruction is one
step of the model. What is emitted, posted or set is read from registers, the rest from memory, and each exception entry
and return from the program counter and SP. So a run gives a trace, and the script of the events that were found in it:
core steps, ticks, and requests where they came. `mark` has no code: the model does it before the next commit.
"""
from collections import Counter

from emulator import PC, SP, Board

# the bytes that an exception entry puts onto the stack
ENTRY = 32


class Lost(Exception):
    """The board does what the model cannot: it left the code, or came to an instruction out of turn."""


class Run:
    """A run, and what was seen of it: `lines` of the trace, `events` of the script, and counts: of machine
    instructions, of core steps, of requests, of entries, of those that are less deep than in the model, and of
    preemptions by the place at which they came."""

    def __init__(self, program, executable):
        self.program, self.image = program, program.image
        self.board = Board(executable)
        self.lines, self.events, self.preempted = [], [], Counter()
        self.steps = self.executed = self.takes = self.requests = self.shallow = 0
        self.at, self.called, self.below = 0, None, []
        self.fresh = self.in_tick = self.ticked = self.owed = False
        self.masked = True
        self.held = []
        self.board.run_to(program.symbols["init"])
        self.now = self.board.registers()

    def close(self):
        """Ends the emulator."""
        self.board.close()

    def trace(self):
        """The lines of the trace."""
        return self.lines + [f"total {self.steps}"]

    def script(self):
        """The script of the events that were found."""
        return "".join(f"{word} {count}\n" for word, count in self.events)

    def event(self, word):
        """An event, joined to those before that are the same."""
        last = self.events[-1] if self.events else None
        if last and last[0] == word:
            last[1] += 1
        else:
            self.events.append([word, 1])

    def line(self, item):
        """A line of the trace."""
        self.lines.append(f"{self.steps} {item}")

    def is_asleep(self):
        """Whether the core waits."""
        return self.now[PC] in self.program.commits and self.program.kind_at(self.now[PC])[0] == "wait"

    def request(self, name):
        """A request of an interrupt, or of a tick where there is no name, before the next instruction."""
        irq = self.image.irqs.get(name)
        self.board.pend(irq.number if irq else None, self.now)
        self.requests += 1
        self.fresh = self.fresh or irq is None or irq.value is not None
        if irq and self.ticked:
            self.held.append(name)
        elif irq:
            self.arrive(name)

    def arrive(self, name):
        """The model's request."""
        self.event(f"pend {name}")
        self.line(f"pend {name}")

    def step(self):
        """One machine instruction, or one exception entry in its place."""
        place, sp = self.now[PC], self.now[SP]
        number = self.program.commits.get(place)
        asked = self.ask(number) if number is not None else None
        if number is not None and self.image.code[number].word == "wait" and not self.fresh:
            self.board.skip(place)
        else:
            self.board.step()
        self.fresh = False
        self.executed += 1
        self.now = self.board.registers()
        entered = self.now[PC] in self.program.heads or self.now[PC] == self.program.symbols["tick"]
        if entered and self.now[SP] == sp - ENTRY:
            self.preempted[self.program.kind_at(place)] += 1
            self.enter(place)
            return
        self.done(place, number, asked)
        if entered and self.now[SP] == sp:
            self.enter(None)

    def enter(self, place):
        """An exception is taken; with no place, behind the return of another, whose frame it takes over."""
        if self.now[PC] == self.program.symbols["tick"]:
            self.in_tick = True
            return
        irq = self.image.irqs[self.program.heads[self.now[PC]]]
        self.event("step")
        self.line(f"take {irq.name} {self.program.top - self.now[SP] + 4 * irq.frame}")
        self.steps += 1
        self.takes += 1
        self.below.append((irq.name, self.at, self.called, place))
        self.at, self.called = irq.entry, None

    def done(self, place, number, asked):
        """The instruction at an address was executed; of a commit it was asked before."""
        if self.in_tick:
            self.tick(place)
        elif number is not None:
            self.commit(number, *asked)
        elif place in self.program.owing:
            self.owed = False
        if self.program.symbols["fault"] <= self.now[PC] < self.program.symbols["tick"]:
            raise Lost(f"a fault behind {place:#x}")

    def tick(self, place):
        """An instruction of what serves ticks."""
        if place == self.program.tick_time:
            self.event("tick")
            self.line("tick")
            self.ticked = True
        elif place == self.program.tick_pend and not self.owed:
            self.line("alarm")
        elif place == self.program.tick_return:
            self.in_tick = self.ticked = False
            for name in self.held:
                self.arrive(name)
            self.held = []

    def ask(self, number):
        """What a commit needs that is there only before it is executed: the steps of marks before it with their items,
        and the time for an alarm."""
        marks, at = [], self.at
        while at < number and self.image.code[at].word == "mark":
            marks.append(self.item_of(at))
            at += 1
        if at != number:
            raise Lost(f"image instruction {number} comes, and the model is at {self.at}")
        is_alarm = self.image.code[number].word == "alarm"
        return marks, self.board.word(self.program.symbols["time"]) if is_alarm else None

    def commit(self, number, marks, time):
        """An image instruction is done, with the marks before it."""
        for item in marks:
            self.model_step(item)
        word, operands, note = self.image.code[number]
        item = self.own_item(word, operands, time) or (self.item_of(number) if note else None)
        following, value = number + 1, self.now[0]
        if word == "jump" or (word == "jumpz" and value == 0):
            following = operands[-1]
        elif word == "wait":
            following = number
        elif word in ("mask", "unmask", "serve"):
            self.masked = word == "mask"
        elif word == "call":
            following, self.called = list(self.image.bodies.values())[operands[0]].entry, number + 1
        elif word == "back":
            following, self.called = self.called, None
        elif word == "ret":
            name, following, self.called, place = self.below.pop()
            item = f"ret {name}"
            if place is not None and self.now[PC] not in (place, *self.program.heads, self.program.symbols["tick"]):
                raise Lost(f"{name} returned to {self.now[PC]:#x}, and was taken at {place:#x}")
        self.model_step(item)
        self.at = following

    def model_step(self, item):
        """A step of the model that shows an item, or nothing."""
        self.event("step")
        if item:
            self.line(item)
        self.steps += 1
        self.at += 1

    def own_item(self, word, operands, time):
        """The item that an instruction gives itself."""
        value = self.now[0]
        if word == "alarm":
            self.owed = value <= time
            return "alarm" if self.owed else "set"
        return {"emit": f"emit {value}", "clock": f"clock {value}", "noalarm": "set",
                "post": f"post {operands[0]}" if operands else None}.get(word)

    def item_of(self, number):
        """The item of a note, where there is one."""
        kind, *rest = self.image.code[number].note or [None]
        if kind == "leave" and rest[0] in self.image.cells:
            return f"leave {rest[0]} {self.board.word(self.program.cell(rest[0]))}"
        if kind == "start":
            first, count = int(rest[1]), self.image.bodies[rest[0]].args
            return " ".join(["start", rest[0], *(str(self.slot(first + k)) for k in range(count))])
        if kind in ("arm", "cancel", "move"):
            return " ".join([kind, rest[0], *(str(self.slot(int(word))) for word in rest[1:])])
        return " ".join([kind, *rest]) if kind else None

    def slot(self, index):
        """A slot of the running job."""
        return self.board.word(self.now[SP] + 4 * index)
