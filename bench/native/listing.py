"""An image, as its listing tells it: the lines that stand before `trace` in what `rticx run` writes."""
from collections import namedtuple

Irq = namedtuple("Irq", "name number value entry frame")
Body = namedtuple("Body", "entry frame args")
Line = namedtuple("Line", "word operands note")


class Image:
    """An image: its interrupts, bodies, cells and code. `value`, `entry` and `frame` of an interrupt that is not
    enabled are None."""

    def __init__(self, text):
        self.irqs, self.bodies, self.cells, self.code = {}, {}, {}, []
        for line in text.split("\n"):
            words = line.split()
            if not words or words[0] == "trace":
                break
            self.read(words)

    def read(self, words):
        """One line."""
        first, rest = words[0], words[1:]
        if first == "irq":
            handler = (None, None, None) if rest[2] == "-" else [int(word) for word in rest[2:]]
            self.irqs[rest[0]] = Irq(rest[0], int(rest[1]), *handler)
        elif first == "body":
            self.bodies[rest[0]] = Body(*(int(word) for word in rest[1:]))
        elif first == "cell":
            self.cells[rest[2]] = int(rest[0])
        elif first == "code":
            told, _, note = " ".join(rest[1:]).partition(" ; ")
            word, *operands = told.split()
            self.code.append(Line(word, [int(x) if x.isdigit() else x for x in operands], note.split()))

    def enabled(self):
        """The interrupts that have a handler, the most urgent first."""
        return sorted((irq for irq in self.irqs.values() if irq.value is not None), key=lambda irq: irq[2:0:-1])

    def has_alarm(self):
        """Whether code sets alarms."""
        return any(line.word == "alarm" for line in self.code)

    def waits(self):
        """Whether the thread waits where `init` ends."""
        return any(line.word == "wait" for line in self.code)

    def frame_at(self, address, entries):
        """The frame of the part of the code that an address lies in: of those, the one entered last before it."""
        return max((entry, frame) for entry, frame in entries if entry <= address)[1]

    def handler_frame(self, address):
        """The words of the frame that a `ret` at an address ends."""
        return self.frame_at(address, [(irq.entry, irq.frame) for irq in self.enabled()])

    def body_frame(self, address):
        """The words of the frame that a `back` at an address ends."""
        return self.frame_at(address, [(body.entry, body.frame) for body in self.bodies.values()])
