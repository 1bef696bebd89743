"""Runs an image beside devices, over the core of the reference: what a device's register holds is in its local
resource from the moment at which the handler of the resource's task is taken.
"""
from rticref import core, script as scripts
from rticref.soak import Lcg64Xsh32
from rticref.trace import line

INPUT = "input"


def counted(word, device):
    """The words from a number on, modulo 2^32."""
    while True:
        yield word
        word = (word + 1) % 2**32


def drawn(word, device):
    """The words that PCG32 draws from a state, with the device's number as its sequence."""
    generator = Lcg64Xsh32(word, device)
    while True:
        yield generator.next_u32()


WORDS = {"from": counted, "seed": drawn}


def inputs_by_interrupt(app, board):
    """The local resources that are written where an interrupt of a number is taken, in the board's order."""
    found = {}
    for task, local in board:
        found.setdefault(app.irqs[app.tasks[task].binds].number, []).append(local)
    return found


class Beside:
    """A core, and the registers of its devices: each holds 0 before a word is given."""

    def __init__(self, image, app, board):
        self.core = core.Core(image)
        cells = [name for name, _ in image.cells]
        self.cell = {local: cells.index(b"local." + app.locals[local].name) for _, local in board}
        self.written = inputs_by_interrupt(app, board)
        self.register = {local: 0 for _, local in board}
        self.items = []

    def show(self, item):
        """An item is shown; behind the entry of a handler the words of its inputs are put, and shown too."""
        self.items.append(item)
        step, what = item
        for local in self.written.get(what[1], []) if what[0] == "take" else []:
            self.core.cells[self.cell[local]] = self.register[local]
            self.items.append((step, (INPUT, local, self.register[local])))

    def follow(self, script):
        """The lines of a script come to pass."""
        for row in script:
            if row[0] == "give":
                self.register[row[1]] = row[2]
            elif row[0] in WORDS:
                self.request(*row)
            else:
                core.run_events(self.core, scripts.events([row]), self.show)

    def request(self, how, device, word, local, irq, times):
        """Requests of an interrupt; before each the register of a local resource takes the next word of the device."""
        words = WORDS[how](word, device)
        for _ in range(times):
            self.register[local] = next(words)
            core.run_events(self.core, scripts.events([("pend", irq, 1)]), self.show)


def text_of(items, total, app):
    """The items and the total as text; no total where there is none."""
    lines = [text_of_item(item, app) for item in items]
    return b"".join(lines if total is None else lines + [b"total %d\n" % total])


def text_of_item(item, app):
    """The line of an item."""
    step, what = item
    if what[0] == INPUT:
        return b"%d input %s %d\n" % (step, app.locals[what[1]].name, what[2])
    return line(item, app.names())


def run(image, app, board, script):
    """The items of a run, and the number of its core steps."""
    beside = Beside(image, app, board)
    beside.follow(script)
    return beside.items, beside.core.nsteps


def words_of(script, board):
    """Each local resource that a device writes with each word that its register may hold under a script."""
    found = {(local, 0) for _, local in board}
    for row in script:
        if row[0] == "give":
            found.add(row[1:])
        elif row[0] in WORDS:
            how, device, word, local, _, times = row
            words = WORDS[how](word, device)
            found |= {(local, next(words)) for _ in range(times)}
    return found


def requests_of(script, app):
    """How often the devices of a script request each interrupt, what of it is left to be found, and what is left."""
    asked = {irq.number: 0 for irq in app.irqs}
    for row in script:
        if row[0] == "device" or row[0] in WORDS:
            asked[row[-2]] += row[-1]
    return [(irq.name, asked[irq.number], 0, 0) for irq in app.irqs]


def counted(account):
    """The rows of an account whose first word is cut off: what was requested, what of it was not found, and is left."""
    rows = [row.split(b" ") for row in account.replace(b"account ", b"").splitlines()]
    return [(name, int(raised) + int(merged), int(raised) - int(latched), int(left))
            for name, raised, merged, latched, left in rows]
