"""Judges traces with inputs, over the machine of the reference: which texts are traces, and which traces are right.

Behind the take of a task's interrupt come its inputs, each once and in the board's order, with any word; and the take
is as if these words had been in its local resources before it. Each input is an item of its own. The first item with
which those before it and itself begin no run is wrong; where none is, and the trace is not one of a run, because inputs
or steps are missing at its end, what comes behind its last item is.
"""
from rticref import baker, trace

from .running import INPUT, inputs_by_interrupt
from .texts import NAME, Refused, Wrong, number

STEPS = 1 << 31


def read_trace(data, app, board):
    """The items of a trace and its total, or none: the reference reads the lines, with another item for each input."""
    lines = data.split(b"\n")
    last = next((at for at, line in enumerate(lines) if line.startswith(b"total ")), len(lines))
    inputs, causes = {}, {}
    for at, line in enumerate(lines[:last]):
        words = line.split(b" ")
        if words[1:2] == [b"input"]:
            try:
                inputs[at] = input_item(words, app, board)
                lines[at] = words[0] + b" set"
            except Wrong as wrong:
                causes[at + 1] = wrong.number
    try:
        items, total = trace.read_trace(b"\n".join(lines), app.names())
    except trace.TraceRefused as refused:
        raise Refused("trace", refused.line, causes.get(refused.line, refused.kind)) from None
    first = lines.index(b"trace") + 1 if lines[0].startswith(b"image ") else 0
    return [inputs.get(at, item) for at, item in enumerate(items, first)], total


def input_item(words, app, board):
    """The item of a line `STEP input R V`: a number of steps, the name of an input, a number of 32 bits."""
    if len(words) != 4 or not NAME.fullmatch(words[2]) or number(words[0]) >= STEPS:
        raise Wrong(2)
    word = number(words[3])
    inputs = {app.locals[local].name: local for _, local in board}
    if words[2] not in inputs:
        raise Wrong(4)
    return number(words[0]), (INPUT, inputs[words[2]], word)


class Judge:
    """The machine beside devices; `owed` are the inputs that the trace still has to show of the take that is held."""

    def __init__(self, app, board):
        self.run = baker.Run(app, handles=True)
        self.written = inputs_by_interrupt(app, board)
        self.held, self.owed = None, []

    def allows(self, item):
        """Whether an item goes on a run."""
        step, what = item
        if self.owed:
            return self.puts(step, what)
        if what[0] == INPUT:
            return False
        if what[0] == "take" and what[1] in self.written and self.takes(step, what):
            self.held, self.owed = item, list(self.written[what[1]])
            return True
        return self.run.item(step, what)

    def takes(self, step, what):
        """Whether an interrupt with inputs may be taken there."""
        machine = self.run.machine
        fits = what[2] <= machine.facts.stack and self.run.advance(step)
        return fits and not machine.owing and machine.candidate() == what[1]

    def puts(self, step, what):
        """The next input of the take that is held; behind the last one the handler begins."""
        if what[:2] != (INPUT, self.owed[0]) or step != self.held[0]:
            return False
        self.run.machine.locals[self.owed.pop(0)] = what[2]
        return bool(self.owed) or self.run.item(*self.held)

    def ends(self, total):
        """Whether the trace may end there, with a total or with none."""
        return not self.owed and (total is None or self.run.advance(total))


def audit(data, app, board):
    """The status and the line that an audit of a trace has."""
    items, total = read_trace(data, app, board)
    judge = Judge(app, board)
    wrong = next((at for at, item in enumerate(items, 1) if not judge.allows(item)), None)
    if wrong is None and not judge.ends(total):
        wrong = len(items) + 1
    return (0, b"yes %d\n" % len(items)) if wrong is None else (4, b"no %d\n" % wrong)
