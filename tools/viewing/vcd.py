"""Writes a run as a waveform: a value change dump (IEEE 1364), with a string variable for the items, or of wires alone.

A core step is 1 us. Items of one step number (requests, ticks, and at most one item of the step itself) follow each
other within it, one unit of the time scale apart, so that each has a time of its own and none is lost. Programs that
know no string variables pass over that one: what they read in its place begins like no change of another.

Some programs stop at a number of more than one bit. For these there are wires alone, one for each bit of an input that
is ever 1, and a core step is the unit: such a program keeps a sample for each unit.
"""
import heapq

from .application import DISPATCHER, HARDWARE, SOFTWARE, THREAD, TIMER, UNSERVED
from .rows import EMIT, FULL, MERGED

# The time scale, and how many of its units a core step has.
SCALES = (("1 ns", 10 ** 3), ("1 ps", 10 ** 6), ("1 fs", 10 ** 9))
STEPS_ALONE = "1 us"

# The wires that are 1 in a step at which something happens, and the marks that these are.
HAPPENS = (("emit", EMIT), ("full", FULL), ("merged", MERGED))


class Signals:
    """The variables by scopes, and their changes in streams: each a time and what is written, in order of times."""

    def __init__(self):
        self.heads = []
        self.first = []
        self.streams = []
        self.count = 0

    def add(self, kind, size, name, value, short=None):
        """A variable; the answer is its short name, which is made where none is given."""
        if short is None:
            short = letters(self.count)
            self.count += 1
        self.heads.append(f"$var {kind} {size} {short} {name} $end")
        self.first.append(value + short)
        return short

    def scope(self, name):
        """What is added next is in a scope."""
        self.heads.append(f"$scope module {name} $end")

    def close(self):
        """The scope ends."""
        self.heads.append("$upscope $end")

    def wire(self, name, spans, unit):
        """A wire that is 1 in spans of steps."""
        short = self.add("wire", 1, name, "0")
        self.streams.append((step * unit, "01"[place % 2 == 0] + short) for place, step in enumerate(spans))


def letters(number):
    """A number as signs that may be in a short name."""
    signs = chr(33 + number % 94)
    return signs if number < 94 else signs + letters(number // 94)


def joined(spans):
    """Spans in order, those that meet made one."""
    found = []
    for begin, end in sorted(zip(spans[::2], spans[1::2])):
        if found and begin <= found[-1]:
            found[-1] = max(end, found[-1])
        else:
            found += (begin, end)
    return found


def times(history):
    """The time scale, the units of a step, and the time of each item."""
    steps, places = [], []
    before, place, most = -1, 0, 0
    for line in history.output.lines[history.output.first:history.output.last]:
        step = int(line.partition(" ")[0])
        place = place + 1 if step == before else 0
        most = max(most, place)
        before = step
        steps.append(step)
        places.append(place)
    scale, unit = next(each for each in SCALES if each[1] > most)
    return scale, unit, [step * unit + place for step, place in zip(steps, places)]


def add_rows(signals, history, unit, add_row):
    """The rows: tasks in one scope, what else runs in another."""
    for scope, kinds in (("tasks", (HARDWARE, SOFTWARE)), ("others", (THREAD, DISPATCHER, TIMER, UNSERVED))):
        signals.scope(scope)
        for row in history.shown():
            if row.task.kind in kinds:
                add_row(signals, row, unit)
        signals.close()


def name_of(row):
    """A row's name in the names of its variables."""
    if row.task.kind in (DISPATCHER, UNSERVED):
        return f"{row.task.kind}_{row.task.interrupt}"
    return row.task.name.replace(" ", "_")


def add_wires(signals, row, unit):
    """A row: it runs, is preempted, is pending."""
    name = name_of(row)
    signals.wire(name + "_running", joined(row.running + row.serving), unit)
    signals.wire(name + "_preempted", joined(row.preempted), unit)
    signals.wire(name + "_pending", joined(row.pending), unit)


def add_wires_and_runs(signals, row, unit):
    """A row, and a number that counts the runs that began."""
    add_wires(signals, row, unit)
    short = signals.add("integer", 32, name_of(row) + "_runs", "b0 ")
    signals.streams.append((begin * unit, f"b{number:b} {short}") for number, begin in enumerate(row.jobs[::3], 1))


def add_sections(signals, history, unit):
    """The sections: 1 while a job is inside. Those of queues are in a scope of their own."""
    spans = {name: [] for name in history.locks}
    names = list(history.locks)
    for row in history.rows:
        for at in range(0, len(row.sections), 4):
            spans[names[row.sections[at + 2]]] += row.sections[at:at + 2]
    for scope, is_queue in (("locks", False), ("queues", True)):
        signals.scope(scope)
        for name in names:
            if ("." in name) == is_queue:
                signals.wire(name.replace(".", "_"), joined(spans[name]), unit)
        signals.close()


def add_inputs(signals, history):
    """The inputs, each a vector of wires; before the first take they are 0. The answer is their short names."""
    signals.scope("inputs")
    shorts = {name: signals.add("wire", 32, name, "b0 ") for name in history.inputs}
    signals.close()
    return shorts


def add_bits(signals, history):
    """The bits of inputs, each a wire, up to the last one that is ever 1."""
    signals.scope("inputs")
    for name, track in history.inputs.items():
        ends = track.found[2::2] + [history.end]
        for bit in range(max(max(track.found[1::2]).bit_length(), 1)):
            spans = [step for at, value in enumerate(track.found[1::2]) if value >> bit & 1
                     for step in (track.found[2 * at], ends[at])]
            signals.wire(f"{name}_{bit}", joined(spans), 1)
    signals.close()


def add_items(signals, history, moments):
    """The items as words joined by colons, the emitted values, inputs, and the time in ticks."""
    inputs = add_inputs(signals, history)
    emit = signals.add("integer", 32, "emit", "b0 ")
    time = signals.add("integer", 32, "time", "b0 ")
    item = signals.add("string", 1, "item", "s- ", "item")
    signals.streams.append(changes_of_items(history, moments, emit, time, item, inputs))


def changes_of_items(history, moments, emit, time, item, inputs):
    """The changes that items make, by the short names of three variables and of the inputs."""
    ticks = 0
    for moment, line in zip(moments, history.output.lines[history.output.first:history.output.last]):
        words = line.split(" ")[1:]
        yield moment, "s" + ":".join(words) + " " + item
        if words[0] == "emit":
            yield moment, f"b{int(words[1]):b} {emit}"
        elif words[0] == "input":
            yield moment, f"b{int(words[2]):b} {inputs[words[1]]}"
        elif words[0] == "tick":
            ticks += 1
            yield moment, f"b{ticks:b} {time}"


def wires(history):
    """The waveform of wires alone, in pieces."""
    signals = Signals()
    signals.scope("rtic")
    add_rows(signals, history, 1, add_wires)
    add_sections(signals, history, 1)
    marks = history.marks
    for name, kind in HAPPENS:
        steps = sorted({min(step, history.end - 1) for step, each in zip(marks[::4], marks[2::4]) if each == kind})
        signals.wire(name, joined([step for first in steps for step in (first, first + 1)]), 1)
    add_bits(signals, history)
    signals.close()
    yield from written(signals, STEPS_ALONE, history.end)


def dump(history):
    """The whole waveform, in pieces."""
    scale, unit, moments = times(history)
    signals = Signals()
    signals.scope("rtic")
    add_rows(signals, history, unit, add_wires_and_runs)
    add_sections(signals, history, unit)
    stack = signals.add("integer", 32, "stack", f"b{history.stack[1]:b} ")
    depths = zip(history.stack[2::2], history.stack[3::2])
    signals.streams.append((step * unit, f"b{depth:b} {stack}") for step, depth in depths)
    add_items(signals, history, moments)
    signals.close()
    yield from written(signals, scale, history.end * unit)


def written(signals, scale, end):
    """What stands in the file, up to its last time, in pieces."""
    yield f"$version tools/view of rtic $end\n$comment a core step is 1 us $end\n$timescale {scale} $end\n"
    yield "\n".join(signals.heads) + "\n$enddefinitions $end\n"
    yield "#0\n$dumpvars\n" + "\n".join(signals.first) + "\n$end\n"
    before = 0
    for moment, words in heapq.merge(*signals.streams, key=lambda change: change[0]):
        yield words + "\n" if moment == before else f"#{moment}\n{words}\n"
        before = moment
    if end > before:
        yield f"#{end}\n"
