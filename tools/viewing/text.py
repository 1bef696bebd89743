"""Draws who runs when as text: a row for each task, folded to the width of the terminal."""
from bisect import bisect_left

from .application import THREAD
from .rows import ARRIVAL, MERGED

SILENT, PENDING, PREEMPTED, RUNS, ENTERS, LEAVES, LOST = " -.=[]!"
FOUND = "|"
TENTHS = 10
LEAST_COLUMNS = 20


class Strip:
    """The marks of a row, a column for so many steps; `at` has for each kind how far its spans have been drawn.

    `lost` has the steps of requests that were merged; one that came after the last step counts there.
    """

    def __init__(self, history, row, steps, lost):
        self.row = row
        self.steps = steps
        self.end = history.end
        self.busy = merged(row.serving, row.running)
        self.layers = [(PENDING, row.pending), (PREEMPTED, row.preempted)]
        self.at = [0] * (len(self.layers) + 1)
        self.lost = [min(step, history.end - 1) for step in lost]
        spans = list(zip(row.sections[::4], row.sections[1::4]))
        left = [span for span in spans if span not in history.never_left]
        self.signs = sorted([(begin, ENTERS) for begin, _ in spans] + [(end - 1, LEAVES) for _, end in left])
        self.sign = 0

    def columns(self, begin, count):
        """The marks of so many columns from a step on; steps never go back."""
        marks = [SILENT] * count
        for number, (mark, spans) in enumerate(self.layers):
            self.at[number] = self.cover(marks, mark, spans, self.at[number], begin)
        self.at[-1] = self.shade(marks, self.at[-1], begin)
        if self.steps == 1:
            self.put_signs(marks, begin)
        for step in self.lost[bisect_left(self.lost, begin):bisect_left(self.lost, begin + count * self.steps)]:
            marks[(step - begin) // self.steps] = LOST
        return "".join(marks)

    def shade(self, marks, at, begin):
        """Puts how much of each column the row runs; the place of the first span that reaches further."""
        end = begin + len(marks) * self.steps
        ran = {}
        spans = self.busy
        while at < len(spans) and spans[at] < end:
            first, last = max(spans[at], begin), min(spans[at + 1], end)
            for column in range((first - begin) // self.steps, -(-(last - begin) // self.steps)):
                left = begin + column * self.steps
                ran[column] = ran.get(column, 0) + min(last, left + self.steps) - max(first, left)
            if spans[at + 1] > end:
                break
            at += 2
        for column, steps in ran.items():
            whole = min(self.steps, self.end - begin - column * self.steps)
            tenths = (2 * TENTHS * steps + whole) // (2 * whole)
            marks[column] = RUNS if steps == whole else str(min(tenths, TENTHS - 1))
        return at

    def cover(self, marks, mark, spans, at, begin):
        """Puts a mark where spans are; the place of the first span that reaches further."""
        end = begin + len(marks) * self.steps
        while at < len(spans) and spans[at] < end:
            first = max(spans[at] - begin, 0) // self.steps
            last = (min(spans[at + 1], end) - 1 - begin) // self.steps
            if last >= 0:
                marks[first:last + 1] = mark * (last + 1 - first)
            if spans[at + 1] > end:
                break
            at += 2
        return at

    def put_signs(self, marks, begin):
        """Puts the enters and leaves of sections, where a column is one step."""
        while self.sign < len(self.signs) and self.signs[self.sign][0] < begin + len(marks):
            step, mark = self.signs[self.sign]
            if step >= begin:
                marks[step - begin] = mark
            self.sign += 1


class Values:
    """The values of an input: each stands behind a stroke at the take that found it, where there is room for it."""

    def __init__(self, track, steps):
        self.found = track.found
        self.steps = steps

    def columns(self, begin, count):
        """The marks of so many columns from a step on."""
        marks = [SILENT] * count
        end = begin + count * self.steps
        for at in range(2 * bisect_left(self.found[::2], begin), len(self.found), 2):
            step, value = self.found[at:at + 2]
            if step >= end:
                break
            column = (step - begin) // self.steps
            behind = self.found[at + 2] if at + 2 < len(self.found) else end
            room = min((behind - begin) // self.steps, count) - column
            words = FOUND + str(value)
            words = words if len(words) <= room else FOUND
            marks[column:column + len(words)] = words
        return "".join(marks)


def merged(one, other):
    """Two flat lists of spans that do not overlap, as one in order."""
    pairs = sorted(list(zip(one[::2], one[1::2])) + list(zip(other[::2], other[1::2])))
    return [number for pair in pairs for number in pair]


def blocks(history, steps):
    """The numbers of the blocks of so many steps in which more than the thread does something, in order."""
    found = {0}
    for row in history.rows:
        if row.task.kind == THREAD and row.task.name != "init":
            continue
        for spans in (row.running, row.serving):
            for begin, end in zip(spans[::2], spans[1::2]):
                found.update(range(begin // steps, (end - 1) // steps + 1))
    marks = history.marks
    found.update(step // steps for step, kind in zip(marks[::4], marks[2::4]) if kind in (ARRIVAL, MERGED))
    return sorted(block for block in found if block * steps < history.end)


def lost_requests(history):
    """For each row the steps at which a request was merged."""
    found = [[] for _ in history.rows]
    marks = history.marks
    for step, row, kind in zip(marks[::4], marks[1::4], marks[2::4]):
        if kind == MERGED:
            found[row].append(step)
    return found


def ruler(begin, count, steps, width):
    """The steps over every tenth column, or every twentieth where numbers are long."""
    apart = 10 if begin + count * steps < 10 ** 9 else 20
    parts = (str(begin + at * steps).ljust(apart) for at in range(0, count, apart))
    return " " * width + "".join(parts).rstrip()


def labels(shown, inputs, columns):
    """The names of rows with their interrupts, and of inputs; where they take over half of the columns they are cut."""
    found = [row.label() for row in shown]
    if max(map(len, found)) > columns // 2:
        found = [row.task.name[:columns // 2] for row in shown]
    return found + [name[:columns // 2] for name in inputs]


def draw(history, steps, columns):
    """The picture in pieces of one block of steps.

    A row with nothing in a piece is left out, and so are the pieces in which the thread alone runs. Inputs come last.
    """
    shown = history.shown()
    alone = next(row.task.name for row in shown if row.task.kind == THREAD)
    names = labels(shown, history.inputs, columns)
    width = max(map(len, names)) + 1
    count = max(columns - width, LEAST_COLUMNS) // 10 * 10
    lost = lost_requests(history)
    strips = [Strip(history, row, steps, lost[row.number]) for row in shown]
    strips += [Values(track, steps) for track in history.inputs.values()]
    before = 0
    for block in blocks(history, count * steps):
        begin = block * count * steps
        if begin > before:
            yield f"\n({begin - before} steps of {alone} alone)\n"
        here = min(count, -(-(history.end - begin) // steps))
        lines = [ruler(begin, here, steps, width)]
        for name, strip in zip(names, strips):
            marks = strip.columns(begin, here)
            if not marks.isspace():
                lines.append((name.ljust(width) + marks).rstrip())
        yield ("\n" if before else "") + "\n".join(lines) + "\n"
        before = begin + count * steps
    if history.end > before:
        yield f"\n({history.end - before} steps of {alone} alone)\n"
