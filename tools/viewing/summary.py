"""The summary of a run: what was measured, beside the bounds of `check`."""
from .application import DISPATCHER, SOFTWARE, THREAD, UNSERVED, WAITING

ABSENT = "-"
TOO_OFTEN = "its requests, or those of others, come more often than the limits say"


class Figure(str):
    """A number with a sign or a unit: in a table it stands to the right, as numbers do."""


def tables(history):
    """The summary as a list of tables: a heading for each column, and the rows."""
    found = [tasks(history), steps(history)]
    if any(row.task.kind == SOFTWARE for row in history.rows):
        found.append(messages(history))
    if history.locks:
        found.append(locks(history))
    if history.inputs:
        found.append(inputs(history))
    return found


def measured(history):
    """The rows that the table of tasks has: each task, what else ran, and what is requested and serves nothing."""
    for row in history.rows:
        if row.task.kind == UNSERVED and not row.requests or row.task.kind == DISPATCHER and not row.runs:
            continue
        if row.task.kind != THREAD or row.task.name != WAITING:
            yield row


def load(history, row):
    """The share of all core steps that a row took itself."""
    return Figure(f"{100 * row.busy() / history.end:.1f} %") if history.end else None


def tasks(history):
    """A row for each task: what asked for it, and what came of that. Messages do not merge."""
    heads = ("task", "interrupt", "priority", "requests", "merged", "still pending", "runs", "load")
    rows = []
    for row in measured(history):
        task = row.task
        asked = (row.requests, row.merged if task.kind != SOFTWARE else None, row.still_pending())
        rows.append((task.name, task.interrupt, task.priority, *(asked if task.kind != THREAD else (None,) * 3),
                     row.runs, load(history, row)))
    return heads, rows


def response(longest, open_for):
    """The longest response; where one was open at the end and had taken longer by then, it is over that."""
    if open_for is None or longest is not None and longest > open_for:
        return longest
    return Figure(f"> {open_for}")


def answered(history, row):
    """The longest response; beside a report of `respond` that from the end of `init` on, and the bound."""
    if history.responses is None:
        return (response(row.longest_response, row.unanswered),)
    return response(row.longest_after_init, row.unanswered_after_init), history.responses.bound(row.task)


def steps(history):
    """A row for each task: what was measured in core steps, beside the bounds."""
    bound = ("bound",) if history.responses is not None else ()
    heads = ("steps of", "longest run", "cost", "longest wait", "wait", "longest response", *bound, "least distance")
    rows = []
    for row in measured(history):
        task = row.task
        cost = task.cost if task.kind != SOFTWARE or task.call is not None else None
        wait = history.application.wait(task) if task.kind != THREAD else None
        rows.append((task.name, row.longest_run, cost, row.longest_wait, wait, *answered(history, row),
                     row.least_distance))
    return heads, rows


def roomy(history, row):
    """Beside a report of `respond` the most places that it says are out at once."""
    return (history.responses.room(row.task),) if history.responses is not None else ()


def messages(history):
    """A row for each task that takes messages."""
    room = ("room",) if history.responses is not None else ()
    heads = ("messages of", "sent", "started", "refused as full", "most places out", *room, "capacity")
    rows = [(row.task.name, row.sent, row.started, row.refused, row.most_out, *roomy(history, row), row.task.capacity)
            for row in history.rows if row.task.kind == SOFTWARE]
    return heads, rows


def locks(history):
    """A row for each section's name, resources first."""
    heads = ("section of", "ceiling", "times", "longest hold", "with preemption")
    ceilings = history.application.report.ceilings if history.application.report is not None else {}
    names = sorted(history.locks, key=lambda name: ("." in name, list(ceilings).index(name) if name in ceilings else 0))
    rows = []
    for name in names:
        lock = history.locks[name]
        held = (lock.held, lock.elapsed) if lock.times else (None, None)
        rows.append((name, ceilings.get(name), lock.times, *held))
    return heads, rows


def inputs(history):
    """A row for each input: how often a handler found a value there, how often another one, and which."""
    heads = ("input", "task", "found", "changes", "least", "greatest", "last")
    rows = []
    for name, track in history.inputs.items():
        values = track.found[1::2]
        changes = sum(1 for _ in track.changes()) - 1
        rows.append((name, track.row.task.name, len(values), changes, min(values), max(values), values[-1]))
    return heads, rows


def counted(number, word):
    """A number and what it counts."""
    return f"{number} {word}" if number == 1 else f"{number} {word}s"


def head(history):
    """The lines before the tables: steps, items and the stack."""
    report = history.application.report
    items = history.output.last - history.output.first
    bound = f" of {report.stack}" if report is not None else ""
    ticks = f", {counted(history.time, 'tick')}" if history.time else ""
    lines = [f"{counted(history.end, 'core step')}, {counted(items, 'item')}{ticks}",
             f"deepest stack: {history.deepest}{bound} bytes"]
    if history.trapped is not None:
        lines.append(f"the core trapped at step {history.trapped}, and took no step after it")
    if history.output.steps is None:
        lines.append("the trace has no total: it ends with its last item, or was cut off")
    return lines + over(history) + starved(history)


def over(history):
    """A line for each number that is over its bound; a run that `rtic` made has none."""
    found = []
    report = history.application.report
    if report is not None and history.deepest > report.stack:
        found.append("the stack is over its bound")
    for name, run, cost, wait, bound, *_ in steps(history)[1]:
        if run is not None and cost is not None and run > cost:
            found.append(f"{name} ran {run} steps, over its cost {cost}")
        if wait is not None and bound is not None and wait > bound:
            found.append(f"{name} waited {wait} steps for lower tasks, over its bound {bound}")
    return found + late(history)


def late(history):
    """A line for each response that took longer than `respond` says, and for each task of which more places were out:
    then the requests did not keep the limits."""
    found = []
    for row in measured(history) if history.responses is not None else ():
        bound = history.responses.bound(row.task)
        taken = max(row.longest_after_init or 0, row.unanswered_after_init or 0)
        if bound is not None and taken > bound:
            found.append(f"a response of {row.task.name} took {taken} steps, over its bound {bound}: {TOO_OFTEN}")
        room = history.responses.room(row.task) if row.task.kind == SOFTWARE else None
        if room is not None and row.most_out > room:
            found.append(f"{row.task.name} had {row.most_out} places out, over its room {room}: {TOO_OFTEN}")
    return found


def starved(history):
    """A line for each row that never ran though it was requested, or waits longer than any response before."""
    found = []
    for row in measured(history):
        if not row.still_pending():
            continue
        waited = history.end - row.pending_since()
        since = f"pending from step {row.pending_since()} to the end, {counted(waited, 'step')}"
        if row.runs == 0:
            why = " and serves nothing" if row.task.kind == UNSERVED else ", and never ran"
            found.append(f"{row.task.name} was requested {times(row.requests)}{why}: {since}")
        elif row.longest_response is None or waited > row.longest_response:
            found.append(f"{row.task.name} is {since}, longer than any response before")
    return found


def times(number):
    """How often, as people say it."""
    return {1: "once", 2: "twice"}.get(number, f"{number} times")


def column(heads, rows, number):
    """The texts of a column, of one width: words to the left, numbers to the right."""
    cells = [row[number] for row in rows]
    texts = [heads[number]] + [ABSENT if cell is None else str(cell) for cell in cells]
    width = max(len(text) for text in texts)
    left = any(isinstance(cell, str) and not isinstance(cell, Figure) for cell in cells)
    return [text.ljust(width) if left else text.rjust(width) for text in texts]


def summary(history):
    """The whole summary as text."""
    lines = head(history)
    for heads, rows in tables(history):
        columns = [column(heads, rows, number) for number in range(len(heads))]
        lines.append("")
        lines += ["  ".join(texts).rstrip() for texts in zip(*columns)]
    return "\n".join(lines) + "\n"
