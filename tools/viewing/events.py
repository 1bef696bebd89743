"""Writes a run as trace events, which Perfetto and other viewers read: JSON, a core step as a microsecond."""
import json

PROCESS = 1
KINDS = ("emit", "full", "trap", "request", "cancel", "move", "merged")


def event(kind, name, row, step, **more):
    """One event; rows are threads, numbered from 1."""
    return {"ph": kind, "name": name, "pid": PROCESS, "tid": row + 1, "ts": step, **more}


def named(history, shown):
    """The names of the rows, in their order."""
    yield {"ph": "M", "name": "process_name", "pid": PROCESS, "args": {"name": history.output.title}}
    for place, row in enumerate(shown):
        yield event("M", "thread_name", row.number, 0, args={"name": row.label()})
        yield event("M", "thread_sort_index", row.number, 0, args={"sort_index": place})
    yield event("M", "thread_name", len(history.rows), 0, args={"name": "ticks, alarms"})


def spans_of(history, row):
    """A row's jobs, and within them the sections and where it was preempted; what waits is apart."""
    number = row.number
    for begin, end in zip(row.jobs[::3], row.jobs[1::3]):
        yield event("X", row.task.name, number, begin, dur=end - begin)
    names = list(history.locks)
    for at in range(0, len(row.sections), 4):
        begin, end, name, _ = row.sections[at:at + 4]
        yield event("X", names[name], number, begin, dur=end - begin, cat="section")
    for begin, end in zip(row.preempted[::2], row.preempted[1::2]):
        yield event("X", "preempted", number, begin, dur=end - begin, cat="preempted")
    for count, (begin, end) in enumerate(zip(row.pending[::2], row.pending[1::2])):
        mark = f"{number}.{count}"
        yield event("b", "pending " + row.task.name, number, begin, id=mark, cat="pending")
        yield event("e", "pending " + row.task.name, number, end, id=mark, cat="pending")


def marks_of(history, shown):
    """What happens at one step: emitted values, requests, refusals, ticks and alarms."""
    numbers = {row.number for row in shown}
    marks, lines = history.marks, history.output.lines
    for at in range(0, len(marks), 4):
        step, row, kind, line = marks[at:at + 4]
        if row in numbers:
            name = " ".join(lines[line].split(" ")[1:])
            yield event("i", name, row, step, s="t", cat=KINDS[kind])
    clock = len(history.rows)
    for number, step in enumerate(history.ticks, 1):
        yield event("i", "tick", clock, step, s="t", args={"time": number})
    for step in history.alarms:
        yield event("i", "alarm", clock, step, s="t")


def arrows_of(history):
    """Messages and requests by software, from who sends to who starts."""
    arrows = history.arrows
    for number in range(0, len(arrows), 5):
        sender, sent, receiver, step, _ = arrows[number:number + 5]
        yield event("s", "message", sender, sent, id=number, cat="message")
        yield event("f", "message", receiver, step, id=number, cat="message", bp="e")


def counters_of(history):
    """The stack in use, and its bound."""
    report = history.application.report
    if report is not None:
        for step in (0, history.end):
            yield event("C", "stack bound", 0, step, args={"bytes": report.stack})
    for step, depth in zip(history.stack[::2], history.stack[1::2]):
        yield event("C", "stack", 0, step, args={"bytes": depth})


def values_of(history):
    """The values of inputs, a counter each."""
    for name, track in history.inputs.items():
        for step, value in track.changes():
            yield event("C", name, track.row.number, step, args={"value": value})


def all_events(history):
    """All events of a run."""
    shown = history.shown()
    yield from named(history, shown)
    for row in shown:
        yield from spans_of(history, row)
    yield from arrows_of(history)
    yield from marks_of(history, shown)
    yield from counters_of(history)
    yield from values_of(history)


def trace_events(history):
    """The whole file, in pieces: an event a line."""
    write = json.JSONEncoder(separators=(",", ":")).encode
    before = '{"displayTimeUnit":"ns","traceEvents":[\n'
    for each in all_events(history):
        yield before + write(each)
        before = ",\n"
    yield "\n]}\n"
