"""Makes the page: one file with the trace, what was followed in it, and the script that draws it."""
import base64
import html
import json
import os
import sys
from array import array

from .summary import ABSENT, head, load, tables

FOLDER = os.path.join(os.path.dirname(os.path.abspath(__file__)), "web")
SCRIPTS = ("data.js", "sight.js", "lanes.js", "rows.js", "chart.js", "panel.js", "check.js", "start.js")


def numbers(values):
    """Numbers below 2^32 as text: base64 of words of 32 bits, the lowest byte first."""
    words = array("I", values)
    if sys.byteorder == "big":
        words.byteswap()
    return base64.b64encode(words.tobytes()).decode("ascii")


def layers(sections):
    """Sections by how many are outside them and by name: the depth, the name's number, and the spans."""
    found = {}
    for at in range(0, len(sections), 4):
        begin, end, name, depth = sections[at:at + 4]
        found.setdefault((depth, name), []).extend((begin, end))
    return [{"depth": depth, "lock": name, "spans": numbers(spans)} for (depth, name), spans in sorted(found.items())]


def row_data(history, row):
    """What the page is told of a row."""
    task = row.task
    return {
        "name": task.name, "interrupt": task.interrupt, "priority": task.priority, "kind": task.kind,
        "cost": task.cost, "wait": history.application.wait(task) if task.kind != "thread" else None,
        "capacity": task.capacity, "load": load(history, row), "running": numbers(row.running),
        "serving": numbers(row.serving), "preempted": numbers(row.preempted), "pending": numbers(row.pending),
        "jobs": numbers(row.jobs), "sections": layers(row.sections),
    }


def lock_data(history):
    """The names of sections, with their ceilings where `check` was read."""
    report = history.application.report
    ceilings = report.ceilings if report is not None else {}
    return [{"name": name, "ceiling": ceilings.get(name)} for name in history.locks]


def input_data(history):
    """The inputs, with the number of the row that finds their values."""
    return [{"name": track.name, "row": track.row.number, "found": numbers(track.found)}
            for track in history.inputs.values()]


def page_data(history):
    """All that the page is told beside the text."""
    report, output = history.application.report, history.output
    rows = array("H", history.item_rows)
    if sys.byteorder == "big":
        rows.byteswap()
    return {
        "name": output.title, "end": history.end, "first": output.first,
        "items": output.last - output.first, "bound": report.stack if report is not None else None,
        "deepest": history.deepest, "rows": [row_data(history, row) for row in history.rows],
        "locks": lock_data(history), "marks": numbers(history.marks), "arrows": numbers(history.arrows),
        "stack": numbers(history.stack), "ticks": numbers(history.ticks), "alarms": numbers(history.alarms),
        "order": [row.number for row in history.shown()], "head": head(history),
        "inputs": input_data(history),
        "itemRows": base64.b64encode(rows.tobytes()).decode("ascii"),
    }


def table(heads, rows):
    """A table of the summary as HTML."""
    names = "".join(f"<th>{html.escape(name)}</th>" for name in heads)
    lines = []
    for row in rows:
        cells = (ABSENT if cell is None else str(cell) for cell in row)
        lines.append("<tr>" + "".join(f"<td>{html.escape(cell)}</td>" for cell in cells) + "</tr>")
    return f"<table><thead><tr>{names}</tr></thead><tbody>{''.join(lines)}</tbody></table>"


def part(name):
    """A file of the page."""
    with open(os.path.join(FOLDER, name), encoding="utf-8") as file:
        return file.read()


def page(history):
    """The whole page as text. No line that was read has a sign of HTML in it, so the lines are put in as they are."""
    parts = {
        "TITLE": html.escape(history.output.title), "STYLE": part("style.css"),
        "SCRIPT": "\n".join(part(name) for name in SCRIPTS),
        "DATA": json.dumps(page_data(history), separators=(",", ":")).replace("<", "\\u003c"),
        "TEXT": "\n".join(history.output.lines), "TABLES": "".join(table(*each) for each in tables(history)),
    }
    pieces = part("page.html").split("@@")
    return "".join(parts[piece] if number % 2 else piece for number, piece in enumerate(pieces))
