"""The table of causes and mending in causes.md, which is read here and is nowhere else."""
import pathlib
import re

PAGE = pathlib.Path(__file__).resolve().parent / "causes.md"


class Phrase(str):
    """A value that takes the place of its letter together with the backticks round it."""


def rows_of(page):
    """The rows of the table: a key, a cause, and how to mend it."""
    for line in page.splitlines():
        cells = [cell.strip().replace("\\|", "|") for cell in re.split(r"(?<!\\)\|", line)[1:-1]]
        if len(cells) == 3 and re.match(r"(E\d\d|script|board|trace|limits|image|verify)\b", cells[0]):
            yield cells[0], cells[1], cells[2]


def filled(cell, values):
    """A cell with values in place of its letters, which are in backticks."""

    def span(found):
        inner = found.group(1)
        if isinstance(values.get(inner), Phrase):
            return values[inner]
        return "`" + re.sub(r"\b[A-Z]\b", lambda word: values.get(word.group(), word.group()), inner) + "`"

    return re.sub(r"`([^`]*)`", span, cell)


class Table:
    """The rows by their keys."""

    def __init__(self, path=PAGE):
        self.rows = {key: (cause, mending) for key, cause, mending in rows_of(path.read_text(encoding="utf-8"))}

    def cause(self, key, **values):
        return filled(self.rows[key][0], values)

    def mending(self, key, **values):
        return filled(self.rows[key][1], values)
