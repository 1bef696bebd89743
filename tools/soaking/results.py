"""The results of parts: a line each, and the merging of them into the answer of the campaign."""
import hashlib
import json

from viewing.told import BAD_LINE, Told

from .parts import NOT_WHOLE, Part
from .tally import COUNTS, Deepest, Lost, Tally

FORM = "part of a soak"
MARK_LETTERS = 16
FIELDS = ("of", "times", "runs", "first", "most", "worst")


def mark(fields):
    """Some letters that differ where the fields of a result do."""
    text = json.dumps(fields, sort_keys=True)
    return hashlib.sha256(text.encode("ascii")).hexdigest()[:MARK_LETTERS]


def sum_of(image):
    """The sum by which images are told apart."""
    return hashlib.sha256(image.encode("latin-1")).hexdigest()


def result(part, tally, application, image):
    """The result of a part as one line: the files that it is of by their sums, and all that the tally has."""
    deepest = tally.deepest._asdict() if tally.deepest is not None else None
    fields = {"form": FORM, "part": list(part), "application": application.digest,
              "image": sum_of(image), "counts": tally.counts,
              "full": written(tally.full), "merged": written(tally.merged), "deepest": deepest,
              "full_number": tally.full_number, "deepest_number": tally.deepest_number}
    return json.dumps({**fields, "mark": mark(fields)}, separators=(",", ":")) + "\n"


def written(table):
    """A table of what was lost, as fields."""
    return None if table is None else {name: [getattr(lost, field) for field in FIELDS] for name, lost in table.items()}


def read_table(fields):
    """The table that such fields have."""
    if fields is None:
        return None
    return {name: Lost(of, times, runs, pair(first), most, pair(worst))
            for name, (of, times, runs, first, most, worst) in fields.items()}


def pair(fields):
    """A run, or none."""
    return None if fields is None else tuple(fields)


class Result:
    """A result that was read: the part, its tally, the sums of what it is of, and where it stood."""

    def __init__(self, line, place):
        self.place = place
        try:
            fields = json.loads(line)
            marked = fields.pop("mark")
            if fields["form"] != FORM or marked != mark(fields):
                raise ValueError(marked)
            self.part = Part(*fields["part"])
            self.sources = fields["application"], fields["image"]
            self.tally = read_tally(fields)
        except (ValueError, KeyError, TypeError, AttributeError) as failure:
            raise Told(BAD_LINE, f"{place}: no whole result of a part; it was cut off, or changed") from failure
        if self.tally.counts["runs"] != self.part.size():
            raise Told(BAD_LINE, f"{place}: {self.tally.counts['runs']} runs, and the part has {self.part.size()}")


def read_tally(fields):
    """The tally that a result has."""
    tally = Tally(fields["full"] is not None)
    tally.counts = {name: fields["counts"][name] for name in COUNTS}
    tally.full, tally.merged = read_table(fields["full"]), read_table(fields["merged"])
    tally.full_number, tally.deepest_number = fields["full_number"], fields["deepest_number"]
    if fields["deepest"] is not None:
        deepest = Deepest(**fields["deepest"])
        tally.deepest = deepest._replace(run=tuple(deepest.run), chain=tuple(deepest.chain))
    return tally


def whole(parts, results):
    """The tally of all these parts, and what it is of; each has exactly one result, or what is wrong is told."""
    by_part, wanted = {}, set(parts)
    for each in results:
        if each.part not in wanted:
            raise Told(NOT_WHOLE, f"{each.place}: of no call of the list: {each.part}")
        if each.part in by_part:
            raise Told(NOT_WHOLE, f"{each.place}: a second result of one part, {each.part}; the first is "
                                  f"{by_part[each.part].place}")
        by_part[each.part] = each
        first = next(iter(by_part.values()))
        if each.sources != first.sources:
            kind = "applications" if each.sources[0] != first.sources[0] else "images, so of two versions of `rtic`"
            raise Told(NOT_WHOLE, f"{each.place} and {first.place} are of two {kind}")
    missing = [part for part in parts if part not in by_part]
    if missing:
        raise Told(NOT_WHOLE, f"{len(missing)} of {len(parts)} parts have no result; the first is {missing[0]}")
    found = Tally(not parts[0].is_counted)
    for part in parts:
        found.add(by_part[part].tally)
    return found, by_part[parts[0]].sources
