"""What the program answers to a text: refusals and warnings as tools/explain tells them, and the report of check."""
import subprocess
from dataclasses import dataclass, field

from explaining.every import Every
from explaining.patched import Patched
from explaining.program import Program
from explaining.refusals import Telling, refusal_of
from explaining.table import Table
from explaining.tree import tree_of
from explaining.warnings import warnings_of
from viewing.report import read_report

DONE, REFUSED = 0, 1
FAILURES = (OSError, subprocess.TimeoutExpired)
# what a fault of tools/explain raises: then the program's own words are shown
FAULTS = (ValueError, KeyError, IndexError, AttributeError, TypeError, StopIteration, RecursionError)


@dataclass
class Finding:
    """A refusal or a warning: its number if it has one, its place, and what is said of it and of other places."""

    number: str
    words: str
    start: int
    length: int = 1
    sentences: list = field(default_factory=list)
    notes: list = field(default_factory=list)

    @property
    def message(self):
        return "\n".join([self.words] + self.sentences)


class Taken:
    """Takes what tools/explain says of a refusal as a finding, in place of lines. The refusal is one of a text that was
    changed, and the finding has the places of the text that it came from."""

    def __init__(self, refusal, patched):
        self.patched = patched
        self.finding = Finding(f"E{refusal.number:02}", refusal.words, patched.origin(refusal.at))

    def head(self, file, line, column, words):
        """The number and the words are those of the refusal."""

    def picture(self, text, offset, length, label="", lead=None):
        self.finding.start, self.finding.length = self.patched.origin(offset), length
        self.finding.words += f": {label}" if label else ""

    def say(self, kind, sentence):
        self.finding.sentences.append(f"{kind}: {sentence}")

    def sentences(self, rows):
        for kind, sentence in rows:
            self.say(kind, sentence)

    def note(self, sentence, file, text, offset, length):
        if not self.patched.is_made(offset):
            self.finding.notes.append((sentence, self.patched.origin(offset), length))


class Wanted(Every):
    """The refusals of a text, while they are wanted."""

    def __init__(self, program, text, is_wanted):
        super().__init__(program, text, "check")
        self.is_wanted = is_wanted

    def next_refusal(self):
        return super().next_refusal() if self.is_wanted() else None


class Asked:
    """Asks the program that answers at once. Each thread has one of its own, because its files have fixed names."""

    def __init__(self):
        self.program = Program(lambda piece: True)
        self.table = Table()

    @property
    def answers(self):
        return self.program.answers

    def look(self):
        """Looks for the program again where it was not there."""
        if not self.answers:
            self.program.look()

    def whole(self, command, data):
        """The status and the output of a command on a text; the status is None where the program cannot be run."""
        try:
            return self.program.whole(command, self.program.file("text", data)) if self.answers else (None, "")
        except FAILURES:
            return None, ""

    def findings(self, data, is_wanted):
        """Lists of findings, each in place of the one before: of an accepted text its warnings; else the program's
        refusal, and then all refusals that can be told, as long as they are wanted."""
        status, output = self.whole("check", data)
        if status == DONE:
            yield warnings(data)
        elif status == REFUSED:
            first = refusal_of(data, output)
            yield [self.told(first, Patched(data))]
            more = self.refusals(data, is_wanted)
            if len(more) > 1 and is_wanted():
                yield [self.told(refusal, patched) for refusal, patched in more]
        else:
            yield []

    def refusals(self, data, is_wanted):
        """All refusals of a text that can be told, the program's own first, each with the text that it is of."""
        try:
            return Wanted(self.program, data, is_wanted).refusals()
        except FAILURES + FAULTS:
            return []

    def told(self, refusal, patched):
        """What is said of a refusal."""
        taken = Taken(refusal, patched)
        try:
            Telling(self.program, self.table, taken, "").tell(refusal)
        except FAILURES + FAULTS:
            taken.finding.sentences = []
        return taken.finding

    def report(self, text):
        """What `check` prints of a text, read; or the line with which it refuses it; or None without the program."""
        if text.report is None:
            status, output = self.whole("check", text.data)
            if status == DONE:
                text.report = read_report("check", output)
            elif status == REFUSED:
                text.report = output.rstrip("\n")
        return text.report

    def close(self):
        self.program.folder.cleanup()


def warnings(data):
    """The warnings of an accepted text."""
    found = []
    for token, sentence, mending, note in warnings_of(tree_of(data)):
        finding = Finding("", sentence, token.at, len(token.text), [f"help: {mending}"] if mending else [])
        finding.notes = [(note[0], note[1].at, len(note[1].text))] if note else []
        found.append(finding)
    return found
