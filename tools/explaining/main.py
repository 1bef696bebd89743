"""`tools/explain COMMAND FILES..`: the same command of the program, its bytes and status, and more said."""
import itertools
import os
import re
import stat
import subprocess
import traceback

from . import audits, boards, every, forms, images, limits, pages, responding, scripts, words as wording
from .lines import LAST, LINE_REFUSAL, refused_lines
from .refusals import NOT_ASKED, REFUSAL, Refusal, Telling
from .report import Report, shown
from .rules import counted
from .responses import Responses
from .table import Table
from .tokens import MOST_BYTES, offset_of, place_of
from .tree import tree_of
from .warnings import warnings_of

WARNINGS = 20
PLACES = 3
FRONT = 4_096
APPLICATION, SECOND = MOST_BYTES, 268_435_456
DONE, REFUSED, USAGE, BAD_LINE, NO, UNREAD = range(6)
# the answer of `rticx respond` for an application that it has no numbers for
FORMLESS = b"- form\n"
# the commands that judge the image of a listing
JUDGING = ("verify", "rticx why", "rticx bounds")
POST = re.compile(r"code \d+ post ")


class Explained:
    """The words of one call, the files as the caller names them, and as they can be read again."""

    def __init__(self, program, words, is_all):
        self.program, self.words, self.is_all = program, words, is_all
        self.is_beside = wording.is_of_beside(words)
        self.names = [shown(name) for name in words[1:]]
        files = wording.files_of(words)
        self.paths = [self.kept(number, name) for number, name in enumerate(files)]
        self.handed = words[:1] + self.paths + words[1 + len(files) :]
        self.report = Report()
        self.table = Table()

    def kept(self, number, name):
        """The path of a file; of standard input or what is no file, as a pipe, a copy that can be read again."""
        is_input = wording.inputs_of(self.words) == [number + 1]
        try:
            mode = 0 if is_input else os.stat(name).st_mode
            if stat.S_ISREG(mode) or stat.S_ISDIR(mode):
                return name
            path = os.path.join(self.program.folder.name, f"input{number}")
            left = (APPLICATION if number == 0 and self.words[0] not in JUDGING else SECOND) + 1
            source = open(0 if is_input else name, "rb", closefd=not is_input)
            with source, open(path, "wb") as copy:
                while piece := source.read(min(1 << 16, left)):
                    left -= copy.write(piece)
            return path
        except OSError:
            return name

    def text(self, number):
        """A file's text, one character a byte; a path of no letters is an empty text, as it is to the program."""
        if not self.paths[number]:
            return ""
        with open(self.paths[number], "rb") as file:
            return file.read().decode("latin-1")

    def explain(self, status, front):
        """Says more on an answer."""
        if status == DONE and self.words[0] == "check":
            self.warn()
        elif status == DONE and self.words[0] == "times":
            self.responses(front.decode("latin-1"))
        elif front.startswith(FORMLESS) and self.words[0] == "rticx respond":
            self.other_form(FORMLESS.decode().strip())
            self.page(pages.OF_FORMS[self.words[0]])
        elif status == REFUSED and (found := REFUSAL.match(front)):
            self.refused(Refusal(self.text(1 if found[1] else 0), found))
        elif status == USAGE:
            self.command_line()
            self.page(pages.COMMANDS)
        elif status == BAD_LINE and (found := LINE_REFUSAL.match(front.decode("latin-1"))):
            self.bad_lines(found[1], int(found[2]), int(found[3]), found[4])
        elif status == NO and front == b"no\n" and self.words[0] in JUDGING:
            self.own_requests()
            self.page(pages.VERIFY_TIMES)
        elif status == NO and self.words[0] in JUDGING:
            self.broken_rule(int(front.split()[1]))
            self.page(pages.VERIFY)
        elif status == NO and front.startswith(b"no "):
            self.wrong_item(int(front[3:]))
            self.page(pages.AUDITS)
        elif status == NO and front == b"no\n":
            self.other_form("no")
            self.page(pages.OF_FORMS[self.words[0]])
        elif status == UNREAD:
            self.report.line(shown(wording.of_files(wording.files_of(self.words))))

    # Status 2.

    def command_line(self):
        """The words with a caret under the wrong one."""
        words = [shown(word) for word in self.words]
        words = words[0].split(" ") + words[1:] if self.is_beside else ["rtic"] + words
        wrong = wording.wrong_word(self.words) + 1
        self.report.line(" ".join(words))
        start = len(" ".join(words[:wrong])) + 1
        self.report.line(" " * start + "^" * max(len(words[wrong]) if wrong < len(words) else 1, 1))
        self.report.sentences(wording.of_words(self.words))

    # Status 1.

    def refused(self, refusal):
        which = 1 if refusal.is_second else 0
        if self.is_all and self.program.answers:
            return self.all_refused(which)
        if self.is_all:
            self.report.say("note", NOT_ASKED.replace("what may come here", "what else is refused"))
        return Telling(self.program, self.table, self.report, self.names[which]).tell(refusal)

    def all_refused(self, which):
        """Each refusal of the application; of `pair` those of the second one too."""
        command = "fmt" if self.words[0] == "fmt" else "check"
        places = range(which, 2 if self.words[0] == "pair" else which + 1)
        for place in places:
            every.tell(self.program, self.table, self.report, self.names[place], self.text(place), command)

    # Status 0, of check.

    def warn(self):
        text, report = self.text(0), self.report
        rows = warnings_of(tree_of(text))
        for token, sentence, mending, note in rows[:WARNINGS]:
            line, column = place_of(text, token.at)
            report.head(self.names[0], line, column, f"warning: {sentence}")
            report.picture(text, token.at, len(token.text))
            if mending:
                report.say("help", mending)
            if note:
                report.note(note[0], self.names[0], text, note[1].at, len(note[1].text))
        if len(rows) > WARNINGS:
            report.line(f"{self.names[0]}: {len(rows) - WARNINGS} more warnings are not shown")

    def responses(self, output):
        """What is seldom meant in limits, of `times`."""
        app, lines = tree_of(self.text(0)), self.text(1).split("\n")
        said = Responses(app, lines, output)
        for token, sentence in said.unlimited()[:WARNINGS]:
            line, column = place_of(self.text(0), token.at)
            self.report.head(self.names[0], line, column, f"warning: {sentence}")
            self.report.picture(self.text(0), token.at, len(token.text))
        for line, name, sentence in itertools.islice(said.merged(), WARNINGS):
            start = lines[line - 1].find(name)
            self.report.head(self.names[1], line, start + 1, f"warning: {sentence}")
            self.report.rows([(line, lines[line - 1])], start, len(name), "")
        if overloaded := said.overloaded():
            level, sentence = overloaded
            self.report.line(f"time {level} -: {sentence}")

    # Statuses 3 and 4.

    def first_lines(self, place, count):
        """So many lines of a file."""
        with open(self.paths[place], encoding="latin-1", newline="\n") as file:
            return [line.rstrip("\n") for line in itertools.islice(file, count)]

    def bad_lines(self, which, line, number, words):
        """A refused line, or with `--all` each."""
        is_third = self.words[0] == "pair" or self.is_beside and which not in ("board", "limits")
        place = {"image": 0}.get(which, 2 if is_third else 1)
        if not self.is_all or which == "image" or self.is_beside or not self.program.answers:
            return self.bad_line(which, line, number, words, place)
        found = list(refused_lines(self.program, self.handed, place, self.text(place)))
        for line, number, words in found:
            self.bad_line(which, line, number, words, place)
        return self.report.line(f"{self.names[place]}: {counted(len(found), 'refused line')}")

    def taking(self, place, line):
        """Says of a text whether the program reads a file behind its line with that in the place of the line."""

        def takes(put):
            if not self.program.answers:
                return False
            lines, files = self.text(place).removesuffix("\n").split("\n"), list(self.handed[1:])
            files[place] = self.program.file("line", "\n".join(lines[: line - 1] + [put] + lines[line:] + [LAST]))
            found = LINE_REFUSAL.match(self.program.ask(self.words[0], *files)[1])
            return bool(found) and int(found[2]) > line

        return takes

    def bad_line(self, which, line, number, words, place):
        lines, size = self.first_lines(place, line), os.path.getsize(self.paths[place])
        source, takes = lines[line - 1] if line <= len(lines) else "", self.taking(place, line)
        if which == "image":
            text = self.text(0)
            said = images.image_line(number, lines, line, text[:FRONT], text.endswith("\n"), size, self.table, takes)
        elif which == "limits" and self.words[0] in JUDGING:
            said = limits.limits_line(limits.Rows(self.text(0)), number, source, lines, size, self.table, takes)
        elif which == "board":
            said = boards.board_line(tree_of(self.text(0)), number, source, lines, size, self.table, takes)
        elif said := self.beside_board(which, number, source):
            pass
        elif which == "script":
            said = scripts.script_line(tree_of(self.text(0)), number, source, lines, size, self.table, takes,
                                       self.is_beside)
        elif which == "limits":
            of_line = responding.respond_line if self.is_beside else limits.limits_line
            said = of_line(tree_of(self.text(0)), number, source, lines, size, self.table, takes)
        else:
            said = scripts.trace_line(tree_of(self.text(0)), number, source, lines, line, self.table, takes)
        self.report.head(self.names[place], line, said.start + 1, f"{which} {number} {words}")
        self.report.rows([(line, source)], said.start, said.length, "")
        self.report.sentences([("cause", said.cause)] + [("help", one) for one in said.helps])
        self.page(pages.of_line(which, self.is_beside and not (which == "limits" and self.words[0] in JUDGING)))

    def page(self, section):
        """The section of the documents that says more."""
        self.report.say("page", pages.named(section))

    def beside_board(self, which, number, source):
        """What is said of a line that is one beside a board alone, or None."""
        if not self.is_beside:
            return None
        of_line = boards.given_line if which == "script" else boards.shown_line
        return of_line(tree_of(self.text(0)), self.text(1).splitlines(), number, source, self.table)

    def own_requests(self):
        """Where an image requests interrupts itself."""
        text, report = self.text(0), self.report
        report.line(wording.FORMS[self.words[0]])
        found = [at for at, line in enumerate(text.splitlines(), 1) if POST.match(line)]
        for at in found[:PLACES]:
            line = text.splitlines()[at - 1]
            report.head(self.names[0], at, 1, "no")
            report.rows([(at, line)], 0, len(line), "this instruction requests an interrupt")
        if len(found) > PLACES:
            report.say("note", f"{len(found) - PLACES} more places are not shown")

    def broken_rule(self, number):
        """The least rule that an image breaks, and where."""
        text, report, key = self.text(0), self.report, f"verify {number}"
        breach, why = images.broken(text, number)
        if not breach:
            report.line(f"{self.names[0]}: no {number}")
            report.sentences([("cause", self.table.cause(key)), ("help", self.table.mending(key)), ("note", why)])
            return None
        lines = text.split("\n")
        report.head(self.names[0], breach.line, 1, f"no {number}")
        report.rows([(breach.line, lines[breach.line - 1])], 0, len(lines[breach.line - 1]), breach.label)
        report.say("cause", breach.cause)
        self.report.sentences([("help", one) for one in breach.helps or [self.table.mending(key)]])
        for sentence, line in breach.notes:
            report.note(sentence, self.names[0], text, offset_of(text, line, 1), len(lines[line - 1]))
        return report.say("note", breach.remark) if breach.remark else None

    def other_form(self, answer):
        """Which conditions of its command an application does not meet, and where."""
        text, report, command = self.text(0), self.report, self.words[0]
        report.line(wording.FORMS[command])
        for one in forms.failed(tree_of(text), command):
            token, label = one.places[0]
            line, column = place_of(text, token.at)
            report.head(self.names[0], line, column, answer)
            report.picture(text, token.at, len(token.text), label)
            report.say("cause", forms.need(one.key, command))
            for token, label in one.places[1 : 1 + PLACES]:
                report.note(label, self.names[0], text, token.at, len(token.text))
            if len(one.places) > 1 + PLACES:
                report.say("note", f"{len(one.places) - 1 - PLACES} more places are not shown")

    def wrong_item(self, number):
        """The item that is the first wrong one, and what `audit` takes in its place."""
        if self.is_beside:
            return self.wrong_line(number)
        wrong, report = number - 1, self.report
        trace = audits.Trace(self.paths[1], wrong)
        in_total = wrong == len(trace.items)
        at = trace.total[0] if in_total else trace.items[wrong][0]
        label = f"item {number} is the first that is wrong"
        if in_total:
            label = f"all {wrong} items are right, and the total is not"
        report.head(self.names[1], at, 1, f"no {number}")
        lines = [(one, trace.lines[one - 1]) for one in range(max(at - 1, 1), at + 1)]
        report.rows(lines, 0, len(lines[-1][1]), label)
        if not self.program.answers:
            return report.say("note", NOT_ASKED.replace("here", "in its place"))
        app = tree_of(self.text(0))
        asked = audits.Asked(app, audits.Audit(self.program, self.paths[0], trace, wrong), trace, wrong, self.bound())
        return self.report.sentences(audits.told_total(asked) if in_total else audits.told_item(asked))

    def wrong_line(self, number):
        """The line that is the first wrong one of a trace beside devices, and the input that is due there, if any."""
        wrong, report = number - 1, self.report
        trace = audits.Trace(self.paths[2], wrong)
        right = [line for _, line in trace.items[:wrong]]
        due = boards.due_input(tree_of(self.text(0)), self.text(1).splitlines(), right)
        if wrong < len(trace.items):
            at, label = trace.items[wrong][0], f"line {number} of the trace is the first that is wrong"
        else:
            at = trace.total[0] if trace.total else len(trace.lines)
            label = f"all {wrong} lines are right, and what comes behind them is not"
        report.head(self.names[2], at, 1, f"no {number}")
        lines = [(one, trace.lines[one - 1]) for one in range(max(at - 1, 1), at + 1)]
        report.rows(lines, 0, len(lines[-1][1]), label)
        return report.say("cause", due) if due else None

    def bound(self):
        """The stack bound, as `check` prints it."""
        _, output = self.program.ask("check", self.paths[0])
        found = re.search(r"^stack (\d+)$", output, re.MULTILINE)
        return int(found[1]) if found else 0


def explained_call(program, words):
    """Runs the words, and answers the program's status and the report of what more is said."""
    explained = Explained(program, *wording.without_all(wording.joined(words)))
    status, front = program.run(explained.handed)
    try:
        explained.explain(status, front)
    except (OSError, subprocess.TimeoutExpired) as fault:
        explained.report.line(f"tools/explain: no more can be said: {fault}")
    except (ValueError, KeyError, IndexError, AttributeError, TypeError, StopIteration, RecursionError):
        explained.report.line("tools/explain: no more can be said here; this is a fault of tools/explain")
        if os.environ.get("RTIC_EXPLAIN_DEBUG"):
            traceback.print_exc()
    return status, explained.report


def main(program, words):
    """Runs the words, says more on standard error, and answers the program's status."""
    status, report = explained_call(program, words)
    report.write()
    return status
