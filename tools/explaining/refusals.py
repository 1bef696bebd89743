"""Status 1: what is said of one refusal of an application's text."""
import re

from . import pages, texts
from .expected import may_stand, met, told
from .rules import FURTHER, REFUSED, TAKEN, Rules
from .tokens import offset_of
from .tree import tree_of

REFUSAL = re.compile(rb"(second )?(\d+):(\d+) E(\d\d) ([^\n]*)\n")
NOT_ASKED = "what may come here is asked of the proved program, which is not built: ./build makes it"


class Refusal:
    """A refusal, as the program wrote it: a place in a text, a number and words."""

    def __init__(self, text, found):
        self.text = text
        self.is_second = bool(found[1])
        self.line, self.column, self.number = int(found[2]), int(found[3]), int(found[4])
        self.words = found[5].decode() if isinstance(found[5], bytes) else found[5]
        self.at = offset_of(text, self.line, self.column)


def refusal_of(text, output):
    """The refusal in an answer of the program, or None."""
    found = REFUSAL.match(output.encode("latin-1"))
    return Refusal(text, found) if found else None


class Telling:
    """Says what there is to say of a refusal, in a report, with the name of the file."""

    def __init__(self, program, table, report, name):
        self.program, self.table, self.report, self.name = program, table, report, name

    def tell(self, refusal):
        text, at, number = refusal.text, refusal.at, refusal.number
        self.report.head(self.name, refusal.line, refusal.column, f"E{number:02} {refusal.words}")
        if number == 1:
            cause, mending = texts.too_long(text, self.table)
            self.report.picture(text, at, 1)
            self.report.sentences([("cause", cause), ("help", mending)])
        elif number == 2:
            label, mending, length = texts.foreign(texts.Syntax(text, at, self.program), self.program, self.table)
            self.report.picture(text, at, length, label)
            self.report.say("help", mending)
        elif number == 3:
            self.syntax(texts.Syntax(text, at, self.program))
        elif number == 4:
            syntax = texts.Syntax(text, at)
            self.report.picture(text, at, len(syntax.token.text))
            cause, mending = texts.limit(syntax, refusal.words.split(" ")[1], self.table)
            self.report.sentences([("cause", cause), ("help", mending)])
        else:
            self.rule(text, at, number)
        self.page(text, at, number)

    def page(self, text, at, number):
        """The section of the documents that says what the refusal is about."""
        in_body = number in (2, 3) and texts.Syntax(text, at).in_body
        self.report.say("page", pages.named(pages.of_refusal(number, in_body)))

    def syntax(self, syntax):
        """What may come there, what is there, and how to mend it."""
        found = may_stand(self.program, syntax.text[: syntax.at]) if self.program.answers else None
        label = f"found {met(syntax.token)}"
        if found:
            label = f"expected {told(found, syntax.front)}, {label}"
        length = max(len(syntax.token.text), 1)
        self.report.picture(syntax.text, syntax.at, length, label, syntax.front[-1].at if syntax.front else None)
        mending = texts.syntax_help(syntax, found or set(), self.program, self.table)
        if mending or found:
            self.report.say("help", mending or self.table.mending("E03"))
        if not self.program.answers:
            self.report.say("note", NOT_ASKED)

    def stands_for(self, text, at):
        """How far the program comes with another name at a place: TAKEN, where it takes the whole text; FURTHER, where
        it goes on behind the name; else REFUSED. None, where no program answers."""
        if not self.program.answers:
            return None
        token = texts.Syntax(text, at).token

        def stands(name):
            made = f"{text[: token.at]}{name}{text[token.end :]}"
            status, output = self.program.ask("check", self.program.file("named", made))
            refusal = refusal_of(made, output)
            if status == 0:
                return TAKEN
            return FURTHER if refusal is not None and refusal.at > at else REFUSED

        return stands

    def rule(self, text, at, number):
        rules = Rules(tree_of(text), at, self.stands_for(text, at))
        syntax = texts.Syntax(text, at)
        self.report.picture(text, at, len(syntax.token.text))
        getattr(rules, f"e{number:02}")(self.table)
        self.report.sentences([("cause", cause) for cause in rules.causes] + [("help", one) for one in rules.helps])
        for sentence, start, length in rules.notes:
            self.report.note(sentence, self.name, text, start, length)
