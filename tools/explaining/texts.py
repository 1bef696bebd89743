"""E01 to E04: what the text itself is refused for."""
import functools
import re

from .advice import advised
from .bodies import endless, handed, no_let, other_option, outside, split_name, two_names, values_in_head
from .braces import unclosed
from .calls import Named, called, delayed, is_known, method, nearly, sent_by_sign, unknown_word
from .calls import without_handle, without_task
from .expected import may_stand
from .foreign import FOREIGN, FOREIGN_GUESSES
from .habits import GLUED, GUESSES, SYNTAX, VALUES, looked_up, what_it_is
from .heads import lone_block, named_otherwise, no_item, outside_head, spawned_nothing, typed_values
from .heads import without_parentheses
from .marks import closes_none, comma_for_end, cut_off, ended_early, glued, grouped, in_brackets, last_comma, left_out
from .marks import lettered, lone_number, merge_marks, no_comma, no_operand, no_operator, no_statement, open_parentheses
from .marks import other_end, pasted, prose, stroke, typed, uncalled, unclosed_list, unnamed_option, unopened
from .mending import TAKEN, Mending
from .pieces import pieces_of
from .signs import is_hidden, sign_at, sign_help
from .table import Phrase
from .tokens import NAME, WORDS, Token, all_near, place_of, skipped_bytes, tokens_of
from .trials import Trials

AROUND = 400
DIGITS = 30
NEAR = 32
# how alike a name is to a word that is the only one due, of names that are not too short, and to one of several
OF_ONE, OF_MANY, SHORT = 0.6, 0.75, 3
ONE_TOO_MANY = {
    "tasks": 65, "shared": 65, "locals": 65, "interrupts": 241, "arguments": 5, "nesting": 17, "parentheses": 65,
    "statements": 1_001,
}
FORMS = {
    "app": "`app a(bits = 4, dispatchers = [I, J], fpu = on);`", "interrupts": "`interrupts { I = 5, J = 7 }`",
    "monotonic": "`monotonic(binds = I, priority = 3);`", "shared": "`shared { a = 0, lock_free b = 1 }`",
    "local": "`local { n = 0 }`", "init": "`init(local = [n]) { .. }`",
    "idle": "`idle(shared = [a, &b], local = [n]) { .. }`",
    "task": "`task t(binds = I, priority = 2, shared = [a, &b], local = [n]) { .. }`, or for messages "
    "`task t(priority = 1, capacity = 4) with x, y { .. }`",
    "let": "`let x = a + 1;`, `let x = now;` or `let x = spawn t(a, b);`", "if": "`if a < b { .. } else { .. }`",
    "for": "`for i in 0..8 { .. }`", "lock": "`lock a, b { .. }`", "emit": "`emit a;`", "pend": "`pend I;`",
    "spawn": "`spawn t(a, b);`", "spawn_after": "`spawn_after(100) t(a, b);`", "cancel": "`cancel t(h);`",
    "reschedule_after": "`reschedule_after(100) t(h);`",
}
ORDER = (
    "the declarations come in this order: `app`, `interrupts`, `monotonic`, `shared`, `local`, `init`, `idle`, tasks"
)
STATEMENTS = ("let", "if", "for", "lock", "emit", "pend", "spawn", "spawn_after", "cancel", "reschedule_after")
CALLS = ("spawn", "spawn_after", "cancel", "reschedule_after")
DECLARED = ("app", "interrupts", "monotonic", "shared", "local", "init", "idle", "task")


class Syntax:
    """A place in a text at which it is refused, with the tokens on both sides."""

    def __init__(self, text, at, program=None):
        self.text = text
        self.at = at
        self.trials = Trials(text, at, program)
        self.front = list(tokens_of(text, 0, at))
        self.token = next(tokens_of(text, at), Token("end", "", len(text)))
        self.before = " ".join(token.text for token in self.front[-AROUND:])
        near = text[at : at + AROUND]
        self.behind = " ".join(token.text for token in list(tokens_of(near))[:NEAR])
        self.depth = sum({"{": 1, "}": -1}.get(token.text, 0) for token in self.front)

    @functools.cached_property
    def in_body(self):
        """Whether the place is in a body."""
        piece = next((one for one in reversed(pieces_of(self.text)) if one.start <= self.at), None)
        return bool(piece and piece.has_body and self.depth)

    @functools.cached_property
    def begins_unknown(self):
        """Whether a statement of a body begins with a name that is no other's, directly before the place."""
        if not self.in_body or self.front[-1].kind != "name" or self.front[-2].text not in (";", "{", "}"):
            return False
        return sum(1 for token in self.front + self.rest if token.text == self.front[-1].text) == 1

    @functools.cached_property
    def begins_line(self):
        """Whether the token before the place is the first one of its line, and of a statement."""
        if len(self.front) < 2 or self.front[-2].text not in (";", "{", "}"):
            return False
        start = self.text.rfind("\n", 0, self.front[-1].at) + 1
        return not self.text[start : self.front[-1].at].strip()

    @property
    def is_glued(self):
        """Whether a name begins at the place, directly behind a number."""
        return bool(self.front) and self.front[-1].kind == "number" and self.front[-1].end == self.at

    @functools.cached_property
    def rest(self):
        """The tokens from the place on."""
        return list(tokens_of(self.text, self.at))

    @functools.cached_property
    def named(self):
        """The tasks of the text."""
        return Named(self.front + self.rest)


def too_long(text, table):
    """The cause and the mending of a text that is too long."""
    cause = table.cause("E01", A=Phrase(f"{len(text):,}"))
    return cause, what_it_is(text[:AROUND]) or table.mending("E01", M=Phrase(f"{skipped_bytes(text):,}"))


def foreign(syntax, program, table):
    """The label, the help and the length of a byte that no token begins with."""
    sign, size = sign_at(syntax.text, syntax.at)
    if sign is None or sign < " " or sign == "\x7f":
        return f"no token begins with the byte {ord(syntax.text[syntax.at])}", table.mending("E02"), 1
    label = f"no token begins with {f'U+{ord(sign):04X}' if is_hidden(sign) else f'`{sign}`'}"
    return label, foreign_help(sign, syntax, size, program, table), size


def foreign_help(sign, syntax, size, program, table):
    """How to mend a byte that no token begins with."""
    ways = (lambda: pasted(syntax, None), lambda: sign_help(sign, syntax, size), lambda: no_let(syntax))
    help_ = next(filter(None, (advised(syntax, way()) for way in ways)), None)
    if not ends_line(syntax, size):
        help_ = help_ or sent_by_sign(syntax, None) or looked_up(FOREIGN, syntax) or method(syntax)
    if not help_ and size == 1 and program.answers:
        found = may_stand(program, syntax.text[: syntax.at]) or set()
        mending = Mending(syntax, found, program)
        help_ = mending.slip(syntax, found)
    return advised(syntax, help_) or looked_up(FOREIGN_GUESSES, syntax) or table.mending("E02")


def ends_line(syntax, size):
    """Whether a dot has a blank behind it or ends its line, so that what comes then is no method of what is before."""
    return syntax.text[syntax.at] == "." and not syntax.text[syntax.at + size :][:1].strip()


def syntax_help(syntax, found, program, table):
    """How to mend a fault of syntax: a habit, a sign that is missing, or a change that makes `fmt` take the text."""
    mending = Mending(syntax, found, program)
    ways = [*OF_CALLS, *OF_MARKS, *[habits_of(GLUED)] * syntax.is_glued, habits_of(SYNTAX)]
    ways += [*[habits_of(VALUES)] * syntax.in_body, *OF_PLACE]
    if found:
        ways += [functools.partial(one, mending) for one in (missing, other_type, no_end, no_first)]
        ways += [two_names, mending.slip]
    ways += [habits_of(GUESSES), *IN_DOUBT, *LAST]
    return next(filter(None, (advised(syntax, way(syntax, found)) for way in ways)), None)


def habits_of(rows):
    """What the first row of a table says that fits."""
    return lambda syntax, found: looked_up(rows, syntax)


def form(syntax, found):
    """The form of the declaration or statement in which the place is."""
    if not found:
        return None
    for token, behind in zip(reversed(syntax.front), [syntax.token] + syntax.front[:0:-1]):
        if token.text in FORMS and behind.text != "=":
            return f"the form is {FORMS[token.text]}"
        if token.text in (";", "}") or token.text == "{" and syntax.depth:
            return None
    return None


def returns(syntax, found):
    """A comment that goes on after a carriage return, because that alone ends no line."""
    if re.search(r"//[^\n]*\r[^\n]", syntax.text[: syntax.at]):
        return "a carriage return alone ends no comment: each line ends with a line feed"
    return None


def misspelt(syntax, found):
    """A word of the language that is nearly written, here or before a statement's place."""
    name, words = syntax.token, [word for word in found if word in WORDS or word == "fpu"]
    if found == {"="} and syntax.front[-1].kind == "name":
        first = syntax.front[-2].text
        name, words = syntax.front[-1], STATEMENTS + ("else",) * (first == "}")
        if not syntax.in_body or first not in (";", "{", "}"):
            words = ("lock_free",) if not syntax.in_body else ()
    if name.kind != "name" or syntax.in_body and name is not syntax.token and is_known(syntax, name.text):
        return None
    if name.text.lower() in words:
        return f"words of the language have small letters: `{name.text.lower()}`"
    if glue := grown(syntax, name.text, words):
        return glue
    is_assigned = len(syntax.rest) > 1 and syntax.rest[1].text == "=" and is_known(syntax, syntax.token.text)
    if found == {"="} and syntax.in_body and is_assigned and name.text.lower() not in words:
        return None
    ratio = OF_ONE if len(found) == 1 and len(name.text) >= SHORT else OF_MANY
    near = [word for word in all_near(name.text.lower(), words, ratio)
            if syntax.trials.takes(name.at, name.end, word)]
    return f"`{name.text}` is no word of the language: `{near[0]}` is" if len(near) == 1 else None


def grown(syntax, name, words):
    """A word of the language and a name behind it without a blank."""
    known = {*syntax.named.tasks, *syntax.named.interrupts, *syntax.named.resources}
    for word in words:
        rest = name.removeprefix(word)
        if rest == name or not NAME.fullmatch(rest):
            continue
        start = syntax.at if syntax.token.text == name else syntax.front[-1].at
        is_longer = word in ("task", "with") and len(rest) >= SHORT
        if (rest in known or is_longer) and syntax.trials.takes(start, start + len(name), f"{word} {rest}"):
            return f"a blank comes between two words =>! {word} {rest}"
    return None


def declared(syntax, found):
    """A declaration at a place where others are due."""
    word = syntax.token.text
    if syntax.depth or word not in DECLARED or "task" not in found or syntax.before.endswith("("):
        return None
    depth = 0
    for token in syntax.front:
        depth += {"{": 1, "(": 1, "[": 1, "}": -1, ")": -1, "]": -1}.get(token.text, 0)
        if token.text == word and depth == 0 and word == "monotonic":
            return f"there is one monotonic, that of line {place_of(syntax.text, token.at)[0]}, for all that waits"
        if token.text == word and depth == 0:
            return f"`{word}` comes once, and is in line {place_of(syntax.text, token.at)[0]} already"
    return ORDER


def twice(syntax, found):
    """An option that comes a second time."""
    opened = syntax.before.rfind("(")
    options = ("binds", "priority", "capacity", "shared", "local")
    if syntax.token.text in options and ")" in found and f" {syntax.token.text} =" in syntax.before[opened:]:
        return f"`{syntax.token.text}` comes here a second time, and an option comes once"
    return None


def missing(mending, syntax, found):
    """A semicolon that is forgotten: what comes begins a line, or a statement, or ends the block."""
    if ";" not in found or not syntax.front or syntax.token.kind not in ("word", "name", "sign"):
        return None
    best = mending.rows[0][1] if mending.rows else None
    if best == TAKEN and not mending.takes(";", TAKEN):
        return None
    last = syntax.front[-1]
    new_line = "\n" in syntax.text[last.end : syntax.at]
    begins = syntax.token.text in (*STATEMENTS, *DECLARED, "}")
    if not begins and not mending.takes(";"):
        return None
    if syntax.token.kind == "word" or syntax.token.text == "}" or new_line and syntax.token.kind == "name":
        line, between = place_of(syntax.text, last.at)[0], syntax.text[last.end : syntax.at]
        comment = between.split("\n", 1)[0].strip().startswith("//") and ";" in between
        hidden = "; what follows `//` is a comment" * comment
        hidden += ", and a quotient is `a / b`" * bool(re.search(r"// *[\w( ][^\n;]*; *(?:\n|$)", between))
        if mending.takes(";", TAKEN):
            return f"a `;` is missing after `{last.text}` in line {line}{hidden}"
        return f"a statement or declaration ends with `;`, and none comes after `{last.text}` in line {line}{hidden}"
    return None


def other_type(mending, syntax, found):
    """A type, or another word, before the name of a row, without which the program takes the text."""
    told = typed(syntax, found)
    return told if told and mending.takes_without(syntax.front[-1]) else None


def no_end(mending, syntax, found):
    """An operator, and behind it the end of the expression, which is not one sign too much."""
    told = cut_off(syntax, found)
    if not told or mending.takes_less() or mending.takes_other():
        return None
    return told


def no_first(mending, syntax, found):
    """An operator where an expression begins, which the program takes the text without."""
    before, sign = syntax.front[-1].text if syntax.front else "", syntax.token.text
    if not no_operand(syntax, found) or not mending.rows or not mending.rows[0][0].told == f"with `{sign}` taken out":
        return None
    return f"after `{before}` comes a value: a number, a name or `( .. )`"


def again(syntax, found):
    """A word that comes twice."""
    if syntax.token.kind == "word" and syntax.front and syntax.front[-1].text == syntax.token.text:
        return f"`{syntax.token.text}` comes twice"
    return None


def no_name(syntax, found):
    """A word of the language in the place of a name."""
    if "a name" not in found or {"let", "("} & found:
        return None
    behind = syntax.rest[1].text if len(syntax.rest) > 1 else ""
    if syntax.token.text == "in" and syntax.front[-1].text == "for":
        return "after `for` comes a name: a loop is `for i in 0..8 { .. }`"
    if syntax.token.kind == "word" and syntax.front[-1].text == "let" and behind != "=":
        value = f": `let x = {syntax.token.text} ..;`" if syntax.token.text in CALLS + ("now",) else ""
        return f"after `let` comes a name{value}"
    if path := re.match(r"\w+ : : (?:\w+ : : )*(\w+)", syntax.behind):
        return f"there are no paths: `{path[1]}` alone is a name"
    if syntax.token.kind == "word":
        return f"`{syntax.token.text}` is a word of the language and names nothing, and a name is due here"
    return "a name begins with a letter or `_`" if syntax.token.kind == "number" else None


def chained(syntax, found):
    if syntax.token.text in ("==", "!=", "<", "<=", ">", ">=") and "+" in found:
        return ("comparisons do not chain, and other operators bind before them: `(a < b) & (b < c)` joins two, and "
                "`(a == b) != c` compares what the first one gives, 0 or 1")
    return None


def no_interrupts(syntax, found):
    if found == {"app"} and syntax.token.kind == "name" and [token.text for token in syntax.rest[1:2]] != ["app"]:
        return "the first declaration is `app a(bits = 4);`, with the name of the application"
    if found == {"app"} and syntax.token.text in DECLARED:
        return f"{ORDER}; the first one is `app a(bits = 4);`"
    if found == {"interrupts"} and syntax.token.text == "app":
        return "`app` comes once: it is the first declaration"
    if found == {"interrupts"} and any(token.text == "interrupts" for token in syntax.rest):
        return ORDER if syntax.token.text in DECLARED else None
    if found == {"interrupts"} and syntax.token.kind == "name" and [one.text for one in syntax.rest[1:2]] == ["{"]:
        return "the interrupts are declared next: `interrupts { I = 5 }`"
    if found == {"interrupts"}:
        return "each application declares its interrupts, `interrupts {}` where it has none"
    return None


def limit(syntax, which, table):
    """The cause and the mending of a limit that is passed, with the number that is too much."""
    token = syntax.token
    if which == "number" and len(token.text) > DIGITS:
        return table.cause("E04 number", A=Phrase(f"one of {len(token.text):,} digits")), table.mending("E04 number")
    if which in ONE_TOO_MANY:
        number = ONE_TOO_MANY[which]
    elif which == "turns":
        number = token.value - syntax.front[-2].value
    else:
        number = len(token.text) if which == "name" else token.value if token.kind == "number" else 0
    return table.cause(f"E04 {which}", A=Phrase(f"{number:,}")), table.mending(f"E04 {which}")


# The ways to help, in the order in which they are asked. What begins a call, and marks that are other ones:
OF_CALLS = (without_task, without_handle, called, sent_by_sign, unknown_word, nearly, delayed, spawned_nothing)
OF_MARKS = (
    again, pasted, merge_marks, unclosed_list, stroke, grouped, unopened, lettered, unnamed_option, values_in_head,
    ended_early, endless, handed, other_option, named_otherwise, typed_values, without_parentheses, lone_number, prose,
    comma_for_end,
)
# what the place tells, before the program tries changes; and what is likely where it takes none that goes little far
OF_PLACE = (
    returns, uncalled, outside_head, unclosed, split_name, misspelt, declared, twice, no_comma, chained, no_interrupts,
    last_comma, no_item, glued, in_brackets,
)
IN_DOUBT = (open_parentheses, no_name, typed, no_operand, no_operator, left_out, outside)
LAST = (closes_none, other_end, lone_block, no_statement, form)
