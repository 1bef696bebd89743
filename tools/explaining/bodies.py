"""Habits for which it matters whose body it is, or what the text has named: loops without an end, values in a head."""
import re

from .calls import of_task
from .pieces import pieces_of
from .tokens import WORDS, between, nearest

CONTEXTS = ("cx", "ctx", "_cx", "_c", "self", "context")
ENDLESS = {"loop": r"\{", "while": r"(?:1|true)\b|\( (?:1|true) \)", "for": r"\( ; ; \)"}
SENDS = re.compile(r"send|put|post|push|give|notify|signal|queue|start|run|call|wake|resume|trigger|submit|dispatch"
                   r"|schedule", re.IGNORECASE)
# a sign of one byte or of UTF-8 between the two halves of a word
PARTED = r"(?:[^\w\s]{1,3})"
STOPS = re.compile(r"stop|cancel|abort|kill|withdraw|clear", re.IGNORECASE)
STATEMENTS = ("let", "if", "for", "lock", "emit", "pend", "spawn", "spawn_after", "cancel", "reschedule_after")
# the words after which a name is declared
VALUES = "`task t(priority = 1) with x, y { .. }`"
NAMING = ("app", "task", "let", "for", "with")
OF_APP, NEAR, ALIKE = ("bits", "dispatchers", "fpu"), 0.75, 0.6


def piece_of(syntax):
    """The declaration or the task in which the place is."""
    return next((piece for piece in reversed(pieces_of(syntax.text)) if piece.start <= syntax.at), None)


def endless(syntax, found):
    """A loop without an end in the body of a task, which is to end."""
    word = re.search(r"[;{}] (while|loop|for)$", syntax.before)
    if not word or not re.match(ENDLESS[word[1]], syntax.behind):
        return None
    piece = piece_of(syntax)
    if not piece or piece.word != "task" or len(piece.tokens) < 2:
        return None
    name = piece.tokens[1].text
    if syntax.named.tasks.get(name):
        return "no body runs for ever: a handler runs once for each request of its interrupt"
    return "no body runs for ever: a software task runs once for each message, and can send itself the next one"


def values_in_head(syntax, found):
    """Names in the parentheses of a task's head, as a function has its parameters there."""
    front, token = syntax.front, syntax.token
    if not {"capacity", ")"} <= found or token.kind != "name" or front[-1].text not in ("(", ","):
        return None
    opened = max(number for number, one in enumerate(front) if one.text == "(")
    behind = between([front[opened]] + syntax.rest)[0]
    names = [one.text for one in behind]
    if set(names[1::2]) - {","} or front[opened - 2].text != "task" or any(one.kind != "name" for one in behind[::2]):
        return None
    if token.text in syntax.named.interrupts + syntax.named.resources:
        return None
    values = [name for name in names[::2] if name not in CONTEXTS and not is_context(syntax, name)]
    if not values:
        return None
    is_whole = front[-1].text == "(" and behind[-1] is between([front[opened]] + syntax.rest)[0][-1]
    change = f" => task {front[opened - 1].text} with {', '.join(values)}" * is_whole
    return f"options have names, as `priority = 1`, and the values of a message come after `with`: {VALUES}{change}"


def is_context(syntax, name):
    """Whether something is taken out of a name, as from RTIC's context."""
    texts = [token.text for token in syntax.rest]
    return any(pair == (name, ".") for pair in zip(texts, texts[1:]))


def handed(syntax, found):
    """A function of another system, called with a task: what is sent to it is a message."""
    name = syntax.front[-1] if syntax.front else None
    if not name or syntax.token.text != "(" or name.kind != "name":
        return None
    if not STOPS.search(name.text) and not SENDS.search(name.text):
        return None
    inner = [token.text for token in between(syntax.rest)[0]]
    first = inner[1:2] if inner[:1] == ["&"] else inner[:1]
    if not first or first[0] not in syntax.named.tasks or name.text in syntax.named.tasks:
        return None
    return of_task(syntax, first[0])


def other_option(syntax, found):
    """An option that the first declaration does not have."""
    behind = syntax.rest[1].text if len(syntax.rest) > 1 else ""
    if not re.match(r"app \w+ \((?:[^()]* ,)?$", syntax.before) or syntax.token.kind != "name" or behind != "=":
        return None
    if nearest(syntax.token.text.lower(), OF_APP, NEAR):
        return None
    return f"`app` has no `{syntax.token.text}`: it takes `bits`, then `dispatchers`, then `fpu`"


def split_name(syntax, found):
    """Two words that are one name, or one word of the language, with a blank in it."""
    last = syntax.front[-1] if syntax.front else None
    whole = "_".join(token.text for token in syntax.rest[:2])
    behind = re.match(rf"{PARTED}([A-Za-z]\w*)", syntax.text[syntax.token.end :], re.ASCII)
    if behind and f"{syntax.token.text}_{behind[1]}" in found:
        whole = f"{syntax.token.text}_{behind[1]}"
    elif last and (behind := re.match(rf"{PARTED}([A-Za-z]\w*)", syntax.text[syntax.at :], re.ASCII)):
        whole = f"{last.text}_{behind[1]}" if f"{last.text}_{behind[1]}" in WORDS else whole
    joined = "".join(token.text for token in syntax.rest[:2])
    if whole in WORDS or joined in found:
        return f"`{whole if whole in WORDS else joined}` is one word"
    if last is None or last.kind not in ("name", "word") or syntax.token.kind not in ("name", "word", "number"):
        return None
    tokens = syntax.front + syntax.rest
    names = {behind.text for token, behind in zip(tokens, tokens[1:]) if behind.kind == "name" and token.text != "app"}
    whole = [last.text + sign + syntax.token.text for sign in ("", "_")]
    return next((f"`{name}` is one word" for name in whole if name in names | WORDS
                 and syntax.trials.takes(last.at, syntax.token.end, name)), None)


def two_names(syntax, found):
    """Two names where one is due, side by side: they may be one, or one of them is too many."""
    last, token = syntax.front[-1] if syntax.front else None, syntax.token
    if last is None or last.kind != "name" or token.kind != "name" or "\n" in syntax.text[last.end : token.at]:
        return None
    texts = [one.text for one in syntax.front + syntax.rest]
    if texts.count(last.text) > 1 or texts.count(token.text) > 1 or len(syntax.front) < 2:
        return None
    if syntax.front[-2].text not in NAMING or not syntax.trials.takes(last.at, token.end, last.text + token.text):
        return None
    return f"one name comes here, without a blank in it, and here are two: `{last.text}` and `{token.text}`"


def no_let(syntax):
    """A variable that is declared by `:=`, as in Go, where nothing of its name is declared."""
    front = syntax.front
    if not front or front[-1].kind != "name" or not syntax.behind.startswith(": =") or not syntax.in_body:
        return None
    if len(front) > 1 and front[-2].text not in (";", "{", "}"):
        return None
    name, start = front[-1].text, piece_of(syntax).start
    own = [token for token in front[:-1] if token.at >= start and token.text == name]
    if own or name in syntax.named.resources:
        return None
    return f"a variable is declared with `let`: `let x = 1;` => let {name} ="


def outside(syntax, found):
    """A statement where a declaration is due."""
    behind = [token.text for token in syntax.rest[1:2]]
    if "task" not in found or "let" in found or syntax.depth or syntax.token.kind not in ("name", "word"):
        return None
    if syntax.token.kind == "word" and syntax.token.text not in STATEMENTS:
        return None
    if syntax.token.kind == "name" and behind not in (["."], ["("], ["="]):
        return None
    if any(syntax.token.text.startswith(word) for word in found) or nearest(syntax.token.text, found, ALIKE):
        return None
    if syntax.token.kind == "name" and behind == ["("]:
        return f"no declaration begins with `{syntax.token.text}`, and no statement comes between the declarations"
    return "no statement comes between the declarations: statements are in `init { .. }` and the other bodies"
