"""What people write where a message is sent, moved or withdrawn, or a task is to run: E03 at the call."""
import re

from .tokens import all_near, between, nearest

CALL_WORDS = ("spawn", "spawn_after", "cancel", "reschedule_after", "emit", "pend", "lock")
NO_WORDS = ("spawn_at", "reschedule_at", "unlock", "unpend", "clock")
WITHDRAWS = ("unpend", "clear", "unset")
NEARLY, SURELY = 0.75, 0.85
LATER = re.compile(r"^(?:after|later|every|defer|periodic|schedule)")
FORMS = {
    "lock": "`lock a, b { .. }`", "emit": "`emit a;`", "pend": "`pend I;`", "spawn": "`spawn t(a, b);`",
    "spawn_after": "`spawn_after(100) t(a, b);`", "cancel": "`cancel t(h);`",
    "reschedule_after": "`reschedule_after(100) t(h);`",
}


class Named:
    """The tasks of a text that need not be in the grammar, each with the interrupt that it binds, or None."""

    def __init__(self, tokens):
        self.tasks, self.armed, self.interrupts = {}, [], declared(tokens, "interrupts")
        self.resources = declared(tokens, "shared") + declared(tokens, "local")
        self.has_timer = any(token.text in ("monotonic", "spawn_after") for token in tokens)
        for number, token in enumerate(tokens[:-1]):
            behind = tokens[number + 1]
            if token.text == "task" and behind.kind == "name":
                self.tasks[behind.text] = bound(tokens[number + 2 :])
            elif token.text == "spawn_after" and behind.text == "(":
                inner, rest = between(tokens[number + 1 :])
                if rest and rest[0].kind == "name" and rest[0].text not in self.armed:
                    self.armed.append(rest[0].text)

    @property
    def software(self):
        return [name for name, interrupt in self.tasks.items() if interrupt is None]


def declared(tokens, word):
    """The names that the declaration of this word has."""
    rows = zip(tokens, tokens[1:])
    start = next((number for number, (token, behind) in enumerate(rows) if (token.text, behind.text) == (word, "{")),
                 len(tokens))
    stop = next((number for number, token in enumerate(tokens) if number > start and token.text == "}"), start)
    return [token.text for token in tokens[start:stop] if token.kind == "name"]


def bound(tokens):
    """The interrupt that a task binds, by the tokens after its name."""
    for number, token in enumerate(tokens[:-2]):
        if token.text == "{":
            return None
        if token.text == "binds":
            return tokens[number + 2].text
    return None


def of_task(syntax, name):
    """All that is done with the task of a name: which of it is meant, nobody knows but who wrote it."""
    if syntax.named.tasks[name]:
        return f"`{name}` is a hardware task: `pend {syntax.named.tasks[name]};` makes it run"
    told = f"`{name}` is a task: `spawn {name}(..);` sends it a message"
    if not syntax.named.has_timer:
        return told
    return (f"{told}, `spawn_after(d) {name}(..);` one in d ticks, `reschedule_after(d) {name}(h);` moves that, and "
            f"`cancel {name}(h);` withdraws it")


def without_task(syntax, found):
    """A cancel or a move that names no task: parentheses come where its name is due."""
    word = re.search(r"\b(cancel|reschedule_after \( (?P<d>[^;{}]*) \))$", syntax.before)
    if not word or syntax.token.text != "(":
        return None
    form = "cancel" if word[1] == "cancel" else f"reschedule_after({word['d']})"
    general = "cancel" if word[1] == "cancel" else "reschedule_after(100)"
    asks = f"the task of the message comes before the parentheses, and its handle in them: `{general} t(h);`"
    inner = [token.text for token in between(syntax.rest)[0]]
    named = syntax.named
    if len(inner) >= 3 and inner[0] in named.tasks and inner[1] == ",":
        return f"{asks} => {form} {inner[0]}({' '.join(inner[2:])})"
    names = [name for name in named.tasks if name in named.armed] or named.software
    change = f" => {form} {names[0]}({inner[0]})" if len(names) == len(inner) == 1 else ""
    return asks + change


def without_handle(syntax, found):
    """A cancel or a move of a task without the handle."""
    word = re.search(r"\b(cancel|reschedule_after) (?:\( [^;{}]* \) )?(\w+)$", syntax.before)
    if not word or syntax.token.text != ";" or word[2] not in syntax.named.tasks:
        return None
    form = "cancel" if word[1] == "cancel" else "reschedule_after(100)"
    return f"a `{word[1]}` has the handle of the message in parentheses: `{form} t(h);`"


def delayed(syntax, found):
    """An unknown word with parentheses, and the name of a task with its own behind them."""
    rest = between(syntax.rest)[1] if syntax.token.text == "(" else []
    if len(rest) < 2 or rest[0].text not in syntax.named.software or rest[1].text != "(" or not syntax.front:
        return None
    word, name = syntax.front[-1], rest[0].text
    if word.kind != "name" or word.text in NO_WORDS or LATER.search(word.text):
        return None
    return of_task(syntax, name)


def called(syntax, found):
    """A task that is called as a function, or named alone."""
    if not syntax.front or syntax.front[-1].text not in syntax.named.tasks or syntax.token.text not in ("(", ";", "}"):
        return None
    name = syntax.front[-1].text
    if syntax.before.endswith(f"spawn {name}") and syntax.named.tasks[name]:
        return f"`{name}` is a hardware task: `pend {syntax.named.tasks[name]};` makes it run"
    if [token.text for token in syntax.front[-2:-1]] not in ([";"], ["{"], ["}"]) and syntax.token.text != "(":
        return None
    return of_task(syntax, name)


def sent_by_sign(syntax, found):
    """A task with a sign behind it that sends in other languages: `t <- a`, `t << a`, `t ! a`; or with a method."""
    if len(syntax.front) < 2 or syntax.front[-2].text not in (";", "{", "}", "=") or syntax.front[-1].kind != "name":
        return None
    name, method = syntax.front[-1].text, re.match(r"\. ([A-Za-z_]\w*) \(", syntax.behind)
    if name not in syntax.named.tasks or not re.match(r"< -|<<|! \w", syntax.behind) and not method:
        return None
    return None if method and method[1] in CALL_WORDS else of_task(syntax, name)


def is_known(syntax, name):
    """Whether a resource, a task, or a variable or an argument before the place has this name."""
    rows = zip(syntax.front, syntax.front[1:])
    own = {behind.text for token, behind in rows if token.text in ("let", "with", "for", ",")}
    return name in own or name in syntax.named.resources or name in syntax.named.tasks


def method(syntax):
    """A method of what is one number, or of what is nothing here."""
    found = re.match(r"\. ([A-Za-z_]\w*) \(", syntax.behind)
    if not found or not syntax.front or syntax.front[-1].kind not in ("name", "number"):
        return None
    name = syntax.front[-1].text
    if syntax.front[-1].kind == "name" and not is_known(syntax, name) and name not in syntax.named.interrupts:
        return f"nothing is called `{name}` here, and there are no methods: a body has numbers, and `emit N;` shows one"
    if found[1] in CALL_WORDS:
        return f"there are no methods, and a statement begins with its word, as {FORMS[found[1]]}"
    return "there are no methods: a body has numbers, and the statements of the language alone"


def unknown_word(syntax, found):
    """An unknown word at the beginning of a statement, or as a value, before the name of a task or an interrupt."""
    if not found & {"=", "+"} or not syntax.in_body or syntax.token.kind != "name" or not syntax.front:
        return None
    if "+" in found:
        is_call = syntax.token.text in syntax.named.software and [one.text for one in syntax.rest[1:2]] == ["("]
        last = syntax.front[-1]
        is_word = last.kind == "name" and not is_known(syntax, last.text) and not nearest(
            last.text.lower(), CALL_WORDS, SURELY)
        return of_task(syntax, syntax.token.text) if is_call and is_word else None
    word, name = syntax.front[-1].text.lower(), syntax.token.text
    behind = syntax.rest[1].text if len(syntax.rest) > 1 else ""
    if name in syntax.named.software and behind == "(" and not nearest(word, ("spawn", "cancel"), SURELY):
        return of_task(syntax, name)
    if name in syntax.named.interrupts and behind in (";", "}") and word not in WITHDRAWS and not nearest(
            word, ("pend",), SURELY):
        return f"`{name}` is an interrupt: `pend {name};` requests it"
    return None


def nearly(syntax, found):
    """A word of the language that is nearly written before a parenthesis or a name, where no such name is known."""
    if not syntax.front or syntax.front[-1].kind != "name" or syntax.token.text == "after":
        return None
    word, first = syntax.front[-1].text, syntax.front[-2].text if len(syntax.front) > 1 else ""
    starts = first in (";", "{", "}") or first == "=" and len(syntax.front) > 3 and syntax.front[-4].text == "let"
    if not starts or syntax.token.kind != "name" and syntax.token.text != "(":
        return None
    if word in syntax.named.tasks or word in NO_WORDS:
        return None
    words = CALL_WORDS if first != "=" else CALL_WORDS[:4]
    for one in ("spawn", "cancel"):
        if word.removeprefix(one) in syntax.named.tasks:
            return f"a blank comes between two words =>! {one} {word.removeprefix(one)}"
    last = syntax.front[-1]
    near = [one for one in all_near(word.lower(), words, NEARLY) if syntax.trials.takes(last.at, last.end, one)]
    return f"`{word}` is no word of the language: `{near[0]}` is" if len(near) == 1 else None
