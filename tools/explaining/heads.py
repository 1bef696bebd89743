"""What people write in and around the head of a body: options outside of it, or of other names, and values."""
import itertools
import re

from .advice import advised
from .bodies import CONTEXTS
from .tokens import between

OF_TASK = ("binds", "priority", "capacity", "shared", "local")
OF_APP = ("bits", "dispatchers", "fpu")
CALLED = {
    "binds": "interrupts?|irqs?|isr|vector|on|bind|bound|event|handler|handles|serves|source|trigger|binding|exti|pin",
    "priority": "prio|pri|level|urgency|importance|prior|preempt\\w*|prio_?level|ceiling",
    "capacity": "queue\\w*|size|depth|len|length|slots|cap|buffer\\w*|messages|places|max\\w*|backlog",
    "shared": "resource|share|shares|globals?|uses|access|reads|writes|mutex\\w*|locks?|share_with",
    "local": "locals|own|private|state|statics?|vars|variables|data",
}
OPTIONS = (
    "`binds` takes the interrupt, `priority` the priority, `capacity` how many messages may be out, and `shared` and "
    "`local` what the body uses"
)
FORM = "`task t(binds = I, priority = 1) { .. }`"
FEW = 6


def option_of(word):
    """The option that other systems call by a word, or None."""
    return next((option for option, words in CALLED.items() if re.fullmatch(words, word.lower())), None)


def behind(syntax, count=1):
    """The text of a token behind the one at the place."""
    return syntax.rest[count].text if count < len(syntax.rest) else ""


def named_otherwise(syntax, found):
    """An option by the name that another system has for it."""
    option, token = option_of(syntax.token.text) if syntax.token.kind in ("name", "word") else None, syntax.token
    if option not in found or ")" not in found or behind(syntax) != "=":
        return None
    taken = [one for one in OF_TASK if syntax.trials.takes(token.at, token.end, one)]
    told = f"no option is called `{token.text}`"
    change = advised(syntax, f"{told} =>! {option}") if taken == [option] else None
    return change or f"{told}: {OPTIONS}"


def outside_head(syntax, found):
    """An option that is not in the parentheses of a head."""
    word = syntax.token.text
    if word not in OF_TASK + OF_APP or ")" in found or behind(syntax) not in ("=", "("):
        return None
    is_value = behind(syntax) == "="
    if "let" in found and is_value or "task" in found or found & {"interrupts", "app"} or is_value and "{" in found:
        if word in OF_APP:
            return f"`{word}` is an option of the first declaration: `app a(bits = 4, dispatchers = [I], fpu = on);`"
        told = "binds = I" if word == "binds" else f"{word} = [..]" if word in ("shared", "local") else f"{word} = 1"
        return f"`{word}` is an option, and goes in the parentheses before the body: `task t({told}) {{ .. }}`"
    return None


def without_parentheses(syntax, found):
    """Options behind a task's name without their parentheses."""
    is_behind_name = {"(", "with", "{"} <= found or {",", "{"} == found and syntax.token.text in OF_TASK
    if not is_behind_name or syntax.token.kind not in ("name", "word"):
        return None
    if syntax.token.text in OF_TASK and behind(syntax) == "=":
        return None
    if syntax.token.text in OF_TASK or option_of(syntax.token.text) and behind(syntax) != "{":
        return f"options go in parentheses, and each has a `=`: {FORM}"
    return None


def typed_values(syntax, found):
    """Values of a message with types behind the options of a head, or in parentheses of their own behind it."""
    if syntax.token.text == "(" and {"with", "{"} <= found and syntax.front[-1].text == ")":
        inner = between(syntax.rest)[0]
    elif syntax.token.text == "|" and {"with", "{"} <= found:
        inner = list(itertools.takewhile(lambda token: token.text != "|", syntax.rest[1:]))
    elif syntax.behind.startswith(("= > (", "- > (")) and {"with", "{"} <= found:
        inner = between(syntax.rest[2:])[0]
    elif ")" in found and syntax.token.kind == "name" and not syntax.in_body and behind(syntax) == ":":
        inner = between([syntax.front[opened(syntax)]] + syntax.rest)[0]
        if syntax.front[opened(syntax) - 2].text != "task":
            return None
    else:
        return None
    stop = next((number for number, token in enumerate(inner) if token.text in OF_TASK), len(inner))
    names = [token.text for token, before in zip(inner[:stop], [None] + inner)
             if token.kind == "name" and (before is None or before.text == ",") and token.text not in CONTEXTS]
    if not names or len(names) > FEW:
        return None
    return "the values of a message come after `with`: `task t(priority = 1) with x, y { .. }`"


def opened(syntax):
    """The position of the parenthesis that was opened last."""
    return max(number for number, token in enumerate(syntax.front) if token.text == "(")


def no_item(syntax, found):
    """A comma where an item of a list or a row is due."""
    before = syntax.front[-1].text if syntax.front else ""
    if syntax.token.text != "," or before not in ("[", "{", ",") or "a name" not in found or syntax.in_body:
        return None
    return f"before a `,` comes a name, and none is between `{before}` and it"


def lone_block(syntax, found):
    """A block where a statement begins."""
    if syntax.token.text == "{" and "let" in found:
        return "no block stands alone: it is that of an `if`, an `else`, a `for` or a `lock`"
    return None


def spawned_nothing(syntax, found):
    """A spawn whose parentheses come where the name of its task is due, with a value in them."""
    if not re.search(r"\bspawn$", syntax.before) or syntax.token.text != "(":
        return None
    inner, tasks = [token.text for token in between(syntax.rest)[0]], syntax.named.software
    if inner[:1] and inner[0] in tasks:
        return None
    return "a spawn names its task before the parentheses: `spawn t(a, b);`"
