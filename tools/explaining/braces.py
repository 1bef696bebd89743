"""A brace that is not closed where a declaration begins or the text ends: which one it is, as far as one can tell."""
from .pieces import STARTS
from .tokens import pieces_of, place_of

BODIES = ("init", "idle", "task")
TAB = 8


def unclosed(syntax, found):
    """A brace that is open at the end of the text, or where a task or a declaration begins."""
    behind = [token.text for token in syntax.rest[1:2]]
    if syntax.token.kind != "end" and not (syntax.token.text in STARTS and "}" in found and behind != ["="]):
        return None
    opened, pairs, last = [], [], None
    for token in syntax.front:
        if token.text in ("{", "(", "["):
            opened.append(token)
            last = token if token.text == "{" else last
        elif token.text in ("}", ")", "]") and opened:
            pairs.append((opened.pop(), token))
    if not opened:
        return None
    first, word = opened[-1], syntax.token.text
    line = place_of(syntax.text, first.at)[0]
    if word in ("shared", "local") and behind != ["{"] and is_balanced(syntax):
        return f"`{word}` is a word of the language, and no statement begins with it"
    if word in ("shared", "local") and is_balanced(syntax):
        return f"`{word} {{ .. }}` comes before all bodies, and a body lists what it uses in its head: `{word} = [..]`"
    if word in BODIES and is_balanced(syntax):
        return f"`{word}` comes outside all other bodies, and the `{first.text}` of line {line} is open here"
    told = f"the `{first.text}` of line {line} is open here"
    if first.text == "{" and last is not first:
        told += ", or one after it is"
        inner = outdented(syntax.text, [pair for pair in pairs if pair[0].at > first.at and pair[0].text == "{"])
        told += f": by the indentation that of line {place_of(syntax.text, inner.at)[0]}" if inner else ""
    return told + in_comment(syntax, first)


def is_balanced(syntax):
    """Whether the whole text closes as many braces as it opens."""
    texts = [token.text for token in syntax.front + syntax.rest]
    return texts.count("{") == texts.count("}")


def indentation(text, at):
    """How far the line of an offset is indented, and whether the offset is where its first token begins."""
    start = text.rfind("\n", 0, at) + 1
    blank = text[start:at].split("//")[0]
    front = blank[: len(blank) - len(blank.lstrip())]
    return len(front.expandtabs(TAB)), not blank.strip()


def outdented(text, pairs):
    """The first brace whose closing one begins a line further to the left than the brace's own line, or None."""
    for first, second in pairs:
        reach, begins = indentation(text, second.at)
        if begins and reach < indentation(text, first.at)[0]:
            return first
    return None


def in_comment(syntax, first):
    """What is said of a comment behind the brace that has a closing one."""
    for piece in pieces_of(syntax.text, first.at, syntax.at):
        if piece.kind == "comment" and piece.text.count("}") > piece.text.count("{"):
            return f"; the `}}` in the comment of line {place_of(syntax.text, piece.at)[0]} closes nothing"
    return ""
