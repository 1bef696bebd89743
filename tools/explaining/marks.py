"""Marks that are missing or others: lists that are not closed, comments of one stroke, numbers with signs in them."""
import re

from .tokens import place_of

BEGINS = r"(?:let|if|for|lock|emit|pend|spawn|spawn_after|cancel|reschedule_after|\}|\w+ =(?!=))"
COMMENT = "a comment begins with `//` and ends with its line"
PROSE = "no statement and no declaration is a sentence of words, and a comment begins with `//`"
LISTS = ("shared", "local", "dispatchers")
AFTER_LIST = ("binds", "priority", "capacity", "shared", "local", "bits", "fpu", "with")
OPTIONS = ("binds", "priority", "capacity", "shared", "local", "dispatchers", "fpu")
GROUPED = re.compile(r"\d{1,3}(?:(,| )\d{3})(?:\1\d{3})*(?!\d)")
CLOSED = {"{": "}", "(": ")", "[": "]"}
STATEMENTS = "`let`, `if`, `for`, `lock`, `emit`, `pend` or a spawn"
ENDS = (";", "{", "}", ",", "[", "(")
WORDS_OF_PROSE = 3
TYPES = (
    "int", "unsigned", "let", "mut", "var", "static", "const", "bool", "u8", "u16", "u32", "i32", "volatile", "pub",
    "and", "the", "a", "an", "uint32_t", "irq", "IRQ", "interrupt", "resource",
)
DIGITS = str.maketrans("lIOo", "1100")
OPERATORS = ("|", "^", "&", "<<", ">>", "+", "-", "*", "/", "%", "==", "!=", "<", "<=", ">", ">=")


def unclosed_list(syntax, found):
    """A list in brackets that another option, the end of the options or a block comes into."""
    opened = None
    for number, token in enumerate(syntax.front):
        if token.text == "[" and number > 1 and syntax.front[number - 1].text == "=":
            opened = number
        elif token.text in ("]", ";", "{", "}"):
            opened = None
    if not opened or syntax.front[opened - 2].text not in LISTS:
        return None
    name, inner, token = syntax.front[opened - 2].text, syntax.front[opened + 1 :], syntax.token
    if token.text == ";" and len(syntax.rest) > 2 and syntax.rest[1].kind == "name" and syntax.rest[2].text in "];,":
        return "a list has names, with commas between them"
    if token.text == ";" and len(syntax.rest) > 1 and syntax.rest[1].text == "]":
        return "a list has names, with commas between them"
    if token.text == "=" and inner and inner[-1].text in ("fpu", "bits"):
        inner = inner[:-1]
    elif token.text not in AFTER_LIST + (")", "{", ";"):
        return None
    has_comma = bool(inner) and inner[-1].text == ","
    last = inner[-2] if has_comma and len(inner) > 1 else inner[-1] if inner and not has_comma else syntax.front[opened]
    if last.kind != "name":
        return None
    behind = next((token.text for token in syntax.rest if token.text in ("]", "[", ";", "}")), "")
    if behind == "]":
        return None
    line = place_of(syntax.text, syntax.front[opened].at)[0]
    return f"the list of `{name}` is open here: nothing closes the `[` of line {line}"


def stroke(syntax, found):
    """A comment that begins with one stroke or with two dashes, where something else than an operand comes before."""
    before = syntax.front[-1].text if syntax.front else ";"
    starts_line = not syntax.text[syntax.text.rfind("\n", 0, syntax.at) + 1 : syntax.at].strip()
    doubled = syntax.text.startswith(("--", "/*", "<!--"), syntax.at)
    if re.match(r"--\w+ *;", syntax.text[syntax.at :]):
        return None
    if syntax.token.text == "/" or doubled:
        if before in ENDS or starts_line and before == ")":
            return COMMENT
    return None


def grouped(syntax, found):
    """A number with a comma or a blank before each three digits."""
    if not syntax.front or syntax.front[-1].kind != "number" or not {";", ")", "{"} & found:
        return None
    whole = GROUPED.match(syntax.text, syntax.front[-1].at)
    if not whole:
        return None
    return f"a number has no sign between its digits => {whole[0].replace(whole[1], '')}"


def lettered(syntax, found):
    """A number with letters that look like digits, where a loop wants a number."""
    text = syntax.token.text
    if found == {"a number"} and re.fullmatch(r"[lIOo0-9]+", text):
        return f"`{text}` is a name: with digits it is `{text.translate(DIGITS)}`"
    return None


def unnamed_option(syntax, found):
    """An interrupt or a number in the place of a task's option."""
    if {"shared", ")"} <= found and "binds" not in found and syntax.token.text in syntax.named.interrupts:
        return "`binds` names one interrupt, and each interrupt has a task of its own"
    if {"binds", ")"} <= found and syntax.token.text in syntax.named.interrupts:
        return f"options have names, as `binds = I` => binds = {syntax.token.text}"
    if {"priority", ")"} <= found and syntax.token.kind == "number":
        return "options have names, as `priority = 1` and `capacity = 4`"
    return None


def no_comma(syntax, found):
    """An option directly after another one."""
    last = syntax.front[-1].text if syntax.front else ","
    if {",", ")"} <= found and syntax.token.text in OPTIONS and last != ",":
        return f"a `,` comes between two options, and none comes after `{last}`"
    return None


def typed(syntax, found):
    """A type, or another word, before the name of a row."""
    behind = syntax.rest[1].text if len(syntax.rest) > 1 else ""
    is_row = found == {"="} and syntax.token.kind == "name" and behind == "="
    if is_row and syntax.front[-2].text in ("{", ",", "lock_free"):
        if not syntax.in_body:
            return one_name(syntax.front[-1], syntax.token)
    return None


def one_name(first, second):
    """What is said of two names of a row, of which one is a type or a word, or which are one name."""
    if first.text in TYPES or first.text == second.text:
        return f"a row is `a = 5`, with one name and without a type => {second.text}"
    return f"a row has one name, without a blank in it, and here are two: `{first.text}` and `{second.text}`"


def other_end(syntax, found):
    """A bracket that closes another one than the last that is open."""
    opened = []
    for token in syntax.front:
        if token.text in CLOSED:
            opened.append(token)
        elif token.text in CLOSED.values() and opened:
            opened.pop()
    if syntax.token.text not in CLOSED.values() or not opened or CLOSED[opened[-1].text] not in found:
        return None
    line = place_of(syntax.text, opened[-1].at)[0]
    due = CLOSED[opened[-1].text]
    return f"the `{opened[-1].text}` of line {line} is closed by `{due}`, and this is `{syntax.token.text}`"


def no_operand(syntax, found):
    """An operator where an expression begins."""
    before = syntax.front[-1].text if syntax.front else ""
    begins = ("emit", "=", "(", ",", "if", *OPERATORS)
    if syntax.token.text in OPERATORS and before in begins and "a number" in found:
        return left_out(syntax, found)
    return None


def cut_off(syntax, found):
    """An operator, and behind it the end of the expression."""
    is_end = syntax.token.text in (";", ")", "{", "}", ",", "]")
    return left_out(syntax, found) if is_end and syntax.front and syntax.front[-1].text in OPERATORS else None


def left_out(syntax, found):
    """A value or a name that is missing between two signs or words."""
    if not syntax.front:
        return None
    before = syntax.front[-1].text
    if found == {"a number"} and syntax.token.kind == "name":
        return f"a number is due here, and `{syntax.token.text}` is a name"
    if syntax.token.kind not in ("sign", "end"):
        return None
    if syntax.token.text == "=" and "a name" in found and len(found) > 1 and "a number" not in found:
        return "before `=` comes a name"
    if {"a name", "a number", "("} <= found and "let" not in found:
        if sent := re.search(r"\b(cancel|reschedule_after) (?:\( [^;{}]* \) )?(\w+) \($", syntax.before):
            return f"in the parentheses of a `{sent[1]}` comes the handle of the message, which its `spawn_after` gave"
        return f"after `{before}` comes a value: a number, a name or `( .. )`" if syntax.token.text else None
    if found == {"a number"}:
        return f"after `{before}` comes a number"
    is_end = syntax.token.text in ("=", ";", ",", ")", "]", "{", "}")
    return f"after `{before}` comes a name" if found == {"a name"} and is_end else None


def no_statement(syntax, found):
    """A name at the beginning of a statement that assigns nothing; elsewhere another sign for `=`."""
    if found != {"="} or not syntax.front:
        return None
    name, first = syntax.front[-1].text, syntax.front[-2].text if len(syntax.front) > 1 else ""
    if not syntax.in_body or first not in (";", "{", "}"):
        is_sign = syntax.token.kind in ("sign", "foreign")
        return "`=` comes here =>! =" if is_sign else None
    if syntax.begins_unknown and syntax.token.text not in OPERATORS:
        return f"no statement begins with `{name}`: one begins with {STATEMENTS}, or assigns"
    told = "no body has a value: " if syntax.token.text in OPERATORS else ""
    return f"{told}a statement is `{name} = ..;`, or begins with {STATEMENTS}"


def ended_early(syntax, found):
    """A statement where no body is open, because a brace too many closes it, or the head of a body is missing."""
    if syntax.depth or "task" not in found or not syntax.front or syntax.front[-1].text != "}":
        return None
    texts = [token.text for token in syntax.front + syntax.rest]
    if texts.count("}") <= texts.count("{"):
        return None
    behind = syntax.rest[1].text if len(syntax.rest) > 1 else ""
    if syntax.token.text in ("let", "if", "for", "lock", "emit", "pend", "spawn") or behind == "=":
        line = place_of(syntax.text, syntax.front[-1].at)[0]
        return f"no body is open here: the `}}` of line {line} closes the last one"
    return None


def glued(syntax, found):
    """Letters directly after a number."""
    last = syntax.front[-1] if syntax.front else None
    if last is None or last.kind != "number" or syntax.token.kind != "name" or last.end != syntax.at:
        return None
    return (f"`{last.text}{syntax.token.text}` is no number and no name: a number is decimal digits, or `0x` and "
            "hexadecimal ones, and an operator is between a number and a name")


def no_operator(syntax, found):
    """Two values with nothing between them."""
    last = syntax.front[-1] if syntax.front else None
    if "+" not in found or syntax.token.kind not in ("name", "number") or "\n" in syntax.text[last.end : syntax.at]:
        return None
    return (f"between two values comes an operator or another sign, and none is between `{last.text}` and "
            f"`{syntax.token.text}`")


def uncalled(syntax, found):
    """Parentheses directly behind a value, of which nobody knows whether a sign is missing."""
    last = syntax.front[-1] if syntax.front else None
    if syntax.token.text != "(" or not {"+"} <= found or last is None or last.kind not in ("name", "number"):
        return None
    return "a value is a number, a name or `( .. )`, and no `(` comes directly behind one: there are no functions"


def unopened(syntax, found):
    """A parenthesis that closes none, behind an expression."""
    if syntax.token.text == ")" and "+" in found and ")" not in found:
        return "this `)` closes no `(`: a `(` is missing before it, or a `)` is one too many, this one or one before it"
    return None


def lone_number(syntax, found):
    """A number in brackets, where one is due."""
    rest = syntax.rest[1:3]
    if found != {"a number"} or syntax.token.text not in CLOSED or len(rest) < 2 or rest[0].kind != "number":
        return None
    if rest[1].text != CLOSED[syntax.token.text]:
        return None
    return f"a number has no `{syntax.token.text}` and `{rest[1].text}` round it here => {rest[0].text}"


def last_comma(syntax, found):
    """A comma after the last name, where only another name may come."""
    if found != {"a name"} or not syntax.front or syntax.front[-1].text != "," or syntax.token.kind != "sign":
        return None
    return f"after a `,` comes a name, and none is between it and `{syntax.token.text}`"


def open_parentheses(syntax, found):
    """Parentheses that are open where a statement ends or a block begins: where one is to close, nobody knows."""
    if not {")", "+"} <= found or syntax.token.text not in (";", "{", "}"):
        return None
    opened = []
    for token in syntax.front:
        if token.text in (";", "{", "}"):
            opened = []
        elif token.text == "(":
            opened.append(token)
        elif token.text == ")" and opened:
            opened.pop()
    if not opened:
        return None
    last = opened[-1]
    behind = next(token for token in syntax.front + [syntax.token] if token.at > last.at)
    told = f"the `(` before `{behind.text}` is open here" if len(opened) == 1 else f"{len(opened)} `(` are open here"
    return f"{told}, and closed by no `)`"


def closes_none(syntax, found):
    """A brace that closes none, where a declaration is due."""
    if syntax.token.text != "}" or syntax.depth or "task" not in found:
        return None
    return "each `{` is closed before this `}`: a `}` is one too many, this one or one before it, or a `{` is missing"


def merge_marks(syntax, found):
    """The marks that a version control leaves where two changes met."""
    if re.match(r"(<<<<<<<|=======|>>>>>>>|\|\|\|\|\|\|\|)( |\r?$)", line_of(syntax)[0]):
        return "no line of an application begins so: version control leaves such marks where two changes meet"
    return None


def line_of(syntax):
    """The line of the place, and whether nothing comes before the place in it."""
    start = syntax.text.rfind("\n", 0, syntax.at) + 1
    return syntax.text[start:].split("\n", 1)[0], not syntax.text[start : syntax.at].strip()


def pasted(syntax, found):
    """What comes along where a line is pasted: its number, or the prompt of a terminal."""
    line, is_first = line_of(syntax)
    if syntax.depth and not syntax.in_body:
        return None
    number = re.match(r"\s*(\d+ ?[:|)]?\.?\s*)[A-Za-z}{\[/]", line) if is_first else None
    if number and re.match(r"\s*\d+ ?([:|)]\s*|\.?\s+)", line):
        return f"no statement and no declaration begins with a number => ~{number[1].strip()}"
    prompt = re.match(r"\s*([$%>]) ?\S+ \S+ ?\S*\s*$", line) if is_first and "=" not in line else None
    if prompt:
        return f"no line of an application begins with `{prompt[1]}`, as one of a terminal does"
    return None


def prose(syntax, found):
    """A line of words without signs, where a declaration or a statement is due: a comment that has no mark, or what is
    said in words that the language does not have."""
    at = syntax.at
    if "task" in found and re.match(r"\{[^;={}()]*[A-Za-z][^;={}()]*\}|\(\*", syntax.text[at:]):
        return COMMENT
    if found == {"="} and syntax.begins_line:
        at = syntax.front[-1].at
    elif not {"task", "let"} & found or syntax.token.kind != "name" and syntax.token.text != ";":
        return None
    start = syntax.text.rfind("\n", 0, at) + 1
    line = syntax.text[at:].split("\n", 1)[0].strip("; \t\r").removesuffix("//").strip()
    if syntax.text[start:at].strip() or not re.fullmatch(r"[A-Za-z][A-Za-z0-9 ,.'-]*", line):
        return None
    return PROSE if len(re.findall(r"[A-Za-z]+", line)) >= WORDS_OF_PROSE else None


def in_brackets(syntax, found):
    """A bracket where an expression begins, as mathematics groups or other languages have arrays."""
    if {"a name", "a number", "("} <= found and syntax.token.text == "[":
        return "an expression is grouped by `(` and `)`, and there are no arrays"
    return None


def comma_for_end(syntax, found):
    """A comma after a statement, where another statement comes."""
    if syntax.token.text != "," or ";" not in found or not re.match(rf", {BEGINS}(?: |$)", syntax.behind):
        return None
    several = re.search(r"\blet [^;{}]*$", syntax.before) and re.match(r", \w+ =", syntax.behind)
    return None if several else "a statement ends with `;`"
