"""Signs of more than one byte, with which no token begins: blanks, dashes, quotes, letters of other alphabets."""
import re
import unicodedata

from .advice import signed
from .habits import NO_TEXTS, QUOTABLE, UNQUOTED

SIGNS_FOR = {"×": "*", "÷": "/", "≤": "<=", "≥": ">=", "≠": "!=", "∧": "&", "∨": "|", "…": ".."}
DASHES, QUOTES, ASCII_QUOTES = "–—−", "“”„‘’‚«»", "'\"`"
BLANKS, UNSEEN = ("Zs", "Zl", "Zp"), "Cf"
NO_DIGIT = "this letter is none of a to z: a number is decimal digits, or `0x` and hexadecimal ones, and has no unit"


def sign_at(text, at):
    """The sign of UTF-8 that begins at an offset, and its bytes; or None, where none begins."""
    for size in (1, 2, 3, 4):
        try:
            return text[at : at + size].encode("latin-1").decode("utf-8"), size
        except UnicodeDecodeError:
            continue
    return None, 1


def is_other_letter(sign):
    """Whether a sign is a letter that has none of a to z in it."""
    return unicodedata.category(sign)[0] == "L" and not unicodedata.normalize("NFD", sign)[0].isascii()


def is_hidden(sign):
    """Whether a sign is not seen, or looks like another one."""
    is_like = len(sign.encode()) > 1 and unicodedata.normalize("NFC", sign).isascii()
    return is_like or unicodedata.category(sign) in (*BLANKS, UNSEEN, "Cc") or is_other_letter(sign)


def sign_help(sign, syntax, size):
    """How to mend a sign of this many bytes at the place, or None."""
    if sign == "\ufeff" and syntax.at == 0:
        return signed(syntax, size, "", "the file begins with a mark of the order of bytes, which no text here has")
    if unicodedata.category(sign) == UNSEEN:
        return signed(syntax, size, "", "this sign is not seen, and belongs to no text here")
    if unicodedata.category(sign) in BLANKS:
        return in_number(syntax, size) or signed(syntax, size, " ", "this sign is none of the blanks of a text here")
    if sign in DASHES:
        return signed(syntax, size, "-", "this dash is no minus")
    if sign in SIGNS_FOR:
        return signed(syntax, size, SIGNS_FOR[sign],
                      f"no token begins so, and the sign of one byte is `{SIGNS_FOR[sign]}`")
    if sign in QUOTES + ASCII_QUOTES and is_alone(syntax, size):
        return "no token begins with this sign, and there are no texts"
    if sign in QUOTES:
        quoted = re.match(r"[^\w\n]+([A-Za-z_]\w*)[^\w\n]", syntax.text[syntax.at :], re.ASCII)
        return UNQUOTED.replace("<x>", quoted[1]) if quoted and re.search(QUOTABLE, syntax.before) else NO_TEXTS
    plain = unicodedata.normalize("NFKC", sign)
    if plain != sign and len(plain) == 1 and plain.isascii() and plain.isprintable():
        return signed(syntax, size, plain, f"no token begins so, and the sign of one byte is `{plain}`")
    if is_other_letter(sign) and behind_number(syntax):
        return NO_DIGIT
    if is_other_letter(sign):
        return "names have the letters a to z and A to Z, digits and `_`, and this letter is none of them"
    return None


def is_alone(syntax, size):
    """Whether a quote begins no word, and no other one is in its line."""
    start = syntax.text.rfind("\n", 0, syntax.at) + 1
    behind = syntax.text[syntax.at + size :].split("\n", 1)[0]
    line = (syntax.text[start : syntax.at] + behind).encode("latin-1").decode("utf-8", "replace")
    return not re.match(r"\w", behind, re.ASCII) and not any(sign in line for sign in QUOTES + ASCII_QUOTES)


def in_number(syntax, size):
    """A blank that parts the digits of a number, as it is set in print; or None."""
    digits = re.match(r"\d+", syntax.text[syntax.at + size :])
    if not digits or not behind_number(syntax):
        return None
    return f"a number has no sign between its digits => {syntax.front[-1].text}{digits[0]}"


def behind_number(syntax):
    """Whether a number ends where the place begins: a name does not go on or begin there."""
    last = syntax.front[-1] if syntax.front else None
    return last is not None and last.kind == "number" and last.end == syntax.at
