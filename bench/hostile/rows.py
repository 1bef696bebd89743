"""The cases of tables in crates/command_cases/data: applications, scripts, traces and limits with known answers."""
import re

from starting import ROOT

DATA = ROOT / "crates" / "command_cases" / "data"
# longer texts are left out
LONGEST = 20_000
ESCAPES = {"n": "\n", "t": "\t", "r": "\r"}


def unescaped(text, copy):
    """A quoted text: `\\n`, `\\t`, `\\r`, `\\xHH`, the number of the copy from 0 by `\\#`, from 1 by `\\+`."""
    def one(found):
        word = found[1]
        if word[0] == "x":
            return chr(int(word[1:], 16))
        if word in "#+":
            return str(copy + (word == "+"))
        return ESCAPES.get(word, word)
    return re.sub(r"\\(x[0-9a-f]{2}|.)", one, text, flags=re.S)


def pieces(rest):
    """What a line adds to a part: a line as it is, or copies of a quoted text."""
    if rest.startswith("|"):
        return rest[2:] + "\n"
    count, quoted = rest.split('"', 1)
    copies = int(count) if count.strip() else 1
    if "\\" not in quoted:
        return quoted[:-1] * copies
    return "".join(unescaped(quoted[:-1], copy) for copy in range(copies))


def cases(name):
    """The cases of a table, by its name or its path, each its parts by name, as bytes."""
    found = []
    for line in (DATA / name).read_text(encoding="utf8").splitlines():
        if line.startswith("= "):
            found.append({})
        elif line and not line.startswith(";"):
            word, _, rest = line.partition(" ")
            found[-1][word] = found[-1].get(word, b"") + pieces(rest).encode("latin1")
    return found


def told_by(output):
    """The number of a refusal in an output, as `E07`, or an empty text."""
    found = re.match(rb"\d+:\d+ (E\d\d) ", output)
    return found[1].decode() if found else ""


def applications():
    """Applications by the number of their refusal, those that none is answered of under an empty text."""
    groups = {}
    for name in ("refusals", "reports", "canonical", "syntax", "limits", "runs", "builds", "messages", "commands"):
        for case in cases(name):
            text = case.get("app", b"")
            if len(text) < LONGEST:
                groups.setdefault(told_by(case.get("output", b"")), []).append(text)
    return groups


def seconds(name):
    """Pairs of an application and a second text of a table."""
    return [(case["app"], case["second"]) for case in cases(name)
            if "app" in case and len(case.get("second", b"x" * LONGEST)) < LONGEST]


def limits():
    """Pairs of an application and a text of limits on requests."""
    return [(case["app"], case["second"]) for case in cases("commands")
            if case.get("words", b"").startswith(b"times") and "app" in case and "second" in case]


def listings():
    """Listings of images, each beside no application."""
    return [(b"", case["output"]) for case in cases("builds") if case.get("output", b"").startswith(b"image ")]
