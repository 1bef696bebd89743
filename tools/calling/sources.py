"""The public calls of the crates, read from their sources: each with its parameters, its answer and its clauses."""
import re
from collections import namedtuple
from pathlib import Path

ROOT = Path(__file__).resolve().parents[2]
# the program below which all public calls are, those of the other one too
PROGRAM = "rticx"

# `name` is the path that a caller writes, without the crate; `parameters` are as in the source, the receiver first;
# `answer` is the type, or an empty text; `bounds` are the type parameters. A clause has a kind, `requires` or
# `ensures`, a name, or an empty text, and its text.
Call = namedtuple("Call", "crate name parameters answer bounds clauses")
Clause = namedtuple("Clause", "kind name text")


def dependencies():
    """The libraries of the repository by crate, from crates.txt."""
    found = {}
    for line in (ROOT / "crates.txt").read_text(encoding="utf8").splitlines():
        line = line.split("#")[0]
        if ":" in line:
            name, uses = line.split(":", 1)
            found[name.split()[0]] = uses.split()
    return {name: [each for each in uses if each in found] for name, uses in found.items()}


def below(program):
    """The crates below a program, lowest first."""
    uses, found = dependencies(), []

    def visit(name):
        for each in uses[name]:
            visit(each)
        if name not in found:
            found.append(name)

    visit(program)
    return found[:-1]


def without_comments(text):
    return re.sub(r"//[^\n]*", "", text)


def braced(text, start):
    """The place after the bracket that closes the one at a place."""
    closes = {"{": "}", "(": ")", "[": "]", "<": ">"}
    opening, closing = text[start], closes[text[start]]
    depth = 0
    for place in range(start, len(text)):
        if opening == "<" and text.startswith("->", place - 1):
            continue
        depth += (text[place] == opening) - (text[place] == closing)
        if depth == 0:
            return place + 1
    raise SystemExit(f"tools/calls: a bracket stays open: {text[start:start + 60]!r}")


class Source:
    """A crate's modules and what of them is public."""

    def __init__(self, crate):
        self.crate = crate
        self.folder = ROOT / "crates" / crate / "src"
        self.root = self.text("lib")
        self.shown = set()
        for path in re.findall(r"^pub use ([^;]+);", self.root, re.M):
            self.shown |= set(re.findall(r"\w+", path.split("{")[1] if "{" in path else path.split("::")[-1]))

    def text(self, module):
        path = self.folder / (module.replace("::", "/") + ".rt")
        if not path.exists():
            path = self.folder / module.replace("::", "/") / "mod.rt"
        return without_comments(path.read_text(encoding="utf8"))

    def modules(self, module="lib", public=True):
        """Each module with whether a caller can name it."""
        yield module, public
        for word, name in re.findall(r"^(pub |pub\(crate\) |)mod (\w+);", self.text(module), re.M):
            inner = name if module == "lib" else f"{module}::{name}"
            yield from self.modules(inner, public and word == "pub ")

    def is_shown(self, module, public, name):
        """Whether a caller can name an item of a module."""
        return public and module == "lib" or public or name in self.shown

    def calls(self):
        """The public calls, in the order of the modules."""
        for module, public in self.modules():
            text = self.text(module)
            for owner, place in functions(text):
                call = read_call(self.crate, owner, text, place)
                first = owner[0] if owner else call.name
                if self.is_shown(module, public, first):
                    yield call


def functions(text):
    """Each public function of a text: the type or trait that it belongs to with whether that is a trait, or None; and
    where it begins. The functions of public traits and of impls of such are public without the word."""
    for found in re.finditer(r"^(pub )?(?:const )?fn \w+", text, re.M):
        if found[1]:
            yield None, found.start()
    for found in re.finditer(r"^(pub trait|impl)\b", text, re.M):
        opening = text.index("{", body_start(text, found.end()))
        head, end = text[found.start():opening], braced(text, opening)
        owner = owner_of(head)
        if owner is None:
            continue
        word = r"^    pub (?:const )?fn \w+" if owner[1] == "type" else r"^    (?:pub )?fn \w+"
        for each in re.finditer(word, text[opening:end], re.M):
            yield owner, opening + each.start()


def body_start(text, place):
    """Where the body of an impl may begin: after its type parameters."""
    while text[place].isspace():
        place += 1
    return braced(text, place) if text[place] == "<" else place


def owner_of(head):
    """The type or trait of an impl's or trait's head, and whether its functions need the word `pub`. Of impls of traits
    those of iterators count; what another has to promise is in its trait."""
    trait = re.match(r"pub trait (\w+)", head)
    if trait:
        return trait[1], "trait"
    head = head[body_start(head, len("impl")):].strip()
    if " for " in head:
        return (re.match(r"Iterator for (\w+)", head) or [None, None])[1] and (head.split()[2].split("<")[0], "trait")
    return re.match(r"(\w+)", head)[1], "type"


def read_call(crate, owner, text, place):
    """A call from its source."""
    found = re.compile(r"\s*(?:pub )?(?:const )?fn (\w+)").match(text, place)
    name, place = found[1], found.end()
    bounds = ""
    if text[place] == "<":
        end = braced(text, place)
        bounds, place = text[place:end], end
    end = braced(text, place)
    parameters = [each.strip() for each in split(text[place + 1:end - 1])]
    answer, place = "", end
    arrow = re.compile(r"\s*->\s*").match(text, place)
    if arrow:
        stop = re.compile(r"\n\s*(?:requires|ensures|where)\b|\s*\{|;(?=\s*\n)").search(text, arrow.end())
        answer, place = " ".join(text[arrow.end():stop.start()].split()), stop.start()
    clauses = []
    while clause := re.compile(r"\s*(requires|ensures)(?:\s*\*)?\s*(\w*)\s*(?=\{)").match(text, place):
        end = braced(text, clause.end())
        clauses.append(Clause(clause[1], clause[2], " ".join(text[clause.end() + 1:end - 1].split())))
        place = end
    if not clauses and owner:
        clauses = promises(text, found.start())
    path = f"{owner[0]}::{name}" if owner else name
    return Call(crate, path, [each for each in parameters if each], answer, bounds, clauses)


def promises(text, place):
    """The ghost members in front of a function of an impl, by which an iterator promises what it gives."""
    front = text[text.rfind("\nimpl", 0, place):place]
    members = re.finditer(r"ghost (next_gives) = \{(.*)\};", front)
    return [Clause("ensures", found[1], found[2].strip()) for found in members]


def split(text):
    """A text split at the commas outside of brackets."""
    parts, depth = [""], 0
    for byte in text:
        depth += (byte in "([{<") - (byte in ")]}>")
        if byte == "," and depth == 0:
            parts.append("")
        else:
            parts[-1] += byte
    return parts


def calls(program=PROGRAM):
    """The public calls of all crates below a program."""
    for crate in below(program):
        yield from Source(crate).calls()
