"""Reads definitions and proofs, as `rt fmt` lays them out. A declaration begins with its name and a colon, or with
`record` or `data`, and reaches to the next line that is no further to the right and is no clause of it."""
import re
from collections import namedtuple

from sources.tree import module_of

# what a file takes: from which module, which item of it, or none where it takes the module, and under which name
Import = namedtuple("Import", "module item name is_public line")
# `kind` is `term`, `record` or `data`; `text` is all of it, without comments; `names` and `paths` are the names in it
# and the pairs of names with a point between, but for its own name and for what it has below `where`; `is_local` says
# that it is below another's `where`, and `heads` are the modules with parameters that it is in
Declared = namedtuple("Declared", "module name kind is_public is_local line text names paths heads")

USE = re.compile(
    r"^[ \t]*(?:ghost )?(pub )?use (?:Rattle\.)?([^;{}\s]*?)(?:\.\{([^}]*)\}|(?: as (\w+))?)(?=[;\s]|$)", re.M
)
DECLARES = re.compile(
    r"( *)((?:pub |abbrev |unfoldable |opaque )*)(?:(record|data) (?:pub )?)?([^\s(){}.,;:=]+)(?: :(?= |$)|(?=[ ({]))"
)
HEAD_OF_FIELDS = re.compile(r"(?:pub )*(?:record|data) (?!\{)")
WORKED = re.compile(r"-- (?:A )?[Ww]orked |--[^\n]*: worked ")
MODIFIERS = {"pub", "abbrev", "unfoldable", "opaque", "record", "data"}
CLOSES = (")", "}", "]", "→", "unfolding ", "×")
NAME = r"[^\s(){}\[\].,;]+"
PATH = re.compile(rf"(?<![^\s(){{}}\[\].,;])({NAME})\.(?=({NAME}))")


def without_comments(text):
    """A text without its comments, with the same lines."""
    return re.sub(r"(?m)(?:^|(?<=\s))--(?:\s[^\n]*|$)", "", text)


def imports(text):
    """What a text takes from modules, of the library and of crates."""
    for found in USE.finditer(text):
        line = text.count("\n", 0, found.start()) + 1
        if found[3] is not None:
            yield from listed(found[2], found[3], bool(found[1]), line)
        else:
            yield Import(found[2], "", found[4] or found[2].rpartition(".")[2], bool(found[1]), line)


def listed(module, items, is_public, line):
    """What the braces of an import list: names of the module, some by a path below it."""
    for item in filter(None, (each.strip() for each in items.split(","))):
        path, _, name = item.partition(" as ")
        inner, _, last = path.rpartition(".")
        yield Import(f"{module}.{inner}" if inner else module, last, name or last, is_public, line)


def without_imports(text):
    """A text without what it takes from modules, with the same lines."""
    return USE.sub(lambda found: "\n" * found[0].count("\n"), text)


def names_in(text):
    """The names in a text."""
    return set(re.findall(rf"\[\]|{NAME}", text))


def paths_in(text):
    """The pairs of names with a point between them that a path in a text begins with."""
    return set(PATH.findall(text))


def depth(line):
    """How far to the right a line begins."""
    return len(line) - len(line.lstrip(" "))


def head_of(lines, number):
    """The head of a module with parameters, to its `where`."""
    last = next((after for after in range(number, len(lines)) if lines[after].endswith("where")), number)
    return " ".join(line.strip() for line in lines[number : last + 1])


def inside_of(lines):
    """For each line what it is below of: the `fields` of a record or a datum, a declaration's `where`, or the head of a
    module."""
    found, marks = [], []
    for number, line in enumerate(lines):
        if line.strip():
            marks = [mark for mark in marks if mark[0] < depth(line)]
        found.append([kind for _, kind in marks])
        said = line.strip()
        if said == "where":
            marks.append((depth(line), "where"))
        elif said.startswith(("pub ", "record ", "data ")) and HEAD_OF_FIELDS.match(said):
            marks.append((depth(line), "fields"))
        elif said.startswith("module "):
            marks.append((depth(line), head_of(lines, number)))
    return found


def is_own(line, found):
    """Whether a line as far to the right as a declaration belongs to it: a clause, or what its type is closed with."""
    name = found[4]
    return line.startswith(CLOSES) or "◌" in name and not DECLARES.match(line) or re.split(r"[\s({]", line)[0] == name


def end_of(lines, number, found):
    """The line behind a declaration."""
    own = len(found[1])
    for after in range(number + 1, len(lines)):
        line = lines[after]
        if line.strip() and (depth(line) < own or depth(line) == own and not is_own(line.strip(), found)):
            return after
    return len(lines)


def without_head(line, indentation, name):
    """A line without the name of its declaration, where it begins with that."""
    if not line.startswith(indentation) or line.startswith(indentation + " "):
        return line
    words = line.split(" ")
    place = next((at for at, word in enumerate(words) if word and word not in MODIFIERS), len(words))
    return " ".join(words[:place] + words[place + 1 :]) if words[place : place + 1] == [name] else line


def without_locals(lines):
    """The lines of a declaration without what it declares below `where`."""
    below = None
    for line in lines:
        if below is not None and line.strip() and depth(line) <= below:
            below = None
        if below is None:
            yield line
        if line.strip() == "where":
            below = depth(line)


def begins(line):
    """The match of a declaration that begins in a line, or None."""
    found = DECLARES.match(line)
    return found if found and (found[3] or found[0].endswith(" :")) else None


class File:
    """A file of specs/ or proofs/: what it takes and what it declares."""

    def __init__(self, tree, path):
        self.path, self.module = path, module_of(path)
        self.crate, self.folder = self.module.split(".")[:2]
        whole = tree.text(path)
        text = without_comments(whole)
        # examples that a person worked out by hand, tests of definitions, as the name or the first comment says
        self.is_worked = WORKED.match(whole) is not None or self.module.rpartition(".")[2].startswith("Rows")
        self.imports = list(imports(text))
        self.body = without_imports(text)
        self.declared = list(self.declarations(self.body.split("\n")))

    def declarations(self, lines):
        """The declarations of the file, also those below `where`, but no fields and constructors."""
        inside = inside_of(lines)
        for number, line in enumerate(lines):
            found = begins(line)
            if found and "fields" not in inside[number]:
                text = "\n".join(lines[number : end_of(lines, number, found)])
                yield self.one(found, number + 1, text, inside[number])

    def one(self, found, line, text, inside):
        """A declaration of this text."""
        name, own = found[4], found[1]
        heads = [each for each in inside if each.startswith("module ")]
        other = "\n".join([*heads, *(without_head(each, own, name) for each in without_locals(text.split("\n")))])
        return Declared(self.module, name, found[3] or "term", "pub " in found[0], "where" in inside, line, text,
                        names_in(other), paths_in(other), heads)

    def is_answer(self):
        """Whether the file answers goals, which the prover asks for by their names."""
        return any({taken.module.rpartition(".")[2], taken.item} & {"Goals", "Given"} for taken in self.imports)
