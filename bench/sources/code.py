"""Reads files of code: which definitions they cite, and their functions, types, traits and constants."""
import re
from collections import namedtuple

from sources import antt
from sources.tree import module_of

# `words` are the names in its code, and `calls` those that stand where a function does; `is_root` says that no source
# has to name it: `main`, a test, a law, and what an impl has for a trait
Item = namedtuple("Item", "crate name kind line words calls is_root")

SAID = re.compile(r"//[^\n]*|b?\"(?:\\.|[^\"\\])*\"|b?'(?:\\(?:x..|.)|[^\\'\n])'", re.S)
GHOST_USE = re.compile(r"^[ \t]*ghost use [^;]*;", re.M)
USE = re.compile(r"^[ \t]*(?:pub(?:\(crate\))? )?use [^;]*;", re.M)
CLAUSE = re.compile(r"\b(?:requires|ensures)(?:\s*\*)?\s*\w*\s*(?=\{)|\bghost \w+\s*[:=]\s*(?=\{)")
CITED = re.compile(r"\b(\w+)::((?:proofs|specs)(?:::\w+)*)::([\w-]+)")
ATTRIBUTE = re.compile(r"#!?\[[^\]]*\]")
BEGINS = re.compile(
    r"^( *)(?:pub(?:\(crate\))? )?(?:const (?=fn)|unsafe )?(fn|struct|enum|trait|const|static|type|macro_rules!) (\w+)",
    re.M,
)
WORD = re.compile(r"[A-Za-z_]\w*")
NAMED = re.compile(r"(?<=\{)[A-Za-z_]\w*(?=[}:])")
CALLED = re.compile(r"(?:(?<=::)|\b)([a-z_]\w*)(?=\(|::<)|(?<=::)([a-z_]\w*)|(?<=[(,\s])([a-z_]\w*)(?=\s*[,)])")
# a test's attribute, with others behind it, in so many signs in front of it
TEST = re.compile(r"#\[test\](?:\s*#\[[^\n]*\])*\s*$")
FRONT = 200


def blank(found):
    """Lines without words in place of what is found."""
    return "\n" * found[0].count("\n")


def named_in(found):
    """What stands in place of a comment, nothing, and of a string: what it names between braces, as for `println!`."""
    return "" if found[0].startswith("//") else f'"{" ".join(NAMED.findall(found[0]))}"' + "\n" * found[0].count("\n")


def imports(text):
    """What a text of code takes from definitions."""
    for found in GHOST_USE.finditer(text):
        before = text.count("\n", 0, found.start())
        yield from (taken._replace(line=before + taken.line) for taken in antt.imports(found[0]))


def closed(text, start):
    """The place behind the brace that closes the one at a place."""
    level = 0
    for found in re.compile(r"[{}]").finditer(text, start):
        level += 1 if found[0] == "{" else -1
        if level == 0:
            return found.end()
    return len(text)


def without_clauses(text):
    """A text of code without clauses and ghost members."""
    parts, place = [], 0
    for found in CLAUSE.finditer(text):
        if found.start() < place:
            continue
        parts.append(text[place : found.start()])
        place = closed(text, found.end())
        parts.append("\n" * text.count("\n", found.start(), place))
    return "".join([*parts, text[place:]])


def clauses(text):
    """The clauses and ghost members of a text of code."""
    return [text[found.end() : closed(text, found.end())] for found in CLAUSE.finditer(text)]


def end_of(text, found):
    """The place behind an item: its closing brace, or its semicolon."""
    level = 0
    for sign in re.compile(r"[][(){};]").finditer(text, found.end()):
        if sign[0] == "{" and level == 0:
            return closed(text, sign.start())
        if sign[0] == ";" and level == 0:
            return sign.end()
        level += (sign[0] in "([{") - (sign[0] in ")]}")
    return len(text)


def is_law(text):
    """Whether a function takes nothing and answers nothing, so that it is a statement alone."""
    return re.match(r"[^({]*fn \w+\(\)\s*\{\s*\}", text.lstrip()) is not None


class File:
    """A file of code: the definitions that it cites, and its items."""

    def __init__(self, tree, path):
        self.path, self.crate = path, module_of(path).split(".")[0]
        text = SAID.sub(named_in, tree.text(path))
        self.imports = list(imports(text))
        ghost = GHOST_USE.sub(blank, text)
        self.names, self.paths = antt.names_in(ghost), antt.paths_in(ghost)
        self.cited = list(self.cites(ghost))
        self.libraries = set(re.findall(r"\b([a-z_]\w*)(?=::)", ghost))
        code = USE.sub(blank, ghost)
        self.items = list(self.read(without_clauses(code)))
        # constants and types in contracts have their own names there
        self.in_clauses = {word for clause in clauses(code) for word in WORD.findall(clause)}

    def cites(self, text):
        """The modules and names of this crate and of others that hints name."""
        for crate, module, name in CITED.findall(text):
            yield f"{self.crate if crate == 'crate' else crate}.{module.replace('::', '.')}", name

    def read(self, text):
        """The items of a text of code."""
        impls = list(impls_of_traits(text))
        for found in BEGINS.finditer(text):
            part = text[found.start() : end_of(text, found)]
            own = ATTRIBUTE.sub("", part)[found.end() - found.start() :]
            is_root = found[2] == "fn" and (found[3] == "main" or is_law(part) or is_test(text, found)
                                            or any(start < found.start() < end for start, end in impls))
            line = text.count("\n", 0, found.start()) + 1
            yield Item(self.crate, found[3], found[2], line, set(WORD.findall(own)), calls_in(own), is_root)


def is_test(text, found):
    """Whether a function is a test, by its attributes."""
    return TEST.search(text, max(0, found.start() - FRONT), found.start()) is not None


def calls_in(text):
    """The names in a text of code that stand where a function does: before arguments, behind a path, or as one."""
    return {name for names in CALLED.findall(text) for name in names if name}


def impls_of_traits(text):
    """Where impls of traits begin and end."""
    for found in re.finditer(r"^impl\b[^{;]* for [^{;]*\{", text, re.M):
        yield found.start(), closed(text, found.end() - 1)
