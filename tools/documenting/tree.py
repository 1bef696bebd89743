"""The tree that the documents speak of: its files, the words in them, and where a name is declared."""
import fnmatch
import functools
import os
import pathlib
import re

ROOT = pathlib.Path(__file__).resolve().parents[2]
LEFT_OUT = {".git", "out", "__pycache__"}
BEFORE_A_NAME = (
    r"(?:pub|pub\(crate\)|abbrev|opaque|record|ruleset|data|let|mod|module|fn|const|struct|enum|trait|type|def|class"
    r"|macro_rules!)"
)
WORD = re.compile(r"[A-Za-z_]\w*")


@functools.cache
def files():
    """The files of the tree, each by its path from the root."""
    found = []
    for folder, folders, names in os.walk(ROOT):
        folders[:] = sorted(name for name in folders if name not in LEFT_OUT)
        found += [os.path.relpath(os.path.join(folder, name), ROOT) for name in sorted(names)]
    return found


@functools.cache
def by_name():
    """The paths of the tree by the last part of each, folders among them."""
    found = {}
    for path in {parent for file in files() for parent in [file, *map(str, pathlib.PurePath(file).parents)]}:
        found.setdefault(os.path.basename(path), []).append(path)
    return found


def matching(path):
    """The files and folders of the tree that end with this path, in which `*` is any letters."""
    parts = path.strip("/").split("/")
    every = by_name()
    ends = every.get(parts[-1], []) if "*" not in parts[-1] else [end for found in every.values() for end in found]
    return [end for end in ends if fnmatch.fnmatchcase("/".join(end.split("/")[-len(parts) :]), "/".join(parts))]


@functools.cache
def text_of(path):
    """The text of a file, without what is no text."""
    return (ROOT / path).read_text(encoding="utf-8", errors="ignore")


@functools.cache
def words():
    """Every word of the sources, and of the texts that they are run on."""
    return {word for path in files() if not path.endswith((".md", ".png")) for word in WORD.findall(text_of(path))}


def lines_that_declare(path, name):
    """The numbers of the lines, from 1, at which a file declares a name."""
    declares = re.compile(rf"\s*(?:{BEFORE_A_NAME}\s+)*{re.escape(name)}(?=[\s:(<{{,;!=]|$)")
    taken = re.compile(r"\s*(?:ghost )?(?:pub )?use\s|\s*(?:--|//)")
    lines = text_of(path).split("\n")
    return [number for number, line in enumerate(lines, 1) if declares.match(line) and not taken.match(line)]


def count_of_crates():
    """How many crates crates.txt lists."""
    return sum(1 for line in text_of("crates.txt").split("\n") if ":" in line.split("#")[0])


def count_of_wrong_bodies():
    """How many edits the gate has to refuse."""
    return sum(1 for path in files() if path.endswith(".edit") and "/must-fail/" in path)
