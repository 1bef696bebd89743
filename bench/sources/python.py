"""Reads the Python of tools/ and bench/: what is declared, and which names stand anywhere."""
import ast
import re
from collections import Counter

SCRIPT = b"#!/usr/bin/env python3"
WORD = re.compile(r"[A-Za-z_]\w*")
# the beginning of names that are put together where they are asked for, as `see_` of f"see_{word}"
FRONT = re.compile(r"\"([a-z]\w*_)\{")


def files(root):
    """The files of Python, each by its path from the root, with its text."""
    for path in sorted(path for folder in ("bench", "tools") for path in (root / folder).rglob("*") if path.is_file()):
        if path.suffix == ".py" or not path.suffix and path.read_bytes().startswith(SCRIPT):
            yield str(path.relative_to(root)), path.read_text(encoding="utf8")


def names_of(node, is_outside):
    """The names that a part of a file declares: a function, a class, or outside of both a constant."""
    if isinstance(node, (ast.FunctionDef, ast.ClassDef)):
        return [node.name]
    if isinstance(node, ast.Assign) and is_outside:
        return [name.id for target in node.targets for name in ast.walk(target) if isinstance(name, ast.Name)]
    return []


def declared(text):
    """What a file declares: each name with its line."""
    tree = ast.parse(text)
    outside = set(map(id, tree.body))
    for node in ast.walk(tree):
        yield from ((node.lineno, name) for name in names_of(node, id(node) in outside))


def imported(text):
    """What a file imports: each name by which it is known there, with its line."""
    for node in ast.walk(ast.parse(text)):
        if isinstance(node, (ast.Import, ast.ImportFrom)):
            yield from ((node.lineno, (each.asname or each.name).split(".")[0]) for each in node.names)


def unnamed(root):
    """A line for each declaration that no file names again, and for each import that its own file does not."""
    texts = dict(files(root))
    words = Counter(word for text in texts.values() for word in WORD.findall(text))
    fronts = tuple(front for text in texts.values() for front in FRONT.findall(text))
    for path, text in texts.items():
        yield from (f"{path}:{line}: {name}" for line, name in declared(text)
                    if words[name] == 1 and not name.startswith(("__", *fronts)))
        here = Counter(WORD.findall(text))
        yield from (f"{path}:{line}: import {name}" for line, name in imported(text) if here[name] == 1)
