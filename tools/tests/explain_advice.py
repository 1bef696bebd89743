#!/usr/bin/env python3
"""Sees that tools/explaining/advice.py alone advises a change: no other sentence of tools/explaining, and no row of its
table, tells what to write, to leave out or to do, and none but those of advice.py and of the one change that a program
tried (mending.py) says that a text is read with a change.

A sentence is a string of the code that is no comment of a function, with what is in backquotes left out; it advises
where a part of it begins with a verb as one gives orders.
"""
import ast
import pathlib
import re
import sys

FOLDER = pathlib.Path(__file__).resolve().parents[1] / "explaining"
sys.path.insert(0, str(FOLDER.parent))
sys.dont_write_bytecode = True

from explaining.advice import WHOLE
from explaining.listing import OPERATIONS
from explaining.scripts import FORMS as ITEMS
from explaining.table import Table

ORDERS = (
    "write|leave|put|use|save|keep|drop|make|declare|give|look|add|remove|replace|take|split|move|audit|insert|delete|"
    "rename|change|jump|try|list|choose|swap|join|close|open|begin|begins? with a new|enter|raise|let each|compare|"
    "assign"
)
BEGINS = r"(?:^|[:;,(] |\b(?:and|or|so|then|please|first) )"
ADVISES = re.compile(rf"{BEGINS}(?:{ORDERS})\b(?! (?:an |the |no |some |it)?\w+s\b)")
# what says how sure a cause is has no place: it is certain, or is not told
GUESSES = re.compile(r"\b(?:looks? like|may look|perhaps|probably|maybe|it seems|you)\b")
# a line of a trace or a listing has few words, and none in backquotes
SHORT = 3
# sentences that are to be refused
PLANTED = (
    "there is no `!`: write `(a == 0)`", "every variable can be assigned: leave `mut` out", "take the line out",
    "this looks like a script", "use another slot", "a `,` comes between two options: write one after `x`",
)
NO_SENTENCE = re.compile(r"^[^ ]*$|^[^a-z]*$")


def sentences_of(path):
    """The strings of a file that can be sentences, each with its line; parts of one sentence are joined."""
    tree = ast.parse(path.read_text(encoding="utf-8"))
    comments = {id(node.body[0].value) for node in ast.walk(tree)
                if isinstance(node, (ast.Module, ast.ClassDef, ast.FunctionDef)) and isinstance(node.body[0], ast.Expr)}
    inner = {id(part) for node in ast.walk(tree) if isinstance(node, ast.JoinedStr) for part in node.values}
    for node in ast.walk(tree):
        if id(node) in comments or id(node) in inner:
            continue
        if isinstance(node, ast.Constant) and isinstance(node.value, str):
            yield node.lineno, node.value
        elif isinstance(node, ast.JoinedStr):
            parts = [part.value if isinstance(part, ast.Constant) else "x" for part in node.values]
            yield node.lineno, "".join(parts)


def faults_of(name, line, sentence):
    """What is wrong with a sentence."""
    bare = re.sub(r"`[^`]*`", "`x`", sentence.split(" =>")[0])
    words = bare.split()
    is_item = len(words) <= SHORT and not ITEMS.keys().isdisjoint(words[:1])
    is_line = "`" not in sentence and (is_item or set(words) <= OPERATIONS)
    if NO_SENTENCE.search(bare) or is_line or "\\" in bare or "(?" in bare:
        return []
    found = [f"{name}:{line}: this advises: {sentence}"] if ADVISES.search(bare) else []
    return found + ([f"{name}:{line}: this guesses: {sentence}"] if GUESSES.search(bare) else [])


def main():
    faults, count = [], 0
    for path in sorted(FOLDER.glob("*.py")):
        for line, sentence in sentences_of(path):
            count += 1
            faults += faults_of(path.name, line, sentence)
            if WHOLE in sentence and path.name != "advice.py":
                faults.append(f"{path.name}:{line}: only advice.py says that a text is read with a change: {sentence}")
    faults += [f"this is not refused: {sentence}" for sentence in PLANTED if not faults_of("", 0, sentence)]
    for key, row in Table().rows.items():
        faults += [fault for cell in row for fault in faults_of("causes.md", key, cell)]
    print("\n".join(faults + [f"explain_advice: {count} strings, {len(faults)} of them advise or guess"]))
    return 1 if faults else 0


if __name__ == "__main__":
    sys.exit(main())
