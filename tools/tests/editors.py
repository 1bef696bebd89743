#!/usr/bin/env python3
"""Tries the files of editors/: that each grammar has every word of the language, the colours of TextMate's on all
tokens of the examples, the parser of tree-sitter on all texts of the tables of cases, the extension for VS Code by node
with a stand-in for the editor, and Vim's files by Vim. What is not on the machine is skipped, and said."""
import concurrent.futures
import ctypes
import ctypes.util
import json
import pathlib
import re
import shutil
import subprocess
import sys
import tempfile

HERE = pathlib.Path(__file__).resolve().parent
ROOT = HERE.parents[1]
EDITORS = ROOT / "editors"
sys.dont_write_bytecode = True
sys.path[:0] = [str(HERE.parent), str(ROOT / "bench" / "hostile")]

from explaining.program import asked_program
from rows import cases, told_by
from serving.sentences import TOLD

TABLES = sorted(path.name for path in (ROOT / "crates" / "command_cases" / "data").iterdir())
TOKEN = re.compile(r"//[^\n]*|\w+|<<|>>|[=!<>]=|\.\.|[^\s\w]", re.ASCII)
# the refusals that the form of a text is the cause of
OF_FORM = ("E02", "E03")
LONGEST = 20_000
LEAST_TEXTS = 600
AT_ONCE = 4
STARTS = 100


class Told:
    """What is wrong, what was tried, and what was not."""

    def __init__(self):
        self.faults, self.tried, self.skipped = [], [], []

    def expect(self, what, is_right):
        if not is_right:
            self.faults.append(what)


def words_of_language():
    """The reserved words, by the list in docs/LANGUAGE.md, and the two that are words in one place."""
    page = (ROOT / "docs" / "LANGUAGE.md").read_text(encoding="utf-8")
    listed = re.search(r"These words are reserved, and name nothing: `([^`]*)`", page)[1].split()
    return set(listed) | {"fpu", "on"}


def try_words(told):
    """Each grammar has every word, as a word by itself."""
    for name in ("vim/syntax/rtic.vim", "vscode/syntaxes/rtic.tmLanguage.json", "tree-sitter-rtic/grammar.js",
                 "tree-sitter-rtic/queries/highlights.scm"):
        text = re.sub(r"\\[b<>]", " ", (EDITORS / name).read_text(encoding="utf-8"))
        missing = sorted(word for word in words_of_language() if not re.search(rf"\b{word}\b", text))
        told.expect(f"{name} lacks {missing}", not missing)
    told.expect("the words that tools/lsp has a sentence of", set(TOLD) == words_of_language())


# TextMate.

def scopes(patterns, line):
    """The scope of each byte of a line: at each place the pattern that begins first, and of several the first one."""
    found, at = [""] * len(line), 0
    while at < len(line):
        tried = [(match, row) for match, row in ((row["re"].search(line, at), row) for row in patterns) if match]
        tried = [(match, row) for match, row in tried if match.end() > match.start()]
        if not tried:
            break
        match, row = min(tried, key=lambda one: one[0].start())
        for place in range(match.start(), match.end()):
            found[place] = row.get("name", "")
        for number, capture in row.get("captures", {}).items():
            for place in range(*match.span(int(number))):
                found[place] = capture["name"]
        at = match.end()
    return found


def due_scope(texts, place, words):
    """The scope that a token among those of its line is to have, in its first two parts."""
    token = texts[place]
    if token.startswith("//"):
        return ("comment.line",)
    if token[0].isdigit():
        return ("constant.numeric",)
    if token == "fpu" and texts[place + 1 : place + 3] == ["=", "on"]:
        return ("storage.modifier",)
    if token == "on" and texts[place - 2 : place] == ["fpu", "="]:
        return ("constant.language",)
    if token in words - {"fpu", "on"}:
        return ("storage.type", "storage.modifier", "keyword.control", "constant.language")
    if token[0].isalpha() or token[0] == "_":
        return ("entity.name", "variable.other")
    return ("keyword.operator", "punctuation.rtic")


def try_textmate(told):
    """Each token of the examples has one scope from end to end, of its kind."""
    grammar = json.loads((EDITORS / "vscode/syntaxes/rtic.tmLanguage.json").read_text(encoding="utf-8"))
    patterns = [{**row, "re": re.compile(row["match"], re.ASCII)} for row in grammar["patterns"]]
    words, count = words_of_language(), 0
    for path in sorted((ROOT / "examples").rglob("*.rtic")):
        for line in path.read_text(encoding="ascii").splitlines():
            row, found = list(TOKEN.finditer(line)), scopes(patterns, line)
            texts = [match.group() for match in row]
            for place, match in enumerate(row):
                count += 1
                here = set(found[match.start() : match.end()])
                due = due_scope(texts, place, words)
                told.expect(f"{path.name}: `{match.group()}` has {here}", len(here) == 1
                            and ".".join(here.pop().split(".")[:2]) in due)
    told.tried.append(f"{count} tokens by TextMate's grammar")


# Tree-sitter.

class Node(ctypes.Structure):
    """A node of the library's trees."""

    _fields_ = [("context", ctypes.c_uint32 * 4), ("id", ctypes.c_void_p), ("tree", ctypes.c_void_p)]


def parser_of(library, language):
    """A call that says whether the tree of a text has an error."""
    pointer = ctypes.c_void_p
    for name, answer, values in (
        ("ts_parser_new", pointer, []), ("ts_parser_set_language", ctypes.c_bool, [pointer, pointer]),
        ("ts_parser_parse_string", pointer, [pointer, pointer, ctypes.c_char_p, ctypes.c_uint32]),
        ("ts_tree_root_node", Node, [pointer]), ("ts_node_has_error", ctypes.c_bool, [Node]),
        ("ts_tree_delete", None, [pointer]),
    ):
        getattr(library, name).restype, getattr(library, name).argtypes = answer, values
    language.tree_sitter_rtic.restype = pointer
    parser = library.ts_parser_new()
    if not library.ts_parser_set_language(parser, language.tree_sitter_rtic()):
        return None

    def has_error(text):
        tree = library.ts_parser_parse_string(parser, None, text, len(text))
        found = library.ts_node_has_error(library.ts_tree_root_node(tree))
        library.ts_tree_delete(tree)
        return found

    return has_error


def texts_by_refusal(program, folder):
    """The texts of the tables with the number by which `fmt` refuses them, or an empty text where it takes them."""
    texts = {case[name] for table in TABLES for case in cases(table) for name in ("app", "second") if name in case}

    def refusal(numbered):
        path = folder / f"{numbered[0]}.rtic"
        path.write_bytes(numbered[1])
        done = subprocess.run([program, "fmt", path], stdin=subprocess.DEVNULL, stdout=subprocess.PIPE, check=False)
        return told_by(done.stdout) if done.returncode else ""

    rows = list(enumerate(sorted(text for text in texts if len(text) < LONGEST)))
    with concurrent.futures.ThreadPoolExecutor(AT_ONCE) as pool:
        return {text: number for (_, text), number in zip(rows, pool.map(refusal, rows))}


def try_tree_sitter(told, folder):
    """A text that the program takes as one of the grammar has no error node, a text that it refuses by its form has."""
    compiler, library = shutil.which("cc") or shutil.which("gcc"), ctypes.util.find_library("tree-sitter")
    for there, missing in ((asked_program(), "the proved program is not built"), (compiler, "cc is not there"),
                           (library, "tree-sitter's library is not there")):
        if not there:
            told.skipped.append(f"{missing}, so the grammar of tree-sitter is not tried")
            return
    built, source = folder / "rtic.so", EDITORS / "tree-sitter-rtic" / "src"
    subprocess.run([compiler, "-shared", "-fPIC", "-I", source, "-o", built, source / "parser.c"], check=True)
    has_error = parser_of(ctypes.CDLL(library), ctypes.CDLL(str(built)))
    if has_error is None:
        told.skipped.append("tree-sitter here reads no parser of this version, so its grammar is not tried")
        return
    texts = texts_by_refusal(asked_program(), folder)
    for text, number in texts.items():
        is_due = number in OF_FORM
        told.expect(f"tree-sitter on {text[:80]!r}, {number or 'accepted'}: {'no ' * is_due}error",
                    number in ("E01", "E04") or has_error(text) == is_due)
    refused = sum(number in OF_FORM for number in texts.values())
    told.expect(f"only {len(texts)} texts", len(texts) >= LEAST_TEXTS and refused >= LEAST_TEXTS // 2)
    told.tried.append(f"{len(texts)} texts by tree-sitter's, {refused} with an error")


# VS Code.

def spot(line, start, stop):
    return {"startLine": line, "startCharacter": start, "endLine": line, "endCharacter": stop}


def try_extension(told):
    """The extension's files are of their form; driven by node it hands on what the server answers."""
    folder = EDITORS / "vscode"
    package = json.loads((folder / "package.json").read_text(encoding="utf-8"))
    language = package["contributes"]["languages"][0]
    files = [package["main"], language["configuration"], package["contributes"]["grammars"][0]["path"]]
    told.expect(f"a file of {files} is not there", all((folder / name).is_file() for name in files))
    configured = json.loads((folder / language["configuration"]).read_text(encoding="utf-8"))
    told.expect("the words of the configuration", re.fullmatch(configured["wordPattern"], "spawn_after"))
    node = shutil.which("node")
    if not node:
        told.skipped.append("node is not there, so the extension is not run")
        return
    if asked_program() is None:
        told.skipped.append("the proved program is not built, so the extension is not run")
        return
    done = subprocess.run([node, HERE / "editors" / "drive.js"], stdout=subprocess.PIPE, timeout=STARTS, check=False)
    told.expect(f"the extension ends with {done.returncode}", done.returncode == 0)
    if done.returncode == 0:
        compare_extension(told, json.loads(done.stdout))


def compare_extension(told, found):
    """What the providers answered, by hand: the text and the places are those of drive.js."""
    refused = found["refused"][0]
    x, use, y = spot(2, 24, 25), spot(2, 36, 37), [[spot(2, 24, 25), "y"], [spot(2, 36, 37), "y"]]
    pairs = [
        ("refused", (refused["code"], refused["range"], refused["severity"]), ("E03", spot(2, 38, 39), 0)),
        ("accepted", found["accepted"], []),
        ("hover", "hardware task `t`, bound to `A`" in found["hover"]["contents"]["value"], True),
        ("definition", found["definition"]["range"], x),
        ("references", [one["range"] for one in found["references"]], [x, use]),
        ("highlights", [(one["range"], one["kind"]) for one in found["highlights"]], [(x, 2), (use, 1)]),
        ("prepared", found["prepared"], {"range": x, "placeholder": "x"}),
        ("renamed", [[one["range"], one["newText"]] for one in found["renamed"]["file:///a.rtic"]], y),
        ("refusal", "a word of the language" in found["refusal"], True),
        ("symbols", [one["name"] for one in found["symbols"]], ["a", "interrupts", "t"]),
        ("edits", found["edits"][0]["newText"], "task t(binds = A) {\n    let x = 1;\n    emit x;\n}\n"),
        ("items", [(one["label"], one["kind"], one["range"]) for one in found["items"]], [("x", 5, use)]),
        ("languages", found["languages"], ["rtic"]), ("stopped", found["stopped"], None), ("shown", found["shown"], []),
    ]
    for name, value, due in pairs:
        told.expect(f"the extension's {name}: {value}, and due is {due}", value == due)
    told.tried.append(f"{len(pairs)} answers of the extension")


# Vim.

SCRIPT = """\
set nocompatible
set runtimepath^={folder}
filetype plugin indent on
syntax on
edit {file}
silent make
redir! > {out}
echo &filetype . '|' . &commentstring
for one in getqflist()
  if one.valid
    echo 'found|' . one.lnum . '|' . one.col . '|' . one.nr . '|' . substitute(one.text, '\\n', '|', 'g')
  endif
endfor
for word in {words}
  call cursor(1, 1)
  call search('\\C\\<' . word . '\\>', 'cW')
  echo 'word|' . word . '|' . synIDattr(synID(line('.'), col('.'), 1), 'name')
endfor
redir END
qall!
"""
VIM_TEXT = "app a(bits = 3, dispatchers = [D], fpu = on);\ninterrupts { D = 1 }\nidle { emit x }\n"


def try_vim(told, folder):
    """Vim colours every word, knows comments, and `:make` finds the place of a refusal with what is said of it."""
    vim = shutil.which("vim")
    if not vim or asked_program() is None:
        told.skipped.append(f"{'the proved program is not built' if vim else 'vim is not there'}, so Vim is not tried")
        return
    words = sorted(words_of_language())
    rest = [word for word in words if not re.search(rf"\b{word}\b", VIM_TEXT)]
    file, out, script = folder / "a text.rtic", folder / "out", folder / "try.vim"
    file.write_text(VIM_TEXT + "".join(word + "\n" for word in rest), encoding="ascii")
    script.write_text(SCRIPT.format(folder=EDITORS / "vim", file=str(file).replace(" ", "\\ "), out=out, words=words),
                      encoding="ascii")
    subprocess.run([vim, "-es", "-u", "NONE", "-S", script], stdin=subprocess.DEVNULL, stdout=subprocess.DEVNULL,
                   stderr=subprocess.DEVNULL, timeout=STARTS, check=False)
    said = out.read_text(encoding="utf-8").split("\n") if out.exists() else []
    told.expect(f"Vim's settings: {said[:2]}", "rtic|// %s" in said)
    told.expect(f"Vim's list: {[one for one in said if one.startswith('found')]}",
                any(one.startswith("found|3|15|3|syntax|help: a statement or declaration ends with `;`, and none comes "
                                   "after `x` in line 3") for one in said))
    plain = [word for word in words if not any(re.fullmatch(rf"word\|{word}\|rtic\w+", one) for one in said)]
    told.expect(f"words without a colour in Vim: {plain}", not plain)
    told.tried.append(f"{len(words)} words by Vim")


def main():
    """Ends with 1 where anything is wrong."""
    told = Told()
    with tempfile.TemporaryDirectory(prefix="rtic-editors-") as name:
        folder = pathlib.Path(name)
        try_words(told)
        try_textmate(told)
        try_tree_sitter(told, folder)
        try_extension(told)
        try_vim(told, folder)
    for fault in told.faults[:20]:
        print("editors: wrong:", fault)
    if told.skipped:
        print("editors: skipped in part:", "; ".join(told.skipped))
    print(f"editors: {', '.join(told.tried)}; {len(told.faults)} wrong")
    return 1 if told.faults else 0


if __name__ == "__main__":
    sys.exit(main())
