"""What a document says of the tree, and each point at which the tree says otherwise."""
import functools
import importlib.machinery
import importlib.util
import os
import re

from documenting import tree
from documenting.page import QUOTED, Page

SUFFIXES = "antt|rt|rtic|script|trace|limits|txt|md|py|rs|rows|png|edit|js|html"
PATH = re.compile(rf"\.?/?[\w.*-]+(?:/[\w.*-]+)*\.(?:{SUFFIXES})|(?:[\w.*-]+/)+[\w.*-]*")
NUMBERED = re.compile(r"`([\w.]+)`(,? \(?`?)([\w/]+\.(?:antt|rt)):(\d+)")
PLACED = re.compile(r"`([A-Za-z_]\w*)`(?:,| in)? \(?`((?:[\w.-]+/)*[\w]+\.(?:antt|rt))`")
CRATE = re.compile(r"`(?:crates/)?(rt_\w+|rtic|\w+_cases|\w+_tests)\b")
MADE = {
    "out/", "crates/rtic/out/rtic", "crates/rtic/out/build.log", "run.html", "run.json", "run.vcd", "three.rtic",
    "three.script",
}
ELSEWHERE = {"reschedule_at", "unsafe", "runtimepath", "IK"}
OUTSIDE = re.compile(r"(?<![\w.])/(?:work|opt|tmp|home|root|usr)/\w|\bproxy\.|\bregistry\.|\bpypi\b")
# what a reader has time for: pages of docs/, and their words with those of README
MOST_PAGES, MOST_WORDS = 15, 42_000
WIDTH, SPARED, WORDS_A_TIME = 120, {"stand": r"\bstand(?:s|ing)?\b", "behind": r"\bbehind\b"}, 300


@functools.cache
def of_definitions(column):
    """A number of the last line of `bench/definitions lines`: 1 is that of the files, 2 and 3 are those of lines."""
    path = str(tree.ROOT / "bench" / "definitions")
    loader = importlib.machinery.SourceFileLoader("definitions", path)
    module = importlib.util.module_from_spec(importlib.util.spec_from_loader("definitions", loader))
    loader.exec_module(module)
    return int(module.counted()[-1].split()[column])


COUNTED = [
    (re.compile(r"\b(\d+)(?= crates\b)"), tree.count_of_crates),
    (re.compile(r"\b(\d+)(?= wrong bodies\b)|(?<=must-fail edits: )(\d+)(?= refused)"), tree.count_of_wrong_bodies),
    (re.compile(r"\b(\d+)(?= files of definitions\b)"), functools.partial(of_definitions, 1)),
    (re.compile(r"\b(\d+)(?= lines of definitions\b)"), functools.partial(of_definitions, 3)),
]


def crates_named(part):
    """The crates that a part of a document names."""
    return set(CRATE.findall(part))


def within(paths, crates):
    """Those of some paths that lie in one of these crates; all, where none does or none is named."""
    return [path for path in paths if path.startswith(tuple(f"crates/{crate}/" for crate in crates))] or paths


def in_context(parts):
    """Each part with the crates that a path in it may be of: those that it names, its table's, those named last."""
    table, last = set(), set()
    for number, part in parts:
        named = crates_named(part)
        table = (table or named) if part.startswith("|") else set()
        yield number, part, [named, table, last]
        last = named or last


def place(path, name, contexts):
    """The file and the line at which a name is declared, of the files that end with a path; or None."""
    last = name.split(".")[-1]
    found = [(file, line) for file in tree.matching(path) for line in tree.lines_that_declare(file, last)]
    for crates in contexts:
        near = [(file, line) for file, line in found if file.split("/")[1:2] and file.split("/")[1] in crates]
        if near:
            return near[0]
    return found[0] if len({file for file, _ in found}) == 1 else None


def paths_amiss(page):
    """Paths that the tree does not have."""
    for number, part in page.parts():
        for quoted in QUOTED.findall(part):
            for word in quoted.split():
                path = re.sub(r":\d+$", "", word.strip(",;()"))
                is_left_out = path in MADE or path.startswith(("~", "<")) or re.search("://|NAME", path)
                if not PATH.fullmatch(path) or is_left_out:
                    continue
                if not tree.matching(path.removeprefix("./")):
                    yield number, f"no file `{path}`"


def names_amiss(page):
    """Names that no source has, and names that are not declared in the file beside them."""
    for number, part in page.parts():
        for quoted in QUOTED.findall(part):
            if re.fullmatch(r"[A-Za-z_]\w+(?:(?:::|\.)[A-Za-z_]\w*)*", quoted):
                gone = set(re.split(r"::|\.", quoted)) - tree.words() - ELSEWHERE
                is_commit = re.fullmatch(r"[0-9a-f]{7}", quoted)
                if gone and not is_commit and "NAME" not in quoted and not tree.matching(quoted):
                    yield number, f"no source has `{quoted}`"
        for name, path in PLACED.findall(part):
            files = tree.matching(path)
            if files and not CRATE.match(f"`{name}") and not any(tree.lines_that_declare(file, name) for file in files):
                yield number, f"`{path}` does not declare `{name}`"


def lines_amiss(page):
    """Numbers of lines that are not those of the names beside them."""
    for number, part, contexts in in_context(page.parts()):
        for name, _, path, line in NUMBERED.findall(part):
            found = place(path, name, contexts)
            if not found:
                yield number, f"{path} has no `{name}`"
            elif found[1] != int(line):
                yield number, f"`{name}` is at {found[0]}:{found[1]}, not {line}"


def rows_amiss(page):
    """Rows of a table `Definition | File` whose names are not in their files."""
    for number, part in page.parts():
        cells = [cell.strip() for cell in part.strip("|").split("|")] if part.startswith("|") else []
        if len(cells) < 3 or not re.match(r"`[\w/]+\.(?:antt|rt)`", cells[1]):
            continue
        files = [path for path in QUOTED.findall(cells[1]) if path.endswith((".antt", ".rt"))]
        crates = {file.removeprefix("crates/").split("/")[0] for file in files}
        found = {file for path in files for file in within(tree.matching(path), crates)}
        for name in QUOTED.findall(cells[0]):
            if re.fullmatch(r"\w+", name) and not any(tree.lines_that_declare(file, name) for file in found):
                yield number, f"`{name}` is not declared in {cells[1]}"


def links_amiss(page):
    """Links to files or headings that are not there."""
    for number, target in page.links():
        if re.match(r"[a-z]+:", target):
            continue
        path, _, head = target.partition("#")
        file = os.path.normpath(os.path.join(os.path.dirname(page.path), path)) if path else page.path
        if not (tree.ROOT / file).exists():
            yield number, f"no file {target}"
        elif head and head not in Page(file).headings():
            yield number, f"no heading {target}"


def hops_amiss(page):
    """Functions of a walk through the code, under a heading with `hop by hop`, that none of the files before calls."""
    walks, files = False, []
    for number, part in page.parts():
        if part.startswith("#"):
            walks, files = "hop by hop" in part, []
        for name, path in PLACED.findall(part) if walks else ():
            called = re.compile(rf"(?<!fn ){name}(?:::<[^()]*>)?\(")
            if files and not any(called.search(tree.text_of(file)) for file in files):
                yield number, f"no hop before it calls `{name}`"
            files += tree.matching(path)


def numbers_amiss(page):
    """Counts that are not those of the tree."""
    for number, line in enumerate(page.lines, 1):
        for pattern, count in COUNTED:
            for found in pattern.finditer(line):
                if int(found.group()) != count():
                    yield number, f"{found.group()} is {count()} in the tree"


def forms_amiss(page):
    """Lines that are too long, places of one machine, and words that come too often."""
    for number, line in enumerate(page.lines, 1):
        if len(line) > WIDTH and not line.startswith(("|", "    usage: ")):
            yield number, f"{len(line)} columns"
        if OUTSIDE.search(line):
            yield number, "a place of one machine"
    prose = page.prose()
    most = max(1, len(prose.split()) // WORDS_A_TIME)
    for word, pattern in SPARED.items():
        times = len(re.findall(pattern, prose, re.I))
        if times > most:
            yield 0, f"'{word}' {times} times, where {most} is the most"


KINDS = (paths_amiss, names_amiss, lines_amiss, rows_amiss, links_amiss, hops_amiss, numbers_amiss, forms_amiss)


def faults_of(page):
    """All faults of a document, in the order of its lines."""
    return sorted({fault for kind in KINDS for fault in kind(page)})


def too_much(pages):
    """What README and the pages of docs/ have too much of, taken together."""
    read = [page for page in pages if page.path == "README.md" or page.path.startswith("docs/")]
    words, count = sum(len(page.text.split()) for page in read), len(read) - 1
    if count > MOST_PAGES:
        yield f"docs: {count} pages, where {MOST_PAGES} are the most"
    if words > MOST_WORDS:
        yield f"README and docs: {words} words, where {MOST_WORDS} are the most"


def written(page):
    """The text of a document with the numbers of the tree."""
    text = page.text
    for _, part, contexts in in_context(page.parts()):

        def numbered(found, contexts=contexts):
            at = place(found[3], found[1], contexts)
            return f"`{found[1]}`{found[2]}{found[3]}:{at[1] if at else found[4]}"

        text = text.replace(part, NUMBERED.sub(numbered, part), 1)
    for pattern, count in COUNTED:
        text = pattern.sub(lambda found, count=count: str(count()), text)
    return text
