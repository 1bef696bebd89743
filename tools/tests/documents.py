#!/usr/bin/env python3
"""The documents against the tree, by tools/documents; and that each kind of fault is seen where one is planted."""
import os
import sys

TOOLS = os.path.dirname(os.path.dirname(os.path.abspath(__file__)))
sys.dont_write_bytecode = True
sys.path.insert(0, TOOLS)

from documenting.faults import MOST_PAGES, MOST_WORDS, faults_of, too_much, written
from documenting.page import Page

COMMAND = os.path.join(TOOLS, "documents")
PLANTED = {
    "See `crates/rt_sim/specs/Bad.antt`.\n": "no file",
    "See `docs/NOWHERE.md`.\n": "no file",
    "See [it](docs/NOWHERE.md).\n": "no file",
    "See [it](docs/THEOREMS.md#no-such-heading).\n": "no heading",
    "By `images_are_" "worse` it holds.\n": "no source has",
    "By `images_are_good` (`crates/rt_sim/src/machine.rt`) it holds.\n": "does not declare",
    "By `images_are_good` (`crates/rt_sim/src/laws.rt:1`) it holds.\n": "not 1",
    "By `images_are_bad` (`crates/rt_sim/src/laws.rt:1`) it holds.\n": "has no `images_are_bad`",
    "| Name | File | Words |\n|---|---|---|\n| `Good` | `rt_sim/specs/Guarded.antt` | no |\n": "is not declared in",
    "## All, hop by hop\n\n1. `main` (`crates/rtic/src/main.rt`) begins.\n2. `parse` (`crates/rt_parse/src/text.rt`)"
    " reads.\n": "no hop before it calls `parse`",
    "It has 3 crates.\n": "in the tree",
    "It has 3 wrong bodies.\n": "in the tree",
    "There are 3 files of definitions.\n": "in the tree",
    "They have 3 lines of definitions.\n": "in the tree",
    "word " * 30 + "\n": "columns",
    "It lies in /opt/somewhere.\n": "of one machine",
    "It stands, and it stands.\n": "'stand' 2 times",
    "It is behind what is behind it.\n": "'behind' 2 times",
}
RIGHT = (
    "By `images_are_good` (`crates/rt_sim/src/laws.rt`) it holds; [so](docs/THEOREMS.md) does `Good`.\n\n"
    "    `no_such_name` is shown, and `no/such/file.md` too\n"
)


def main():
    """Ends with 1 where a document has a fault, or a planted one is not seen."""
    faults = []
    for text, wanted in PLANTED.items():
        seen = [fault for _, fault in faults_of(Page("README.md", text))]
        if not any(wanted in fault for fault in seen):
            faults.append(f"not seen: {text.strip()[:70]}: {seen}")
    faults += [f"seen where there is none: {fault}" for fault in faults_of(Page("README.md", RIGHT))]
    wrong = "By `images_are_good` (`crates/rt_sim/src/laws.rt:1`) it holds.\nIt has 3 crates.\n"
    wrong += "It has 3 files of definitions, and 3 lines of definitions.\n"
    if faults_of(Page("README.md", written(Page("README.md", wrong)))):
        faults.append("what `write` writes is not right")
    many = [Page("README.md", "word " * MOST_WORDS), *(Page(f"docs/{number}.md", "") for number in range(MOST_PAGES))]
    if list(too_much(many)) or len(list(too_much([*many, Page("docs/MORE.md", "word")]))) != 2:
        faults.append("too many pages or words are not seen, or are seen where there are as many as may be")
    for fault in faults:
        print(f"documents: {fault}")
    print(f"documents: {len(PLANTED)} planted faults tried", flush=True)
    ended = os.spawnl(os.P_WAIT, sys.executable, sys.executable, COMMAND)
    return 1 if faults or ended else 0


if __name__ == "__main__":
    sys.exit(main())
