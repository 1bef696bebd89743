#!/usr/bin/env python3
"""Tries tools/lsp by a client that speaks its protocol: at places of the texts of the tables of cases, and by hand.

What is right at a place comes from the text by regular expressions, and from the program: a rename is right where the
program accepts the renamed text, `fmt` of it is `fmt` of the text with just those tokens changed, and `build` writes
the same; a completion is right where the program does not refuse the name there. tools/tests/lsp/hand.py has what was
written by hand. `lsp.py times` prints how long each request takes on a text of 1,000 lines.
"""
import pathlib
import random
import sys

HERE = pathlib.Path(__file__).resolve().parent
sys.dont_write_bytecode = True
sys.path[:0] = [str(HERE.parent), str(HERE / "lsp")]

import hand
import places
import protocol
from client import Client
from explaining.program import asked_program
from reading import Asking, texts

SEED = 57
AMONG, SHORT = 15, 200
# also on a busy machine, where processor time counts for more
MOST_MILLISECONDS, QUESTIONS = 500, 200


class Told:
    """Counts what was tried, and keeps what is not as it should be."""

    def __init__(self):
        self.faults, self.tried = [], {}

    def expect(self, part, what, is_right):
        self.tried[part] = self.tried.get(part, 0) + 1
        if not is_right:
            self.faults.append(f"{part}: {what}")


def try_places(client, asking, told):
    """Renames, hovers and completions at places of accepted texts that are chosen by a seed."""
    chosen = random.Random(SEED)
    found = chosen.sample([text for text in texts() if len(text) > SHORT], 2 * AMONG)
    accepted = [text for text, (status, _) in zip(found, asking.all("check", found)) if status == 0]
    told.expect("places", f"only {len(accepted)} texts are accepted", len(accepted) >= AMONG)
    for number, text in enumerate(accepted[:AMONG]):
        uri = f"file:///{number}.rtic"
        client.open(uri, text)
        for part in (places.rename_places, places.hover_places, places.completion_places):
            part(client, asking, told, chosen, uri, text)
        client.close(uri)
    places.word_places(client, told, chosen, accepted)


def try_times(told):
    """Each request on a text of 1,000 lines, right after a change of it, takes less processor time than is allowed."""
    for method, seconds in protocol.costs(Client()).items():
        told.expect("times", f"{method} takes {seconds * 1000:.0f} ms", seconds * 1000 < MOST_MILLISECONDS)


def print_times():
    """The quantiles of each request's time, in milliseconds."""
    for method, times in sorted(protocol.times(Client(), QUESTIONS).items()):
        row = sorted(time * 1000 for time in times)
        print(f"{method:32} p50 {row[len(row) // 2]:6.1f}  p99 {row[len(row) * 99 // 100]:6.1f}  worst {row[-1]:6.1f}")


def main():
    if asked_program() is None:
        print("lsp: skipped: the proved program is not built (./build makes it), and RTIC names no other")
        return 0
    if sys.argv[1:] == ["times"]:
        print_times()
        return 0
    told, asking = Told(), Asking(asked_program())
    client = Client()
    try_places(client, asking, told)
    hand.try_all(client, told)
    told.expect("protocol", "the status at the end", client.end() == 0)
    protocol.try_all(told)
    try_times(told)
    asking.folder.cleanup()
    for fault in told.faults[:20]:
        print("lsp: wrong:", fault)
    print(f"lsp: {', '.join(f'{count} {part}' for part, count in told.tried.items())}; {len(told.faults)} wrong")
    return 1 if told.faults else 0


if __name__ == "__main__":
    sys.exit(main())
