#!/usr/bin/env python3
"""Tries the answers of `rticx why` on random listings, most of them changed: each answer is `yes` where the seven rules
hold, else the least rule that is broken, with a witness. Points and rules are walked and judged again in bench/witness,
from docs/VERIFY.md and with no text of the program's.

    python3 witnessing.py PROGRAM FOLDER [COUNT [SEED]]

PROGRAM is rticx, FOLDER takes the listings. The last line counts the answers by their first lines, and the listings
that were refused or have too many points to be looked at. The status is 1 where an answer is wrong.
"""
import collections
import concurrent.futures
import os
import pathlib
import random
import subprocess
import sys

sys.path.insert(0, str(pathlib.Path(__file__).resolve().parent / "witness"))
sys.dont_write_bytecode = True

from confirm import Wrong, confirm
from contexts import Image, points
from listings import some
from rules import least_broken

COUNT = 5_000
SEED = 7
REFUSED = 3
STATUS = {True: 0, False: 4}


def told(program, path):
    """What the program answers to a listing, and its status."""
    ran = subprocess.run([program, "why", path], capture_output=True, text=True, timeout=60, check=False)
    return ran.stdout, ran.returncode


def tried(program, folder, number, text):
    """What one listing counts as, and what is wrong with its answer, if something is."""
    path = pathlib.Path(folder) / f"{number}.listing"
    path.write_text(text)
    answer, status = told(program, path)
    if status == REFUSED:
        return "refused", None
    image = Image(text)
    found = points(image)
    if found is None:
        return "too many points", None
    least = least_broken(image, found)
    try:
        if status != STATUS[least is None]:
            raise Wrong(f"status {status}")
        confirm(image, found, least, answer)
    except (Wrong, ValueError, IndexError) as wrong:
        return "wrong", f"{path}: {wrong}"
    path.unlink()
    return " ".join(line.split(" ")[0] if at else line for at, line in enumerate(answer.split("\n")[:2])), None


def main(program, folder, count=COUNT, seed=SEED):
    chance = random.Random(int(seed))
    texts = [some(chance) for _ in range(int(count))]
    pathlib.Path(folder).mkdir(parents=True, exist_ok=True)
    with concurrent.futures.ThreadPoolExecutor(os.cpu_count()) as pool:
        ends = list(pool.map(lambda one: tried(program, folder, *one), enumerate(texts)))
    for _, wrong in ends:
        if wrong:
            print(wrong)
    counts = collections.Counter(kind for kind, _ in ends)
    print(", ".join(f"{kind.strip()}: {number}" for kind, number in sorted(counts.items())))
    return 1 if counts["wrong"] else 0


if __name__ == "__main__":
    if len(sys.argv) < 3:
        sys.exit(__doc__)
    sys.exit(main(*sys.argv[1:]))
