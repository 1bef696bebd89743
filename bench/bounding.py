#!/usr/bin/env python3
"""Tries the answers of `rticx bounds` on random listings, half of them with loops, each without limits and under some.
Where the seven rules hold each line is compared with a reference of its own in bench/bounds, and the first of these
images run under chance events on the core of bench/cortex: no job, section, wait or stack may exceed its bound, and
where requests keep the limits none may be served later than its response time says. Where a rule is broken the answer
is `no K`.

    python3 bounding.py PROGRAM FOLDER [COUNT [SEED]]

PROGRAM is rticx, FOLDER takes the listings. The last lines count them. The status is 1 where an answer is wrong or a
run exceeds a bound; a listing with a wrong answer stays in FOLDER.
"""
import collections
import concurrent.futures
import os
import pathlib
import random
import subprocess
import sys

HERE = pathlib.Path(__file__).resolve().parent
sys.path[:0] = [str(HERE / name) for name in ("witness", "bounds", "cortex")]
sys.dont_write_bytecode = True

from contexts import Image, points
from listings import some
from making import looping
from reference import differs, read
from rules import least_broken
from runs import RATES, exceeding
from times import differs_timed, is_pended, late, limits_text, read_limits

COUNT = 5_000
SEED = 7
RUN = 1_000
DONE, REFUSED, BROKEN = 0, 3, 4


def told(program, *paths):
    """What the program answers to a listing, and its status; a second file has limits."""
    ran = subprocess.run([program, "bounds", *paths], capture_output=True, text=True, timeout=60, check=False)
    return ran.stdout, ran.returncode


def judged(text, answer, status):
    """What is wrong with an answer to a listing, if something is, and what it counts as."""
    if status == REFUSED:
        return None, "refused"
    image = Image(text)
    found = points(image)
    if found is None:
        return None, "too many points"
    least = least_broken(image, found)
    if least is not None:
        right = status == BROKEN and answer == f"no {least}\n"
        return (None if right else f"status {status}, {answer!r} where rule {least} is broken"), f"no {least}"
    if status != DONE:
        return f"status {status} where no rule is broken", "bounds"
    return differs(text, answer), "bounds with loops" if " - " in answer else "bounds"


def enabled(text):
    """The numbers of the interrupts of a listing that are enabled, by their names."""
    return {row.name: row.number for row in read(text)[1] if row}


def wrong_under(text, limits, plain, answer):
    """What is wrong with the answer to a listing under limits, if something is; `plain` is that without them."""
    known, refusal = read_limits(enabled(text), limits)
    if refusal or plain[1] != DONE:
        due = plain if plain[1] == REFUSED else (refusal, REFUSED) if refusal else plain
        return None if answer == due else f"{answer} under limits, wanted {due}"
    if is_pended(text):
        return None if answer == ("no\n", BROKEN) else f"{answer} where a `post` stands"
    wrong = differs_timed(text, known, answer[0])
    return wrong if answer[1] == DONE else f"status {answer[1]} under limits"


def tried(program, folder, number, text, limits):
    """What a listing counts as, what is wrong with its answers, if something is, and these where it has bounds."""
    path, beside = (pathlib.Path(folder) / f"{number}.{ending}" for ending in ("listing", "limits"))
    path.write_text(text)
    beside.write_bytes(limits.encode())
    plain, answer = told(program, path), told(program, path, beside)
    wrong, kind = judged(text, *plain)
    wrong = wrong or kind != "too many points" and wrong_under(text, limits, plain, answer)
    if not wrong:
        path.unlink()
        beside.unlink()
    return kind, wrong and f"{path}: {wrong}", (plain[0], answer) if plain[1] == DONE else None


def numbers(answer):
    """The bounds of an answer by their words; None where there is none."""
    rows = [line.split(" ") for line in answer.splitlines()]
    return {" ".join(row[:-2]) if row[-2] == "-" else " ".join(row[:-1]): None if row[-2] == "-" else int(row[-1])
            for row in rows}


def ran(number, text, limits, answers, seed):
    """What runs of an image exceed."""
    notes = [line.note for line in read(text)[2]]
    plain, (timed, status) = answers
    found = exceeding(text, notes, numbers(plain), random.Random(f"{seed} {number}"))
    if status == DONE:
        found += late(text, read_limits(enabled(text), limits)[0], timed, random.Random(f"{seed} {number} limits"))
    return [f"{number}: {one}" for one in found]


def main(program, folder, count=COUNT, seed=SEED):
    chance = random.Random(int(seed))
    texts = [some(chance) if number % 2 else looping(chance) for number in range(int(count))]
    limits = [limits_text(text, chance) for text in texts]
    pathlib.Path(folder).mkdir(parents=True, exist_ok=True)
    with concurrent.futures.ThreadPoolExecutor(os.cpu_count()) as pool:
        ends = list(pool.map(lambda at: tried(program, folder, at, texts[at], limits[at]), range(len(texts))))
    wrong = [one for _, one, _ in ends if one]
    able = [(at, texts[at], limits[at], answers, seed) for at, (_, _, answers) in enumerate(ends) if answers][:RUN]
    with concurrent.futures.ProcessPoolExecutor() as pool:
        exceeded = [one for found in pool.map(ran, *zip(*able)) for one in found] if able else []
    for line in [*wrong, *exceeded]:
        print(line)
    counts = collections.Counter(kind for kind, _, _ in ends)
    print(", ".join(f"{kind}: {number}" for kind, number in sorted(counts.items())))
    print(f"{len(texts)} listings, {len(wrong)} wrong; {len(able)} images under {len(RATES)} scripts each, "
          f"{len(exceeded)} bounds exceeded")
    return 1 if wrong or exceeded else 0


if __name__ == "__main__":
    if len(sys.argv) < 3:
        sys.exit(__doc__)
    sys.exit(main(*sys.argv[1:]))
