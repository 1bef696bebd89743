#!/usr/bin/env python3
"""Tries `tools/replay` and `tools/soak`: the scripts, what runs add up to, parts and their merging, and what is told.

Scripts are held against published words of the generator and lines that were made by hand; what they add up to against
the program's own `soak`, by a count over the lines of each run; and parts against the whole.
"""
import io
import json
import os
import pathlib
import random
import shlex
import subprocess
import sys
import tempfile

TOOLS = pathlib.Path(__file__).resolve().parents[1]
ROOT = TOOLS.parent
sys.dont_write_bytecode = True
sys.path.insert(0, str(TOOLS))

from explaining.program import asked_program
from explaining.tree import tree_of
from soaking import command, generated, parts, results, runs, tally, trace
from viewing.told import Told

# The first words from the state 42 and the sequence 54, as the generator's author publishes them with its code
# (pcg32-demo, round 1).
PUBLISHED = [0xA15C02B7, 0x7B47F409, 0xBA1D3330, 0x83D2F293, 0xBFA4784B, 0xCBED606E]

# Words and the lines that they give where A, B and C are declared, by the table of docs/LANGUAGE.md. 63 * 8 is 504.
LINES = [(0, "step 1"), (4, "step 1"), (504, "step 64"), (508, "step 64"), (512, "step 1"), (5, "tick 1"),
         (125, "tick 16"), (133, "tick 1"), (6, "pend A"), (7, "pend A"), (14, "pend B"), (23, "pend C"),
         (30, "pend A"), (4294967295, "pend B"), (4294967292, "step 64")]

# The generator's words by hand: 0xA15C02B7 is 8 * 338395222 + 7, 338395222 mod 3 is 1, and so on.
FIRST_LINES = ["pend B", "step 2", "step 39", "step 19", "step 10", "pend C"]

# A run by hand: K is requested four times and taken twice. The second request comes while it is pending; the third
# comes while K runs and is pending until K is taken again; the fourth merges with it. D is a dispatcher's and counts
# for nothing. `job` is sent three times, and twice there is no place.
RUN = """image 1 4 0 0 0 0
trace
0 pend K
0 pend K
0 end init
1 take D 64
2 take K 96
3 emit 4294967295
4 emit 2
5 ok job
6 full job
7 pend K
8 pend K
9 full job
10 ret K
11 take K 96
12 ret K
13 ret D
13 pend D
13 pend D
total 20
"""
APPLICATIONS = [("bell", 192, 6), ("serial", 7, 4), ("station", 18446744073709551615, 3), ("forms", 3, 3),
                ("timeout", 0, 3), ("four", 11, 3)]
SPLITS = 40

# A stand-in whose runs show one take, and whose `soak` counts none.
DIFFERS = """case $1 in
run) cat >/dev/null; printf 'image\\ntrace\\n0 take A 8\\n1 ret A\\ntotal 2\\n' ;;
soak) printf 'runs %s\\ntakes 0\\nemits 0\\nfull 0\\nsum 0\\ndepth 0\\n' "$4" ;;
esac"""
faults, count = [], 0


def expect(what, is_right):
    """Counts a case, and notes a fault."""
    global count
    count += 1
    if not is_right:
        faults.append(what)


def told(act, *words):
    """What an act tells in place of an answer: status and words."""
    try:
        return 0, act(*words)
    except Told as found:
        return found.status, found.words


def written(act, *words, text=""):
    """What a command writes: status, standard output, standard error."""
    kept = sys.stdin, sys.stdout, sys.stderr, sys.argv
    sys.stdin = io.TextIOWrapper(io.BytesIO(text.encode("ascii")))
    sys.stdout, sys.stderr, sys.argv = io.StringIO(), io.StringIO(), ["tools/soak"]
    try:
        return act(words), sys.stdout.getvalue(), sys.stderr.getvalue()
    finally:
        sys.stdin, sys.stdout, sys.stderr, sys.argv = kept


def try_scripts():
    """The generator, lines, and whole scripts."""
    generator = generated.Generator(42, 54)
    expect("the published words", [generator.word() for _ in PUBLISHED] == PUBLISHED)
    for word, line in LINES:
        expect(f"{word} gives {line}", generated.line(word, ["A", "B", "C"]) == line)
    expect("without interrupts", [generated.line(word, []) for word in (6, 7, 14, 0)] == ["tick 1"] * 3 + ["step 1"])
    lines = generated.script(["A", "B", "C"], 42, 54).split("\n")
    expect(f"a script begins {lines[:6]}", lines[:6] == FIRST_LINES and len(lines) == 201 and lines[-1] == "")
    status, text, _ = written(command.main_replay, str(ROOT / "examples" / "four.rtic"), "42", "54")
    # UART, SPI, ADC, SPARE and DMA are declared; 338395222 mod 5 is 2.
    expect(f"replay: {text[:40]}", status == 0 and text.startswith("pend ADC\nstep 2\nstep 39\n"))
    for words in ((), ("x",), ("x", "1"), ("x", "1", "10000"), ("x", "18446744073709551616", "0"), ("x", "-1", "0")):
        expect(f"replay {words}", written(command.main_replay, *words)[0] == 2)
    expect("no file", written(command.main_replay, "/nowhere", "1", "0")[0] == 5)
    expect("no application", written(command.main_replay, __file__, "1", "0")[0] == 1)


def try_counting():
    """A run that was counted by hand."""
    found = trace.tally_of(RUN, (7, 3), {"K"})
    want = {"runs": 1, "takes": 3, "emits": 2, "full": 2, "sum": 4294967297, "depth": 96}
    expect(f"by hand: {found.counts}", found.counts == want)
    lost = {name: vars(one) for table in (found.full, found.merged) for name, one in table.items()}
    job = {"of": 3, "times": 2, "runs": 1, "first": (7, 3), "most": 2, "worst": (7, 3)}
    expect(f"by hand: {lost}", lost == {"job": job, "K": {**job, "of": 4}})
    expect(f"by hand: {found.deepest}", found.deepest == (96, (7, 3), 2, ("D", "K")))
    expect("six lines", tally.six_lines(want) == "runs 1\ntakes 3\nemits 2\nfull 2\nsum 4294967297\ndepth 96\n"
           and tally.read_counts(tally.six_lines(want)) == want and tally.read_counts("no\n") is None)


def some_tally(run, chance):
    """A tally of one run, of chance numbers."""
    found = tally.Tally(True)
    found.counts = {name: chance.randrange(5) for name in tally.COUNTS}
    found.counts.update(runs=1, sum=chance.randrange(1 << 64))
    if found.counts["depth"]:
        found.deepest = tally.Deepest(found.counts["depth"], run, chance.randrange(9), ("D",))
    for table in (found.full, found.merged):
        for name in "ab"[:chance.randrange(3)]:
            times = chance.randrange(3)
            was_lost = run if times else None
            table[name] = tally.Lost(times + 1, times, int(times > 0), was_lost, times, was_lost)
    return found


def plain(found):
    """All that a tally has, to be compared."""
    tables = [{name: vars(one) for name, one in table.items()} for table in (found.full, found.merged)]
    return found.counts, tables, found.deepest


def by_hand(tallies):
    """What the tables of these say, from the definition: sums, the least run, and the least of the greatest."""
    found = []
    for kind in ("full", "merged"):
        table = {}
        for name in {name for each in tallies for name in getattr(each, kind)}:
            ones = [getattr(each, kind)[name] for each in tallies if name in getattr(each, kind)]
            lossy = sorted(one.first for one in ones if one.times)
            most = max(one.times for one in ones)
            worst = min((one.first for one in ones if one.times == most > 0), default=None)
            table[name] = {"of": sum(one.of for one in ones), "times": sum(one.times for one in ones),
                           "runs": len(lossy), "first": lossy[0] if lossy else None, "most": most, "worst": worst}
        found.append(table)
    return found


def try_sums():
    """Tallies of the same runs, split and ordered by chance, are one."""
    chance = random.Random(1)
    for _ in range(SPLITS):
        ones = [some_tally((number, run), chance) for number in range(3) for run in range(4)]
        whole = tally.Tally(True)
        for one in ones:
            whole.add(one)
        depth = max(one.counts["depth"] for one in ones)
        first = min((one.deepest.run for one in ones if one.counts["depth"] == depth > 0), default=None)
        wanted = sum(one.counts["sum"] for one in ones) % (1 << 64)
        expect("sums", whole.counts["sum"] == wanted and whole.counts["depth"] == depth and whole.counts["runs"] == 12)
        expect("the deepest", (whole.deepest.run if whole.deepest else None) == first)
        expect(f"tables {plain(whole)[1]}", plain(whole)[1] == by_hand(ones))
        chance.shuffle(ones)
        at, again = sorted(chance.sample(range(13), 3)), tally.Tally(True)
        for begin, end in zip([0, *at], [*at, 12]):
            part = tally.Tally(True)
            for one in ones[begin:end]:
                part.add(one)
            again.add(part)
        expect("another order", plain(again) == plain(whole))


def try_parts():
    """A campaign is cut into parts that have each run once; lists that have one twice are refused."""
    for first, last, begin, end, is_counted, number in ((5, 5, 0, 9, False, 4), (0, 99, 0, 9999, True, 40),
                                                        (0, 2, 3, 6, False, 7), (7, 8, 0, 0, False, 9),
                                                        (3, 9, 0, 4, True, 100)):
        campaign = parts.Part(first, last, begin, end, is_counted)
        found = parts.cut(campaign, number)
        got = [run for part in found for run in part.runs()] if campaign.size() < 1000 else None
        expect(f"{campaign} in {number}", got is None or sorted(got) == list(campaign.runs()))
        expect(f"{campaign}: all its runs", sum(part.size() for part in found) == campaign.size())
        enough = min(number, len(campaign.numbers()) if is_counted else campaign.size())
        expect(f"{campaign}: {len(found)} parts", len(found) >= enough and parts.disjoint(found) == found)
        for part in found[:3]:
            again = command.wanted(parts.call("soak", "an app", part, 2)[1:])
            expect(f"the words of {part}", (again.part, again.path, again.workers, again.is_part)
                   == (part, "an app", 2, True))
    two = [parts.Part(0, 9, 0, 99, False), parts.Part(9, 12, 99, 200, False)]
    expect("a run twice", told(parts.disjoint, two)[1].startswith("two calls of the list have runs in common"))
    mixed = [parts.Part(0, 9, 0, 99, False), parts.Part(10, 12, 0, 99, True)]
    expect("two kinds", told(parts.disjoint, mixed)[0] == 4)


class Rising:
    """A stand-in for the program whose count rises by one with a run, and stays."""

    def __init__(self, at, size):
        self.at, self.size, self.asked = at, size, 0

    def soak(self, number, count):
        """The count of the first runs."""
        expect("as many runs as there are", 1 <= count <= self.size)
        self.asked += count
        return {"full": int(count > self.at)}


def try_first():
    """The first run is found, wherever it is."""
    for size in (1, 2, 3, 7, 16, 33):
        for at in range(size):
            expect(f"{at} of {size}", runs.first_run(Rising(at, size), 0, size, "full", 1) == at)


def try_words():
    """The words, and what is told of them."""
    rows = [((), 2), (("a",), 2), (("a", "1", "0"), 2), (("a", "1", "10001"), 2), (("a", "9-3", "1"), 2),
            (("a", "1", "5-10000"), 2), (("a", "1", "1", "--workers", "0"), 2), (("a", "1", "1", "--workers"), 2),
            (("a", "1", "1", "--calls", "0"), 2), (("a", "1", "2-5", "--count"), 2), (("a", "1", "1", "--pary"), 2),
            (("a", "18446744073709551616", "1"), 2), (("--merge", "a"), 2), (("--merge", "-", "-"), 2),
            (("/nowhere", "1", "1"), 5), (("--merge", "/nowhere", "/nowhere"), 5)]
    for words, status in rows:
        found = written(command.main_soak, *words)
        expect(f"soak {words}: {found}", found[0] == status and found[1] == "" and found[2] != "")


def try_failing(folder):
    """What the program ends with is handed on, also from two workers; and a `soak` that counts otherwise is told."""
    app, kept = str(ROOT / "examples" / "bell.rtic"), os.environ.get("RTIC")
    rows = [("exit 7", 7, "ended with status 7"), ("echo 1:1 E03 syntax; exit 1", 1, "1:1 E03 syntax"),
            ("kill -9 $$", 70, "ended with status -9"), (DIFFERS, 4, "do not agree")]
    for number, (body, status, words) in enumerate(rows):
        stand_in = folder / f"rtic{number}"
        stand_in.write_text(f"#!/bin/sh\n{body}\n")
        stand_in.chmod(0o755)
        os.environ["RTIC"] = str(stand_in)
        for workers in ("1", "2")[:2 if number == 0 else 1]:
            found = written(command.main_soak, app, "1", "20", "--workers", workers)
            expect(f"{body}: {found}", found[0] == status and words in found[2] and found[1] == "")
    os.environ.pop("RTIC")
    if kept is not None:
        os.environ["RTIC"] = kept


def added_up(program, app, number, last):
    """The six counts of the first runs, by the lines that `run` writes for each script, counted here."""
    tree = tree_of(app.read_bytes().decode("latin-1"))
    names = [row[0].text for row in tree.interrupts]
    found = dict.fromkeys(tally.COUNTS, 0)
    for run in range(last):
        script = generated.script(names, number, run)
        done = subprocess.run([program, "run", app, "/dev/stdin"], input=script.encode(), stdout=subprocess.PIPE,
                              check=True)
        words = [line.split() for line in done.stdout.decode().partition("\ntrace\n")[2].split("\n")]
        found["runs"] += 1
        found["takes"] += sum(line[1:2] == ["take"] for line in words)
        found["emits"] += sum(line[1:2] == ["emit"] for line in words)
        found["full"] += sum(line[1:2] == ["full"] for line in words)
        found["sum"] += sum(int(line[2]) for line in words if line[1:2] == ["emit"])
        found["depth"] = max([found["depth"]] + [int(line[3]) for line in words if line[1:2] == ["take"]])
    found["sum"] %= 1 << 64
    return "".join(f"{name} {found[name]}\n" for name in tally.COUNTS)


def try_program(program):
    """What the runs of the scripts add up to is what `soak` writes, for several applications and numbers."""
    for name, number, last in APPLICATIONS:
        app = ROOT / "examples" / f"{name}.rtic"
        own = subprocess.run([program, "soak", app, str(number), str(last), "2"], stdout=subprocess.PIPE, check=True)
        expect(f"{name} {number}", added_up(program, app, number, last) == own.stdout.decode())


def try_campaign(program, folder):
    """A campaign in parts comes to what it comes to in one, looked at and only counted; and wrong results are told."""
    app = str(ROOT / "examples" / "bell.rtic")
    for words in ((app, "192-193", "3"), (app, "190-193", "3", "--count")):
        whole = written(command.main_soak, *words, "--workers", "1")
        calls = written(command.main_soak, *words, "--calls", "4")[1]
        lines = [written(command.main_soak, *shlex.split(call)[1:])[1] for call in calls.split("\n")[:-1]]
        expect(f"{words}: {len(lines)} parts", len(lines) == 4 and all(line.count("\n") == 1 for line in lines))
        files = {"calls": calls, "results": "".join(lines[2:]), "more": lines[1] + lines[0]}
        for name, text in files.items():
            (folder / name).write_text(text)
        merged = written(command.main_soak, "--merge", *(str(folder / name) for name in files))
        expect(f"{words}: {whole} is not {merged}", whole == merged and whole[0] == 0 and whole[1] != "")
        counts = whole[1].split("\n\n")[0] + "\n"
        own = [subprocess.run([program, "soak", app, number, "3", "1"], stdout=subprocess.PIPE, check=True).stdout
               for number in (("192", "193") if len(words) == 3 else ("190", "191", "192", "193"))]
        total = tally.Tally(False)
        for each in own:
            total.add_number(0, tally.read_counts(each.decode()))
        expect(f"{words}: as `soak`", counts == tally.six_lines(total.counts))
        try_wrong(folder, lines, str(folder / "calls"))


def try_wrong(folder, lines, calls):
    """A part that is lost, doubled, foreign, cut off, changed, or of another image is refused, each by its line."""
    wrong = folder / "wrong"
    wrong.write_text("".join(marked(line, image="other") for line in lines))
    found = written(command.main_soak, "--merge", calls, str(wrong))
    is_counted = json.loads(lines[0])["full"] is None
    expect(f"all of another image: {found}", found[0] == 0 and ("makes another image" in found[1]) == is_counted)
    part = json.loads(lines[1])["part"]
    foreign, other = marked(lines[1], part=[part[0] - 90, part[1] - 90, *part[2:]]), marked(lines[1], image="other")
    less = marked(lines[1], counts={**json.loads(lines[1])["counts"], "runs": 1})
    changed = lines[1].replace('"emits":', '"emits":1', 1)
    for text, status, words in (("".join(lines[1:]), 4, "1 of 4 parts have no result; the first is number"),
                                ("".join(lines + lines[2:3]), 4, f"{wrong}:5: a second result of one part"),
                                ("".join(lines)[:-9], 3, f"{wrong}:4: no whole result of a part"),
                                (lines[0] + changed + "".join(lines[2:]), 3, f"{wrong}:2: no whole result"),
                                (lines[0] + less + "".join(lines[2:]), 3, f"{wrong}:2: 1 runs, and the part has"),
                                (lines[0] + foreign + "".join(lines[2:]), 4, f"{wrong}:2: of no call"),
                                (lines[0] + other + "".join(lines[2:]), 4, "are of two images"),
                                ("", 4, "4 of 4 parts have no result")):
        wrong.write_text(text)
        found = written(command.main_soak, "--merge", calls, str(wrong))
        expect(f"{words}: {found}", found[0] == status and words in found[2] and found[1] == "")


def marked(line, **changes):
    """A result with other fields, and the mark that fits them."""
    fields = {**json.loads(line), **changes}
    fields.pop("mark")
    return json.dumps({**fields, "mark": results.mark(fields)}) + "\n"


def main():
    """Ends with 1 where something is wrong."""
    for act in (try_scripts, try_counting, try_sums, try_parts, try_first, try_words):
        act()
    with tempfile.TemporaryDirectory() as folder:
        try_failing(pathlib.Path(folder))
    program = asked_program()
    if program is None:
        print("campaigns: skipped in part: the program is not built (./build makes it), and RTIC names no other")
    else:
        try_program(program)
        with tempfile.TemporaryDirectory() as folder:
            try_campaign(program, pathlib.Path(folder))
    for fault in faults[:20]:
        print("campaigns: wrong:", fault)
    print(f"campaigns: {count - len(faults)} of {count} cases")
    return 1 if faults else 0


if __name__ == "__main__":
    sys.exit(main())
