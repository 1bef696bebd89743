#!/usr/bin/env python3
"""Tries ./build with a stand-in for the toolchain, in a folder of a few crates; and what it says of the time left."""
import os
import pathlib
import shutil
import signal
import subprocess
import sys
import tempfile
import time

HERE = pathlib.Path(__file__).resolve().parent
ROOT = HERE.parents[1]
sys.path.insert(0, str(HERE.parent))
sys.dont_write_bytecode = True

from building.main import held
from building.progress import GAIN, MEASURED, Progress, parts_of, rows_of, seconds_of, spans_of

CRATES = ("# Some crates\nlow: thiserror\n\nmid: low itoa  # in the middle\nside: low\nrtic: mid\nrticx: rtic side\n"
          "tests: rtic low\n")
PARTS = ["low: thiserror", "mid: low itoa", "side: low", "rtic: mid", "rticx: rtic side"]
FILES = ["low/must-fail/a.edit", "low/out/old", "low/proofs/f/Answers.antt", "low/specs/Lib.antt", "low/src/lib.rt",
         "mid/src/lib.rt", "rtic/args", "rtic/data/in", "rtic/src/main.rt", "rtic/stdout", "rticx/src/main.rt",
         "side/src/lib.rt", "tests/src/main.rt"]
COPIED = [file for file in FILES if not file.startswith("tests/") and "/must-fail/" not in file and "/out/" not in file]
# It notes what it is called with and what is there, writes the lines, makes a program that writes its words, and ends.
STAND_IN = """#!/bin/sh
{ echo "$@"; cat crates.txt HANDLES; find crates -type f | sort; } >"$CASE/seen"
echo $$ >"$CASE/process"
cat "$CASE/lines"
[ ! -e "$CASE/edit" ] || touch "$(cat "$CASE/edit")"
[ ! -e "$CASE/waits" ] || exec sleep 60
for it in rtic rticx; do mkdir "crates/$it/out" && printf '#!/bin/sh\\necho "$@"\\n' >"crates/$it/out/$it"; done
exit "$(cat "$CASE/status")"
"""
BLOCK = "== {0}\nfn {0}::f: proved\nlogic=proved functions=1\nrt: {0} proved\n"
KEPT = "rt: {0} is kept: an earlier run on this machine proved the same files over the same libraries\n"
END = "rt: rtic ran, and wrote what its file stdout has\nrt: ok; handles allowed: none; the rest\n4 passed, 0 failed\n"
ALL = "".join(map(BLOCK.format, ("low", "mid", "side", "rtic", "rticx"))) + END
EXAMPLE = "run examples/two.rtic examples/two.script"
faults, count = [], 0


def expect(what, is_right):
    """Counts a case, and notes a fault."""
    global count
    count += 1
    if not is_right:
        faults.append(what)


class Case:
    """A folder with crates, the command and a stand-in for the toolchain."""

    def __init__(self, folder):
        self.folder, self.root = folder, folder / "some root"
        for file in FILES:
            path = self.root / "crates" / file
            path.parent.mkdir(parents=True, exist_ok=True)
            path.write_text("a line\n" * 3)
        (self.root / "crates.txt").write_text(CRATES)
        (self.root / "HANDLES").write_text("Handles allowed: none.\n")
        (self.root / "examples").mkdir()
        shutil.copyfile(ROOT / "build", self.root / "build")
        (self.root / "build").chmod(0o755)
        shutil.copytree(ROOT / "tools" / "building", self.root / "tools" / "building",
                        ignore=shutil.ignore_patterns("__pycache__"))
        self.program = self.root / "crates" / "rtic" / "out" / "rtic"
        for name in ("bin", "temporary"):
            (folder / name).mkdir()
        (folder / "bin" / "rt").write_text(STAND_IN)
        (folder / "bin" / "rt").chmod(0o755)
        path = f"{folder}/bin:{os.environ['PATH']}"
        self.environment = dict(os.environ, PATH=path, CASE=str(folder), TMPDIR=str(folder / "temporary"))
        self.begin(ALL)

    def begin(self, lines, status=0, **files):
        """Sets what the stand-in does."""
        for name in ("waits", "edit", "seen"):
            (self.folder / name).unlink(missing_ok=True)
        for name, text in dict(files, lines=lines, status=str(status)).items():
            (self.folder / name).write_text(text)

    def start(self, *words, command=None, cwd="/", **environment):
        """The command, begun."""
        how = dict(stdout=subprocess.PIPE, stderr=subprocess.PIPE, text=True, cwd=cwd)
        call = [command or self.root / "build", *words]
        return subprocess.Popen(call, env=dict(self.environment, **environment), **how)

    def run(self, *words, **more):
        """Its status, and what it wrote."""
        process = self.start(*words, **more)
        said, complained = process.communicate(timeout=100)
        return process.returncode, said, complained

    def seen(self):
        """What the stand-in noted."""
        path = self.folder / "seen"
        return path.read_text().splitlines() if path.exists() else None

    def is_alive(self):
        """Whether the stand-in still runs."""
        try:
            os.kill(int((self.folder / "process").read_text()), 0)
        except ProcessLookupError:
            return False
        return True

    def is_tidy(self):
        """Whether nothing is left of the copy."""
        return not list((self.folder / "temporary").iterdir())


def progress_lines(said):
    return [line for line in said.splitlines() if " proved" in line and not line.startswith("build: ")]


def try_well(case):
    """Everything is proved."""
    status, said, complained = case.run()
    lines, last = progress_lines(said), said.splitlines()[-1]
    expect(f"proved: {status} {said} {complained}", (status, complained, last) == (0, "", EXAMPLE))
    expect(f"lines: {lines}", [line.split(",")[0] for line in lines] == [f"{n} of 5 proved" for n in range(1, 6)])
    left = [line.partition(", ")[2] for line in lines]
    expect(f"estimates: {left}", all(line.endswith(" left") for line in left[:4]) and left[4] == "")
    expect("both programs", all(case.root.joinpath("crates", it, "out", it).is_file() for it in ("rtic", "rticx")))
    wanted = ["ci", *PARTS, "Handles allowed: none.", *(f"crates/{file}" for file in COPIED)]
    expect(f"the copy: {case.seen()}", case.seen() == wanted)
    log = (case.program.parent / "build.log").read_text()
    expect(f"the log: {log}", log.partition("\n")[2] == ALL and case.is_tidy())
    link = case.folder / "link"
    link.symlink_to(case.root / "build")
    status, said, _ = case.run("--anew", command=link, cwd=case.folder)
    expect(f"by a link: {status} {said}", status == 0 and said.endswith(f"{EXAMPLE}\n"))
    expect(f"its word: {case.seen()[0]}", case.seen()[0] == "ci --anew")


def try_kept(case):
    """Earlier runs proved some, or all."""
    case.begin("".join(map(KEPT.format, ("low", "mid", "side", "rtic", "rticx"))) + END)
    status, said, _ = case.run()
    expect(f"all kept: {said}", status == 0 and " left" not in said and "4 of 5 proved, by an earlier run" in said)
    case.begin(KEPT.format("low") + BLOCK.format("side") + KEPT.format("mid") + BLOCK.format("rtic")
               + BLOCK.format("rticx") + END)
    status, said, _ = case.run()
    left = [line.endswith(" left") for line in progress_lines(said)]
    expect(f"some kept: {said}", status == 0 and left == [False, True, True, True, False])


def try_edit(case):
    """A source that is edited meanwhile is newer than the program, and other sources are not."""
    source = case.root / "crates" / "mid" / "src" / "lib.rt"
    case.begin(ALL, edit=str(source))
    status = case.run()[0]
    made = case.program.stat().st_mtime_ns
    other = source.parents[2] / "low" / "src" / "lib.rt"
    expect(f"an edit meanwhile: {status}", status == 0 and other.stat().st_mtime_ns < made < source.stat().st_mtime_ns)


def try_unproved(case):
    """A crate is not proved: its lines, the status, at once, and the program that was there stays."""
    case.program.parent.mkdir()
    case.program.write_text("old")
    bad = "== mid\nfn mid::g: proved\nsrc/lib.rt:3:1: error: it is not proved\nlogic=not-proved\nrt: mid NOT PROVED\n"
    case.begin(BLOCK.format("low") + bad, waits="")
    begun = time.monotonic()
    status, said, complained = case.run()
    shown = "\n".join(line for line in bad.splitlines() if not line.endswith(": proved"))
    expect(f"not proved: {status} {said} {complained}", status == 1 and shown in said and "mid::g" not in said)
    expect(f"and the rest: {said}", "low::f" not in said and "build.log has all" in said and EXAMPLE not in said)
    expect("at once, and the old program stays", time.monotonic() - begun < 20 and case.program.read_text() == "old")
    expect("the stand-in has ended, and its folder is gone", case.is_tidy() and not case.is_alive())


def try_stopped(case):
    """The toolchain stops before any proof, is not there, or no word is known."""
    case.begin("rt: crates.txt: two lines\n0 passed, 1 failed\n", status=2)
    status, said, _ = case.run()
    expect(f"stopped: {status} {said}", status == 2 and "\nrt: crates.txt: two lines\nbuild: not built" in said)
    tools = case.folder / "tools"
    tools.mkdir()
    for name in ("sh", "readlink", "dirname", "python3"):
        (tools / name).symlink_to(shutil.which(name))
    status, said, complained = case.run(PATH=str(tools))
    expect(f"no toolchain: {status} {said} {complained}", (status, said, complained.count("\n")) == (69, "", 1))
    status, said, complained = case.run("--all")
    expect(f"another word: {status} {said} {complained}", (status, said, complained.count("\n")) == (2, "", 1))


def try_interrupted(case):
    """A call that is told to end ends all that it began; what a killed one left goes with the next; no two at once."""
    case.begin(BLOCK.format("low"), waits="")
    # (a signal that is ignored where this test is started would be ignored by the call too)
    signal.signal(signal.SIGINT, signal.default_int_handler)
    for number in (signal.SIGTERM, signal.SIGINT, signal.SIGHUP):
        if signal.getsignal(number) is signal.SIG_IGN:
            signal.signal(number, signal.SIG_DFL)
        process = case.start()
        lines = [process.stdout.readline() for _ in range(2)]
        if number == signal.SIGTERM:
            status, said, _ = case.run()
            expect(f"a second: {status} {said}", (status, said.count("\n")) == (2, 1) and "another ./build" in said)
        process.send_signal(number)
        process.communicate(timeout=100)
        expect(f"signal {number}: {process.returncode} {lines}", process.returncode == 128 + number)
        expect(f"signal {number} leaves something", case.is_tidy() and not case.is_alive())
    left, other = (case.folder / "temporary" / f"rtic-build-{name}" for name in ("left", "other"))
    left.mkdir()
    other.mkdir()
    handle = held(other)
    case.begin(ALL)
    status = case.run()[0]
    expect(f"copies that others left: {status}", status == 0 and not left.exists() and other.exists())
    os.close(handle)


def try_model():
    """The model's own lines at half its pace; a crate without a measure; and the file of measures."""
    lines, uses = rows_of(CRATES)
    parts = parts_of(uses, "rtic", "rticx")
    expect("the parts of both", parts == {"low": set(), "mid": {"low"}, "side": {"low"}, "rtic": {"mid"},
                                          "rticx": {"rtic", "side"}})
    expect("their lines", [lines[name] for name in parts] == PARTS)
    expect("the parts of one", set(parts_of(uses, "rtic")) == {"low", "mid", "rtic"})
    parts = {"low": set(), "mid": {"low"}, "side": {"low"}, "rtic": {"mid", "side"}}
    seconds = {"low": 60.0, "mid": 300.0, "side": 240.0, "rtic": 60.0}
    one = spans_of(parts, seconds, 1)
    expect("one processor", one == {"low": (0, 60), "mid": (60, 360), "side": (360, 600), "rtic": (600, 660)})
    two = spans_of(parts, seconds, 2)
    expect("two processors", two == {"low": (0, 60), "side": (60, 300), "mid": (60, 360), "rtic": (360, 420)})
    expect("four processors: a crate alone has two", spans_of(parts, seconds, 4)["low"] == (0, 60 / (1 + GAIN)))
    progress = Progress(parts, seconds, 1)
    said = [progress.line(name, 2 * end) for name, (_, end) in one.items()]
    expect(f"at half the pace: {said}", said == [
        "1 of 4 proved, about 15 minutes left", "2 of 4 proved, about 9 minutes left",
        "3 of 4 proved, about 2 minutes left", "4 of 4 proved",
    ])
    expect("by length", seconds_of({"a": 10, "b": 30, "c": 5}, "# x\na 20\nb 60\n") == {"a": 20, "b": 60, "c": 10})
    names = set(parts_of(rows_of((ROOT / "crates.txt").read_text())[1], "rtic", "rticx"))
    rows = [line.split() for line in MEASURED.read_text().splitlines() if not line.startswith("#")]
    expect("what was measured", rows and all(row[0] in names and float(row[1]) > 0 for row in rows))


def main():
    try_model()
    for each in (try_well, try_kept, try_edit, try_unproved, try_stopped, try_interrupted):
        with tempfile.TemporaryDirectory() as name:
            each(Case(pathlib.Path(name)))
    for fault in faults:
        print("building:", fault)
    print(f"building: {count - len(faults)} of {count} cases")
    return 1 if faults else 0


if __name__ == "__main__":
    sys.exit(main())
