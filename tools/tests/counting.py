#!/usr/bin/env python3
"""Tries ./test, tools/test and .ci/run with a stand-in for the toolchain and tests of their own: what they count."""
import os
import pathlib
import re
import shutil
import subprocess
import sys
import tempfile
import time

ROOT = pathlib.Path(__file__).resolve().parents[2]
SCRIPTS = ("test", "tools/test", "tools/testing/main.py", ".ci/run")
# It notes its words and its folder, writes a line, waits for a file where one is named, and writes the rest.
STAND_IN = """#!/bin/sh
echo "$PWD $*" >>"$CASE/calls"
echo 'rt: low proved'
while [ -n "$WAITS" ] && [ ! -e "$CASE/goes on" ]; do sleep 0.05; done
cat "$CASE/says"
exit "$(cat "$CASE/status")"
"""
WELL, WRONG, PARTLY, LEFT_OUT = "print('well')", "print('no'); exit(3)", "print('{}: skipped in part: no x')", \
    "print('{}: skipped: no y')"
KILLED = "import os; os.kill(os.getpid(), 9)"
# It writes a line, says that it is there, waits for another one where one is named, and writes the rest.
MEETS = """import os, pathlib, time
print('{} first', flush=True)
at = pathlib.Path(os.environ['CASE'])
(at / '{} is there').touch()
until = time.monotonic() + %s
while not (at / '@ is there').exists() and time.monotonic() < until:
    time.sleep(0.01)
print('{} last', (at / '@ is there').exists())
time.sleep(%s)
exit(%s)
"""
NEEDED = ("sh", "readlink", "dirname", "basename", "mktemp", "rm", "tee", "cat", "tail", "sed", "grep", "date", "sleep")
# for what takes less than one, also on a busy machine
SECONDS = 100
faults, count = [], 0


def expect(what, is_right):
    """Counts a case, and notes a fault."""
    global count
    count += 1
    if not is_right:
        faults.append(what)


class Case:
    """A folder with the scripts, tests named a, b, .., and a stand-in that says so and ends so."""

    def __init__(self, folder, tests, says="10 passed, 0 failed", status=0):
        self.folder, self.root = folder, folder / "some root"
        for part in ("tools/tests", "tools/testing", ".ci"):
            (self.root / part).mkdir(parents=True)
        for script in SCRIPTS:
            shutil.copy(ROOT / script, self.root / script)
        for name, text in zip("abcdef", tests):
            (self.root / "tools" / "tests" / f"{name}.py").write_text(text.replace("{}", name))
        (folder / "says").write_text(f"{says}\n")
        (folder / "status").write_text(str(status))
        (folder / "bin").mkdir()
        for name in NEEDED:
            (folder / "bin" / name).symlink_to(shutil.which(name))
        (folder / "rt").mkdir()
        (folder / "rt" / "rt").write_text(STAND_IN)
        (folder / "rt" / "rt").chmod(0o755)
        self.bare, self.path = f"{folder}/bin", f"{folder}/rt:{os.environ['PATH']}"

    def start(self, script="test", path=None, **environment):
        """A script, begun in another folder."""
        (self.folder / "temporary").mkdir(exist_ok=True)
        environment.update(PATH=path or self.path, CASE=str(self.folder), TMPDIR=str(self.folder / "temporary"))
        how = dict(stdout=subprocess.PIPE, stderr=subprocess.PIPE, text=True, cwd="/")
        return subprocess.Popen([self.root / script], env=dict(os.environ, **environment), **how)

    def run(self, *given, **more):
        """The status of a script, the last line, all lines, and what it complained of."""
        process = self.start(*given, **more)
        said, complained = process.communicate(timeout=SECONDS)
        return process.returncode, (said.splitlines() or [""])[-1], said, complained


def try_sums(new):
    """The last line, and the status."""
    case = new([WELL, PARTLY, LEFT_OUT])
    wanted = "12 passed, 0 failed, 2 skipped (b in part: no x; c: no y)"
    for script in ("test", ".ci/run"):
        status, last, said, complained = case.run(script)
        expect(f"{script}: {status} {said} {complained}", (status, last, complained) == (0, wanted, ""))
        expect(f"{script} shows all: {said}", "rt: low proved\n10 passed, 0 failed\n" in said and "well\n" in said)
    calls = (case.folder / "calls").read_text()
    expect(f"the gate's command as it stands: {calls}", calls == f"{case.root} ci\n" * 2)
    expect("nothing is left", not list((case.folder / "temporary").iterdir()))
    status, last, said, _ = case.run("tools/test")
    wanted = wanted.replace("12", "2", 1)
    expect(f"tools/test: {status} {said}", (status, last) == (0, wanted) and "tools/tests/a.py: status 0, " in said)
    status, last, said, _ = new([WELL, WELL]).run()
    expect(f"nothing skipped: {said}", (status, last) == (0, "12 passed, 0 failed, 0 skipped"))


def try_failures(new):
    """What fails keeps nothing from running, and the status tells it."""
    status, last, said, _ = new([WELL, PARTLY], "9 passed, 1 failed", 1).run()
    expect(f"the gate fails: {said}", (status, last.split(" (")[0]) == (1, "11 passed, 1 failed, 1 skipped"))
    status, last, said, _ = new([WRONG, LEFT_OUT, WELL]).run()
    expect(f"a test fails: {said}", (status, last.split(" (")[0]) == (3, "11 passed, 1 failed, 1 skipped"))
    status, last, said, _ = new([WRONG], "0 passed, 1 failed", 2).run()
    expect(f"both fail: {said}", (status, last) == (2, "0 passed, 2 failed, 0 skipped"))
    status, last, said, _ = new([WELL], "rt: low", 137).run()
    expect(f"the gate is cut off: {said}", (status, last) == (137, "1 passed, 1 failed, 0 skipped"))
    status, last, said, _ = new([WELL], "rt: low", 0).run()
    expect(f"the gate counts nothing: {said}", (status, last) == (1, "1 passed, 1 failed, 0 skipped"))


def try_missing(new):
    """No Python: its tests are skipped and named, the gate is not; no toolchain: a line and 69."""
    case = new([WELL, WRONG])
    status, last, said, complained = case.run(path=f"{case.folder}/rt:{case.bare}")
    wanted = "10 passed, 0 failed, 2 skipped (python3 is not there: a; b)"
    expect(f"no python3: {status} {said} {complained}", (status, last) == (0, wanted))
    status, _, said, complained = case.run(path=case.bare)
    expect(f"no rt: {status} {said} {complained}", (status, said, complained.count("\n")) == (69, "", 1))


def meeting(other, seconds, status):
    """A test that goes on when another one is there too, and takes some seconds more."""
    return MEETS.replace("@", other) % (SECONDS // 2, seconds, status)


def try_side_by_side(new):
    """Two tests at least run at the same time; what each writes is whole, and which ends first changes nothing."""
    for first, second in ((0, 0.5), (0.5, 0)):
        tests = [meeting("b", first, 4), meeting("a", second, 3), LEFT_OUT, WELL]
        status, last, said, _ = new(tests).run("tools/test")
        lines = [re.sub(r", \d+ s$", "", line) for line in said.splitlines()]
        due = ["a first", "a last True", "tools/tests/a.py: status 4", "b first", "b last True",
               "tools/tests/b.py: status 3", "c: skipped: no y", "tools/tests/c.py: status 0", "well",
               "tools/tests/d.py: status 0"]
        expect(f"side by side, {first}: {said}", lines[:-1] == due)
        expect(f"both are counted: {status} {last}", (status, last) == (4, "1 passed, 2 failed, 1 skipped (c: no y)"))
    status, last, _, _ = new([WELL, KILLED, WRONG]).run("tools/test")
    expect(f"a test is killed: {status} {last}", (status, last) == (137, "1 passed, 2 failed, 0 skipped"))


def try_stream(new):
    """What the gate's command writes is shown as it comes."""
    case = new([WELL])
    process, begun = case.start(WAITS="1"), time.monotonic()
    line = process.stdout.readline()
    (case.folder / "goes on").write_text("")
    process.communicate(timeout=SECONDS)
    expect(f"a line before the end: {line}", line == "rt: low proved\n" and time.monotonic() - begun < SECONDS // 2)


def main():
    with tempfile.TemporaryDirectory() as name:
        for number, each in enumerate((try_sums, try_failures, try_missing, try_side_by_side, try_stream)):
            made = iter(range(100))
            each(lambda *given, at=number: Case(pathlib.Path(name) / f"{at}.{next(made)}", *given))
    for fault in faults:
        print("counting:", fault)
    print(f"counting: {count - len(faults)} of {count} cases")
    return 1 if faults else 0


if __name__ == "__main__":
    sys.exit(main())
