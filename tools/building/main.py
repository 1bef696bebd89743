#!/usr/bin/env python3
"""Proves the crates that the programs are made of, as the gate does, builds the programs and runs the first on an
example.

    ./build [--anew]

The gate's command `rt ci` is run in a copy of these crates without their must-fail edits: so it proves as many crates
side by side as processors and memory allow, each from nothing, and keeps what it proved for the gate and for the next
call. With --anew nothing counts that was kept."""
import contextlib
import fcntl
import os
import pathlib
import re
import shutil
import signal
import subprocess
import sys
import tempfile
import time

ROOT = pathlib.Path(__file__).resolve().parents[2]
sys.dont_write_bytecode = True
sys.path.insert(0, str(ROOT / "tools"))

from building.progress import MEASURED, Progress, about, parts_of, rows_of, seconds_of

TOP, MORE = "rtic", "rticx"
OUT = ROOT / "crates" / TOP / "out"
LOG = OUT / "build.log"
EXAMPLE = ["run", "examples/two.rtic", "examples/two.script"]
SOURCES = ("src", "specs", "proofs")
# what the gate reads of a program where it runs it
RUN = ("args", "data", "status", "stdin", "stdout")
COPIES = "rtic-build-"
# how the lines of a crate begin and end, and what is said beside them where all is well
BEGINS, ENDS = re.compile(r"== \w+"), re.compile(r"rt: (\w+)(: its tests are)? (proved|is kept|NOT PROVED)\b")
WELL = re.compile(r"rt: (ok; |\w+ ran\b.*, and wrote )|\d+ passed, \d+ failed$")
HEAD = "What rt ci wrote in a copy of the programs' crates, without their must-fail edits:\n"
FAILED, STOPPED = 1, 2


def say(text):
    print(f"build: {text}", flush=True)


def held(folder):
    """The folder, open and locked by this process alone until that ends; or None."""
    handle = os.open(folder, os.O_RDONLY)
    try:
        fcntl.flock(handle, fcntl.LOCK_EX | fcntl.LOCK_NB)
    except OSError:
        os.close(handle)
        return None
    return handle


def sweep():
    """Removes the copies of calls that were killed."""
    for folder in pathlib.Path(tempfile.gettempdir()).glob(f"{COPIES}*"):
        with contextlib.suppress(OSError):
            if handle := held(folder):
                shutil.rmtree(folder, ignore_errors=True)
                os.close(handle)


@contextlib.contextmanager
def room():
    """A folder for the copy and for all that the prover writes; it is gone afterwards."""
    sweep()
    # (it has the name that is swept once it is locked)
    folder = pathlib.Path(tempfile.mkdtemp(prefix="rtic-new-"))
    handle = held(folder)
    folder = folder.rename(folder.with_name(folder.name.replace("rtic-new-", COPIES)))
    try:
        # (as root the gate runs programs as nobody, who must find them)
        folder.chmod(0o711)
        yield folder
    finally:
        for _ in range(20):
            shutil.rmtree(folder, ignore_errors=True)
            if not folder.exists():
                break
            time.sleep(0.1)
        os.close(handle)


def copy_of(lines, names, folder):
    """A repository of these crates alone in the folder: what a proof reads, and what the program is run on."""
    (folder / ".git").mkdir(parents=True)
    (folder / "crates.txt").write_text("".join(f"{lines[name]}\n" for name in names), encoding="utf-8")
    if (ROOT / "HANDLES").exists():
        shutil.copyfile(ROOT / "HANDLES", folder / "HANDLES")
    for name in names:
        for part in SOURCES + RUN:
            path, to = ROOT / "crates" / name / part, folder / "crates" / name / part
            if path.is_dir():
                shutil.copytree(path, to, symlinks=True)
            elif path.exists():
                shutil.copyfile(path, to)


def processors():
    """How many there are to use, by the control group too."""
    found = len(os.sched_getaffinity(0))
    with contextlib.suppress(OSError, ValueError):
        quota, period = pathlib.Path("/sys/fs/cgroup/cpu.max").read_text(encoding="ascii").split()
        found = min(found, max(1, int(quota) // int(period)))
    return found


def lengths_of(names):
    """How many lines the sources of each crate have."""
    found = dict.fromkeys(names, 0)
    for name in names:
        for part in SOURCES:
            for path in (ROOT / "crates" / name / part).rglob("*"):
                found[name] += path.read_bytes().count(b"\n") if path.is_file() else 0
    return found


def follow(lines, log, progress, begun):
    """Keeps what the gate's command writes, and says how far it is. Of a crate that is not proved, and of all that is
    not as usual, it shows the lines; it returns whether to go on."""
    crate = []
    for line in lines:
        log.write(line)
        log.flush()
        if BEGINS.match(line):
            crate = [line]
        elif found := ENDS.match(line):
            name, of_tests, end = found.groups()
            if end == "NOT PROVED":
                print("".join(it for it in [*crate, line] if not it.endswith(": proved\n")), end="", flush=True)
                return False
            crate = []
            if not of_tests:
                print(progress.line(name, time.monotonic() - begun, end == "is kept"), flush=True)
        elif crate:
            crate.append(line)
        elif not WELL.match(line):
            print(line, end="", flush=True)
    return True


def prove(words, folder, progress, begun):
    """Runs the gate's command in the folder, and returns its status; it ends when this does."""
    (folder / "tmp").mkdir()
    (folder / "tmp").chmod(0o711)
    environment = dict(os.environ, TMPDIR=str(folder / "tmp"))
    how = {"stdin": subprocess.DEVNULL, "stdout": subprocess.PIPE, "stderr": subprocess.STDOUT}
    how.update(encoding="utf-8", errors="replace", env=environment, cwd=folder / "copy")
    with open(LOG, "w", encoding="utf-8") as log, subprocess.Popen(["rt", "ci", *words], **how) as gate:
        log.write(HEAD)
        try:
            goes_on = follow(gate.stdout, log, progress, begun)
            return gate.wait() if goes_on else FAILED
        finally:
            # (it kills all that it has started when it ends)
            gate.terminate()


def place_of(root, name):
    """Where a program is, in the repository or in its copy."""
    return root / "crates" / name / "out" / name


def put(program, name, moment):
    """Puts a program into its place, as old as the sources that it was made from, so that a later edit is newer."""
    place = place_of(ROOT, name)
    place.parent.mkdir(exist_ok=True)
    new = place.with_name(f"{name}.new")
    shutil.copyfile(program, new)
    new.chmod(0o755)
    os.utime(new, ns=(moment, moment))
    new.replace(place)


def build(words):
    """Proves and builds; returns the status."""
    begun, moment = time.monotonic(), time.time_ns()
    OUT.mkdir(exist_ok=True)
    if held(OUT) is None:
        say("another ./build is at work in this folder")
        return STOPPED
    lines, uses = rows_of((ROOT / "crates.txt").read_text(encoding="utf-8"))
    parts = parts_of(uses, TOP, MORE)
    seconds = seconds_of(lengths_of(parts), MEASURED.read_text(encoding="utf-8"))
    progress, log = Progress(parts, seconds, processors()), os.path.relpath(LOG, ROOT)
    say(f"proves {len(parts)} crates on {progress.processors} processors, from nothing in {about(progress.whole())};"
        f" the prover's lines go to {log}")
    with room() as folder:
        copy_of(lines, parts, folder / "copy")
        status = prove(words, folder, progress, begun)
        programs = {name: place_of(folder / "copy", name) for name in (TOP, MORE)}
        if not status and all(program.is_file() for program in programs.values()):
            for name, program in programs.items():
                put(program, name, moment)
            minutes, rest = divmod(round(time.monotonic() - begun), 60)
            say(f"{TOP} and {MORE} are built, after {minutes} min {rest} s; ./rtic {' '.join(EXAMPLE)} writes:")
            return 0
    say(f"not built; the lines above say why, and {log} has all lines")
    return status or STOPPED


def main(words):
    if words not in ([], ["--anew"]):
        print("usage: ./build [--anew]", file=sys.stderr)
        return STOPPED

    def end(number, _):
        raise SystemExit(128 + number)

    for it in (signal.SIGINT, signal.SIGTERM, signal.SIGHUP):
        if signal.getsignal(it) is not signal.SIG_IGN:
            signal.signal(it, end)
    status = build(words)
    if status:
        return status
    os.chdir(ROOT)
    os.execv(OUT / TOP, [str(OUT / TOP), *EXAMPLE])


if __name__ == "__main__":
    sys.exit(main(sys.argv[1:]))
