#!/usr/bin/env python3
"""Tries the launcher on stand-ins for the programs and the toolchain: which of them it runs and with which words, its
help and its version, and standard input as a file. No program need be built."""
import os
import pathlib
import shutil
import signal
import subprocess
import sys
import tempfile
import time

TOOLS = pathlib.Path(__file__).resolve().parents[1]
ROOT = TOOLS.parent
sys.dont_write_bytecode = True
sys.path.insert(0, str(TOOLS))

from documenting.usage import PROGRAMS, files_in, help_text, of_usage, usage_line

# It writes its words, a line each, and then what is in the files that they name.
PROGRAM = """#!/bin/sh
printf '%s\\n' "$@"
for word; do [ ! -f "$word" ] || cat <"$word"; done
exit "${STATUS:-0}"
"""
# It writes its words, with the names of copies alone, and says that the run ended with status 0.
TOOLCHAIN = """#!/bin/sh
for word; do printf '%s ' "${word%%=*}"; done
echo 'run=ended status=0 time=0' >&2
"""
COPIES = ("app", "second", "third")
TEXT = b"// \xff\0 a text\r\nwithout an end"
LARGE = bytes(range(256)) * 20_000
BEHIND, PROVED = "is newer than the proved program", "the proved program is built, and no source is newer"
NEW, OLD = 2_000_000_000, 1_000_000_000
CODE = "crates/low/src/deep/in.rt"
OF_PROOFS = ("crates/low/specs/Inside/Of.antt", "crates/low/proofs/Of.antt")
NOT_NEWER = ("crates/low/out/made.rt", "crates/low/data/cases", "crates/low/stdout")


def written(path, text, at=OLD):
    """Writes a file, with the folders that it is in, as if at a time of the past."""
    path.parent.mkdir(parents=True, exist_ok=True)
    path.write_text(text, encoding="utf-8")
    os.utime(path, (at, at))
    return path


class Place:
    """A folder with the launcher, the sources of the usage lines, and the two stand-ins; and where it was called."""

    def __init__(self, folder, name):
        self.name = name
        self.root, self.here, self.temporary = folder / "the root", folder / "here", folder / "temporary"
        for file in ("rtic", "CHANGELOG.md", *(source for source, _ in PROGRAMS.values())):
            path = self.root / file
            path.parent.mkdir(parents=True, exist_ok=True)
            shutil.copy(ROOT / file, path)
            os.utime(path, (OLD, OLD))
        (self.root / "rticx").symlink_to("rtic")
        (self.root / "crates" / self.name).mkdir()
        self.program = self.root / "crates" / self.name / "out" / self.name
        written(folder / "bin" / "rt", TOOLCHAIN).chmod(0o755)
        self.path = f"{folder}/bin:{os.environ['PATH']}"
        self.here.mkdir()
        self.temporary.mkdir()
        self.wrong, self.count = [], 0

    def build(self):
        """Makes the program, later than all sources."""
        written(self.program, PROGRAM, OLD + 1).chmod(0o755)

    def ended(self, words, text=b"", **more):
        """The status, the output and the errors of the launcher."""
        environment = {**os.environ, "PATH": self.path, "TMPDIR": str(self.temporary), **more.pop("environment", {})}
        more = {"input": text, "stdout": subprocess.PIPE, **more}
        done = subprocess.run([self.root / self.name, *words], cwd=self.here, env=environment, stderr=subprocess.PIPE,
                              check=False, **more)
        return done.returncode, done.stdout, done.stderr

    def expect(self, told, is_right):
        """Counts a case, and notes it where it is wrong or leaves a file."""
        self.count += 1
        if not is_right:
            self.wrong.append(told)
        if any(self.temporary.iterdir()):
            self.wrong.append(f"{told}: a file is left")


def lines(*words):
    """Words as the stand-in writes them."""
    return "".join(f"{word}\n" for word in words).encode()


def try_toolchain(place):
    """Without a program: each command reaches the toolchain with its files, and other words get the usage line."""
    written(place.here / "file", "text")
    usage = lines(usage_line(place.name))
    for command, operands in of_usage(place.name).items():
        count = files_in(operands)
        words = ["file"] * count + ["7"] * (len(operands) - count)
        data = [part for copy in COPIES[:count] for part in ("--data", copy)]
        due = " ".join(["try", *data, "--", command, *COPIES[:count], *words[count:], ""]).encode()
        place.expect(f"{command} to the toolchain", place.ended([command, *words])[:2] == (0, due))
        if count:
            found = place.ended([command, "-", *words[1:]], TEXT)[:2]
            place.expect(f"{command} - to the toolchain", found == (0, due))
        # an operand in brackets may be left out
        free = sum(operand.startswith("[") for operand in operands)
        for other in (words[1 + free:], words + ["file"]):
            found = place.ended([command, *other])[:2]
            place.expect(f"{command} with {len(other)} words", found == (2, usage))
    for words in ([], ["compile", "file"], ["--help", "file"], ["-"], ["run|check", "file"]):
        place.expect(f"{words}", place.ended(words)[:2] == (2, usage))
    missing = ["none"] * len(of_usage(place.name)["run"])
    place.expect("no such file", place.ended(["run", *missing]) == (5, b"", b""))


def try_made(place):
    """The program, once it is there, with its words and its status."""
    place.build()
    place.expect("the program", place.ended(["a", "b"], environment={"STATUS": "3"}) == (3, b"a\nb\n", b""))


def try_sources(place):
    """Which sources are newer than the program: code as it runs, and proofs where it is asked for its version."""
    place.build()
    listed = place.program.with_name("rtic.sources")
    for name in (CODE, *OF_PROOFS, *NOT_NEWER):
        # (with no list of the code, and then with the list that the call before has left)
        for known in (False, True):
            listed.unlink(missing_ok=True)
            path = written(place.root / name, "")
            if known:
                place.ended(["check", "file"])
                place.expect(f"the code is listed beside {name}", listed.is_file())
            written(path, "", NEW)
            output = place.ended(["check", "file"])[1]
            place.expect(f"{name} is newer", output.startswith(b"try " if name == CODE else b"check\n"))
            output = place.ended(["--version"])[1]
            due = lines(PROVED if name in NOT_NEWER else f"{name} {BEHIND}")
            place.expect(f"the version where {name} is newer", output.endswith(due))
        path.unlink()
    try_list(place, listed)


def try_list(place, listed):
    """A list that is older than the program is made again; where the folder takes none, the code is looked at all the
    same."""
    written(place.root / CODE, "")
    written(listed, "code='crates/rt_top/src/top.rt'\n")
    place.expect("a list from before the program", place.ended(["check", "file"])[1].startswith(b"check\n"))
    place.expect("it has the code that came since", CODE in listed.read_text(encoding="utf-8").split())
    listed.unlink()
    if os.geteuid() != 0:
        place.program.parent.chmod(0o555)
        place.expect("a folder without room for it", place.ended(["check", "file"]) == (0, b"check\nfile\n", b""))
        place.expect("no list is left", not listed.exists())
        place.program.parent.chmod(0o755)
    (place.root / CODE).unlink()


def try_own_words(place):
    """The help and the version."""
    for words in (["--help"], ["-h"]):
        due = help_text(place.name).replace("$root", str(place.root)).encode()
        place.expect(f"{words}", place.ended(words) == (0, due, b""))
    newest = next(line for line in (ROOT / "CHANGELOG.md").read_text().splitlines() if line.startswith("## "))
    due = lines(f"{place.name} {newest.removeprefix('## ')}", PROVED)
    place.expect("--version", place.ended(["--version"]) == (0, due, b""))
    for words in (["--help"], ["--version"]):
        with open("/dev/full", "wb") as full:
            place.expect(f"{words} on a full device", place.ended(words, stdout=full)[0] == 6)
    place.program.unlink()
    place.expect("--version without a program", b"not built (./build makes it" in place.ended(["--version"])[1])
    place.build()


def try_each_input(place):
    """`-` in the place of each file of each command."""
    for command, operands in of_usage(place.name).items():
        for position, operand in enumerate(operands):
            words = [f"w{number}" for number in range(len(operands))]
            words[position] = "-"
            is_file = files_in([operand]) == 1
            due = [*words[:position], "/dev/stdin", *words[position + 1:]] if is_file else words
            output = lines(command, *due) + TEXT * is_file
            found = place.ended([command, *words], TEXT, environment={"STATUS": "4"})
            place.expect(f"{command} {words}", found == (4, output, b""))


def try_input(place):
    """`-` where it is no file, and texts of other kinds."""
    written(place.here / "-", "a file of this name")
    for words, due in (
        (["check", "-"], b"check\n/dev/stdin\n" + TEXT), (["check", "./-"], b"check\n./-\na file of this name"),
        (["-", "-"], b"-\n-\n" + b"a file of this name" * 2), (["check", "-", "-"], b"check\n-\n-\n"),
        (["check", "a - b"], b"check\na - b\n"),
    ):
        place.expect(f"{words} beside a file of this name", place.ended(words, TEXT)[1].startswith(due))
    place.expect("a large text", place.ended(["check", "-"], LARGE) == (0, b"check\n/dev/stdin\n" + LARGE, b""))
    for words in (["run", "-", "-"], ["pair", "-", "file", "-"]):
        said = b"rtic: standard input can be one file, and here it is two\n"
        place.expect(f"{words}", place.ended(words, TEXT) == (2, b"", said))


def try_odd_input(place):
    """Standard input that is no pipe, that is read already in part, and that cannot be read."""
    path = place.here / "file"
    path.write_bytes(TEXT)
    with open(path, "rb") as file:
        file.seek(3)
        found = place.ended(["check", "-"], None, stdin=file)
    place.expect("a file that is read in part", found == (0, b"check\n/dev/stdin\n" + TEXT[3:], b""))
    folder = os.open(place.here, os.O_RDONLY)
    place.expect("a folder", place.ended(["check", "-"], None, stdin=folder)[:2] == (5, b""))
    os.close(folder)
    no_folder = {"TMPDIR": str(place.here / "none")}
    found = subprocess.run(["sh", "-c", '"$0" check - <&-', place.root / "rtic"], capture_output=True, check=False)
    place.expect("no input", (found.returncode, found.stdout) == (5, b""))
    place.expect("no folder for it", place.ended(["check", "-"], TEXT, environment=no_folder)[:2] == (70, b""))


def try_killed(place):
    """While standard input is read its file has no name any more, so that none is left by a launcher that is killed."""
    environment = {**os.environ, "TMPDIR": str(place.temporary)}
    with subprocess.Popen([place.root / "rtic", "check", "-"], stdin=subprocess.PIPE, stdout=subprocess.PIPE,
                          env=environment) as child:
        # more than a pipe holds, so that some of it is in the file by then
        child.stdin.write(LARGE)
        child.stdin.flush()
        place.expect("a file without a name", True)
        child.kill()
    place.expect("a launcher that is killed", child.returncode == -signal.SIGKILL)


def main():
    """Ends with 1 where a case is wrong."""
    begun = time.monotonic()
    count, wrong = 0, []
    for program, more in (("rtic", (try_sources, try_input, try_odd_input, try_killed)), ("rticx", ())):
        with tempfile.TemporaryDirectory() as name:
            place = Place(pathlib.Path(name), program)
            for part in (try_toolchain, try_made, try_own_words, try_each_input, *more):
                part(place)
        count += place.count
        wrong += [f"{program}: {told}" for told in place.wrong]
    for told in wrong:
        print(f"launcher: {told}: not as it is to be")
    print(f"launcher: {count} calls, {len(wrong)} wrong, in {time.monotonic() - begun:.1f} s")
    return 1 if wrong else 0


if __name__ == "__main__":
    sys.exit(main())
