"""Runs the commands that a document shows, and compares what they write with what is below each."""
import os
import pathlib
import re
import shutil
import subprocess
import tempfile

from documenting.page import Page
from documenting.tree import ROOT
from explaining.program import asked_program

LONG = ("./build", "./test", "rt ", ".ci/run", "bench/")
# what a command may need, and a machine may lack: the second program, and an emulator
BESIDE, EMULATOR = "./rticx", "qemu-system-arm"
STATUS = re.compile(r"\s+# status (\d+)$")
SECONDS = 60


class Shown:
    """A command of a document: its line, its words, its status, and the lines below it, in which `..` is any lines."""

    def __init__(self, number, line):
        self.number, self.lines = number, []
        status = STATUS.search(line)
        self.status = int(status[1]) if status else 0
        self.command = re.sub(r"\s{2,}# .*", "", STATUS.sub("", line))

    def is_long(self):
        """Whether it is one of those that are not run here, because they take minutes."""
        return self.command.startswith(LONG)

    def lacks(self, folder):
        """What the command needs that is not there: the second program, or an emulator."""
        there = {BESIDE: os.path.exists(os.path.join(folder, BESIDE)), EMULATOR: shutil.which(EMULATOR)}
        return [name for name in there if name in self.command.split() and not there[name]]

    def matches(self, text):
        """Whether a text is the lines below."""
        wanted = "".join(f"{line}\n" for line in self.lines)
        parts = [re.escape(part) for part in re.split(r"^\.\.\n", wanted, flags=re.M)]
        return not self.lines or re.fullmatch("(?:.*\n)*".join(parts), text) is not None


def commands(page):
    """The commands of a document by blocks: lines that begin with `$ `, each with the lines below it."""
    blocks, last = [[]], 0
    for number, line in enumerate(page.lines, 1):
        if not page.shown[number - 1] or not line.startswith("    "):
            if line.strip():
                blocks.append([])
            continue
        if line.startswith("    $ "):
            blocks[-1].append(Shown(number, line[6:]))
        elif blocks[-1]:
            blocks[-1][-1].lines += [""] * (number - last - 1) + [line[4:]]
        last = number
    return [block for block in blocks if block]


def folder_of(program):
    """A folder in which the words of a reader at the root of a clone mean the same, with this program."""
    folder = tempfile.mkdtemp(prefix="rtic-shown-")
    for path in ROOT.iterdir():
        # what the commands write stays in the folder, so no other file of the root is there
        if path.is_dir() and path.name != ".git":
            os.symlink(path, os.path.join(folder, path.name))
    os.symlink(program, os.path.join(folder, "rtic"))
    beside = asked_program("rticx")
    if beside:
        os.symlink(os.path.abspath(beside), os.path.join(folder, BESIDE))
    return folder


def ended(command, folder, program):
    """The status of a command, and what it wrote on both outputs."""
    environment = dict(os.environ, RTIC=str(program), COLUMNS="80", LC_ALL="C.UTF-8")
    done = subprocess.run(["sh", "-c", command], cwd=folder, env=environment, stdin=subprocess.DEVNULL,
                          stdout=subprocess.PIPE, stderr=subprocess.STDOUT, timeout=SECONDS, check=False)
    return done.returncode, done.stdout.decode("utf-8", "replace")


def faults_of(path, program, text=None):
    """How many commands of a document were run, those that take too long, what others need and is not there, and
    the faults."""
    run, left_out, lacking, faults = 0, [], [], []
    for block in commands(Page(path, text)):
        folder = folder_of(pathlib.Path(program).resolve())
        try:
            for shown in block:
                first = shown.command.split()[0]
                if shown.is_long():
                    left_out.append(shown.command)
                    if first != "rt" and not os.access(ROOT / first, os.X_OK):
                        faults.append(f"{path}:{shown.number}: no program {first}")
                    continue
                if shown.lacks(folder):
                    lacking += shown.lacks(folder)
                    # those behind it in the block may need what it writes
                    break
                run += 1
                status, written = ended(shown.command, folder, program)
                if status != shown.status:
                    faults.append(f"{path}:{shown.number}: status {status}, not {shown.status}: {written[:200]}")
                elif not shown.matches(written):
                    faults.append(f"{path}:{shown.number}: `{shown.command}` writes\n{written}")
        finally:
            shutil.rmtree(folder)
    return run, left_out, lacking, faults


# The documents that quote lines of what these commands write, and what such a line looks like.
QUOTING = {
    "docs/MACHINE.md": ("build pump", "check pump", "build serial", "build station"),
    "docs/BOUNDS.md": ("check station", "check forms", "check three", "deepest three", "run three three"),
    "docs/EXAMPLES.md": (
        "check serial", "check timeout", "run serial serial", "run serial burst", "run timeout timeout",
        *(f"check from_rtic/{name}" for name in ("hardware", "preempt", "locks", "spawn", "message", "schedule")),
    ),
}
# what `check` writes of the station with `fpu = on`
ELSEWHERE = {"stack 888"}
OUTPUT = re.compile(
    r"(?:code \d+|irq [A-Z]\w*|ceiling [\w.]+|frame \w+|cost \w+|wait \d|stack|\d+ (?:pend|take|ret|enter|leave|emit|ok"
    r"|full|ready|free|fire|start|post|clock|arm|set|alarm|cancel|move|end)\b)(?: .*)?"
)


def quoted_lines(path):
    """The lines of output that a document quotes, in blocks and between backquotes, each with its number there."""
    page = Page(path)
    for number, line in enumerate(page.lines, 1):
        parts = re.split(r" {2,}", line.strip()) if page.shown[number - 1] else re.findall(r"`([^`]+)`", line)
        yield from ((number, part) for part in parts if OUTPUT.fullmatch(part) and " " in part)


def written_lines(program, words):
    """The lines that a command writes on the examples of these names."""
    command, *names = words.split()
    files = [f"examples/{name}{ending}" for name, ending in zip(names, (".rtic", ".script"))]
    done = subprocess.run([program, command, *files], cwd=ROOT, stdout=subprocess.PIPE, timeout=SECONDS, check=False)
    return set(done.stdout.decode("ascii").split("\n"))


def quotes_amiss(program):
    """How many lines of output the documents quote, and those that no command writes."""
    count, faults = 0, []
    for path, commands_of in QUOTING.items():
        every = set().union(*(written_lines(program, words) for words in commands_of))
        for number, line in quoted_lines(path):
            count += 1
            if line not in every | ELSEWHERE:
                faults.append(f"{path}:{number}: no example writes `{line}`")
    return count, faults
