"""The program that is explained: it is run with the caller's words, and asked about texts."""
import concurrent.futures
import functools
import os
import pathlib
import subprocess
import tempfile
import time

from .words import is_of_beside

ROOT = pathlib.Path(__file__).resolve().parents[2]
LAUNCHER = ROOT / "rtic"
KEPT = 4096
ASKS_AT_ONCE = 4
WRITE_FAILED = 6
# the second program, where it is called by name, and what names another one
BESIDE, OTHER_BESIDE = ROOT / "rticx", "RTICX"


def handed_on(piece):
    """Writes a piece to standard output, and says whether that took it."""
    try:
        while piece:
            piece = piece[os.write(1, piece) :]
    except OSError:
        return False
    return True


def newest_source():
    """The time of the newest source of the program; what the toolchain writes into folders `out` is none."""
    newest = 0.0
    for folder, folders, files in os.walk(ROOT / "crates"):
        folders[:] = [name for name in folders if name != "out"]
        for name in files:
            if name.endswith((".rt", ".antt")):
                newest = max(newest, os.stat(os.path.join(folder, name)).st_mtime)
    return newest


def asked_program(name="rtic"):
    """The program that answers at once: that of RTIC, or of RTICX for the second one, or the proved one where it is
    built and no source is newer."""
    if os.environ.get(name.upper()):
        return os.environ[name.upper()]
    built = ROOT / "crates" / name / "out" / name
    if os.access(built, os.X_OK) and newest_source() <= built.stat().st_mtime:
        return str(built)
    return None


class Program:
    """The caller's program, and a folder for the texts that it is asked about."""

    def __init__(self, write=handed_on):
        self.write = write
        self.path = os.environ.get("RTIC") or str(LAUNCHER)
        self.folder = tempfile.TemporaryDirectory(prefix="rtic-explain-")
        self.asks, self.took = 0, 0.0

    def run(self, words):
        """Runs the words, hands the bytes on, and answers the status and a beginning of the bytes."""
        environment = dict(os.environ, RTIC_EXPLAINED="1")
        begun = time.monotonic()
        path = self.path
        if is_of_beside(words):
            path, words = os.environ.get(OTHER_BESIDE) or str(BESIDE), words[0].split(" ")[1:] + words[1:]
        try:
            child = subprocess.Popen([path] + words, stdout=subprocess.PIPE, env=environment)
        except OSError as fault:
            raise SystemExit(f"tools/explain: {path}: {fault.strerror}") from None
        front, failed = b"", False
        while not failed and (piece := os.read(child.stdout.fileno(), 1 << 16)):
            front += piece[: KEPT - len(front)]
            failed = not self.write(piece)
        child.stdout.close()
        status = child.wait()
        self.took = time.monotonic() - begun
        return (WRITE_FAILED if failed else status if status >= 0 else 128 - status), front

    @property
    def answers(self):
        """Whether there is a program that answers at once."""
        if not hasattr(self, "asked"):
            self.look()
        return self.asked is not None

    @functools.cached_property
    def asked_beside(self):
        """The second program that answers at once, or the one that answers otherwise."""
        return asked_program(BESIDE.name) or str(BESIDE)

    def look(self):
        """Looks for a program that answers at once."""
        self.asked = asked_program()

    def ask(self, command, *files):
        """The status of the program on these files, and a beginning of its output."""
        status, output = self.whole(command, *files)
        return status, output[:KEPT]

    def whole(self, command, *files):
        """The status and the output of the program on these files."""
        self.asks += 1
        path = self.asked
        if is_of_beside([command]):
            path, command = self.asked_beside, command.split(" ")[1]
        done = subprocess.run(
            [path, command, *files], stdin=subprocess.DEVNULL, stdout=subprocess.PIPE, stderr=subprocess.DEVNULL,
            timeout=60 + 4 * self.took, check=False,
        )
        return done.returncode, done.stdout.decode("latin-1")

    def file(self, name, text):
        """The path of a file of the folder with this text."""
        path = os.path.join(self.folder.name, name)
        with open(path, "wb") as file:
            file.write(text.encode("latin-1"))
        return path

    def formats(self, texts):
        """What `fmt` answers to each of these texts: the status and a beginning of the output."""
        return [(status, output[:KEPT]) for status, output in self.formatted(texts)]

    def formatted(self, texts):
        """What `fmt` answers to each of these texts: the status and the output."""

        def one(numbered):
            return self.whole("fmt", self.file(f"ask{numbered[0]}", numbered[1]))

        with concurrent.futures.ThreadPoolExecutor(ASKS_AT_ONCE) as pool:
            return list(pool.map(one, enumerate(texts)))
