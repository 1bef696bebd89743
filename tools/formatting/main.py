"""The command line of `tools/fmt`: which files it takes, what it writes where, and the status with which it ends."""
import contextlib
import functools
import os
import re
import stat
import subprocess
import sys
import tempfile

from explaining.program import LAUNCHER, asked_program, handed_on
from explaining.report import shown
from explaining.tokens import MOST_BYTES

from .comments import Amiss, with_comments

USAGE_LINES = ("usage: fmt FILE | fmt --check FILE.. | fmt (-w | --write) FILE..\n"
               "FILE is an application's text. `-` is standard input, which cannot be written in place.\n")
HELP = ("-h", "--help")
DONE, REFUSED, USAGE, NOT_READ, NOT_WRITTEN, NO_ANSWER = 0, 1, 2, 5, 6, 70
REFUSAL = re.compile(rb"(\d+:\d+) (E\d\d [^\n]*)\n")


class Told(Exception):
    """A file is not formatted: the status, what is told after the file's name, and what the program wrote."""

    def __init__(self, status, words, output=b""):
        super().__init__(words)
        self.status, self.words, self.output = status, words, output


def read(name):
    """The bytes of a file, or of standard input."""
    try:
        with open(0 if name == "-" else name, "rb", closefd=name != "-") as file:
            return file.read(MOST_BYTES + 1)
    except OSError as fault:
        raise Told(NOT_READ, f": {fault.strerror}") from None


@functools.cache
def program():
    """The program that answers at once, or else the launcher."""
    return asked_program() or LAUNCHER


def answer_to(text):
    """How the program ends on a text, and what it writes."""
    environment = dict(os.environ, RTIC_EXPLAINED="1")
    try:
        with tempfile.NamedTemporaryFile(prefix="rtic-fmt-") as file:
            file.write(text)
            file.flush()
            return subprocess.run([program(), "fmt", file.name], stdin=subprocess.DEVNULL, stdout=subprocess.PIPE,
                                  env=environment, check=False)
    except OSError as fault:
        raise Told(NO_ANSWER, f": the program cannot be asked: {fault}") from None


def canonical_of(text):
    """The canonical text of a text, as the program writes it."""
    done = answer_to(text)
    if done.returncode == REFUSED and (found := REFUSAL.fullmatch(done.stdout)):
        raise Told(REFUSED, f":{found[1].decode()}: {found[2].decode()}", done.stdout)
    if done.returncode != DONE:
        status = done.returncode if done.returncode > 0 else NO_ANSWER
        raise Told(status, f": the program ended with {done.returncode}", done.stdout)
    return done.stdout


def formatted(text):
    """A text with its comments, as bytes, from one that the program takes."""
    canonical = canonical_of(text)
    try:
        result = with_comments(text.decode("latin-1"), canonical.decode("latin-1")).encode("latin-1")
    except Amiss:
        raise Told(NO_ANSWER, ": the program wrote no text of this application") from None
    if len(result) > MOST_BYTES:
        raise Told(REFUSED, f": formatted it has {len(result):,} bytes, and {MOST_BYTES:,} is the most")
    return result


def replace(name, data):
    """Puts bytes in the place of a file at once; nothing is changed where that fails."""
    path = os.path.realpath(name)
    state = os.stat(path)
    descriptor, new = tempfile.mkstemp(prefix=".rtic-fmt-", dir=os.path.dirname(path))
    try:
        with open(descriptor, "wb") as file:
            file.write(data)
            file.flush()
            os.fsync(descriptor)
        with contextlib.suppress(PermissionError):
            os.chown(new, state.st_uid, state.st_gid)
        os.chmod(new, stat.S_IMODE(state.st_mode))
        os.replace(new, path)
    except BaseException:
        os.unlink(new)
        raise


def put(data):
    """Writes bytes to standard output."""
    if not handed_on(data):
        raise Told(NOT_WRITTEN, ": standard output failed")


def write(name):
    """Formats a file in place."""
    text = read(name)
    if (data := formatted(text)) == text:
        return DONE
    if not os.path.isfile(name):
        raise Told(NOT_WRITTEN, ": it is no file that can be written in place")
    try:
        replace(name, data)
    except OSError as fault:
        raise Told(NOT_WRITTEN, f": {fault.strerror}") from None
    return DONE


def check(name):
    """Names a file that would change."""
    text = read(name)
    if formatted(text) == text:
        return DONE
    put(os.fsencode(name) + b"\n")
    return REFUSED


def show(name):
    """Writes a file's formatted text, or what the program writes in its place."""
    try:
        data = formatted(read(name))
    except Told as told:
        put(told.output)
        raise
    put(data)
    return DONE


ACTIONS = {"--check": check, "-w": write, "--write": write}


def asked(words):
    """What is to be done with each file, and the files; or None for other words."""
    action = ACTIONS.get(words[0], show) if words else show
    names = words if action is show else words[1:]
    is_option = any(name.startswith("-") and name != "-" for name in names)
    most_inputs, most_names = int(action is not write), 1 if action is show else len(names)
    if is_option or names.count("-") > most_inputs or not 1 <= len(names) <= most_names:
        return None
    return action, names


def done_with(action, name):
    """Does it with a file, and answers the status."""
    try:
        return action(name)
    except Told as told:
        sys.stderr.write(f"{shown(name)}{told.words}\n")
        return told.status


def main(words):
    """Does what is asked for with each file, and answers the greatest status."""
    if len(words) == 1 and words[0] in HELP:
        sys.stdout.write(USAGE_LINES)
        return DONE
    found = asked(words)
    if found is None:
        sys.stderr.write(USAGE_LINES)
        return USAGE
    action, names = found
    return max(done_with(action, name) for name in names)
