"""Runs of an application by the program: many at once by `soak`, or each by itself, by `run` on its script."""
import subprocess
import sys

from explaining.program import asked_program
from viewing.told import Told

from .generated import script
from .tally import Tally, read_counts
from .trace import tally_of

NO_ANSWER = 70
STANDARD_INPUT = "/dev/stdin"
SHOWN = 100


class Program:
    """The program, on one application; `workers` is how many threads of `soak` share the runs."""

    def __init__(self, application, workers):
        self.path = asked_program()
        self.application = application
        self.workers = workers
        if self.path is None:
            raise Told(NO_ANSWER, "the proved program is not built (./build makes it), and RTIC names no other")

    def answer(self, *words, text=b""):
        """What the program writes; where it ends otherwise than with 0 this is told, with its status."""
        done = subprocess.run([self.path, *words], input=text, stdout=subprocess.PIPE, check=False)
        if done.returncode:
            said = done.stdout.decode("latin-1").split("\n")[0][:SHOWN]
            status = done.returncode if 0 < done.returncode <= NO_ANSWER else NO_ANSWER
            raise Told(status, f"`{' '.join(words[:2])}` ended with status {done.returncode}: {said}")
        return done.stdout.decode("latin-1")

    def image(self):
        """The listing of the application's image."""
        return self.answer("build", self.application.path)

    def soak(self, number, count):
        """The six counts of the first runs of a number."""
        text = self.answer("soak", self.application.path, str(number), str(count), str(self.workers))
        counts = read_counts(text)
        if counts is None:
            raise Told(NO_ANSWER, f"no output of `soak`: {text[:SHOWN]}")
        return counts

    def run(self, number, run):
        """What a run of a number writes."""
        text = script(self.application.interrupts, number, run)
        return self.answer("run", self.application.path, STANDARD_INPUT, text=text.encode("ascii"))

    def tally(self, run):
        """What one run shows; it is a pair, the number and the run's own."""
        return tally_of(self.run(*run), run, self.application.bound)


def looked(program, runs):
    """The tally of all these runs, each looked at by itself."""
    found = Tally(True)
    for run in runs:
        found.add(program.tally(run))
    return found


def written_at_once(calls):
    """What these calls of the tool write, made side by side; where one ends otherwise than with 0, this is told."""
    children = [subprocess.Popen([sys.executable, *call], stdin=subprocess.DEVNULL, stdout=subprocess.PIPE,
                                 stderr=subprocess.PIPE) for call in calls]
    found = []
    try:
        for child in children:
            said, complained = (each.decode("utf-8", "replace") for each in child.communicate())
            if child.returncode:
                status = child.returncode if child.returncode > 0 else NO_ANSWER
                raise Told(status, complained.strip().partition(": ")[2] or f"a part ended with {child.returncode}")
            found.append(said)
    finally:
        for child in children:
            if child.poll() is None:
                child.kill()
                child.communicate()
    return found


def counted(program, numbers, count):
    """The tally of the first runs of each of these numbers, by the program's own counts."""
    found = Tally(False)
    for number in numbers:
        found.add_number(number, program.soak(number, count))
    return found


def first_run(program, number, count, name, least):
    """The first run of a number with which a count of `soak` comes to at least so much; it does within `count` runs.

    The counts of the first N runs never fall as N rises. So a bound is doubled until it holds, and then halved.
    """
    above = 1
    while above < count and program.soak(number, above)[name] < least:
        above *= 2
    below, above = above // 2, min(above, count)
    while above - below > 1:
        middle = (below + above) // 2
        if program.soak(number, middle)[name] < least:
            below = middle
        else:
            above = middle
    return above - 1
