"""Times of programs, for the scripts of bench/run: the processor time of programs that take turns, and their medians.

Processor time is that of the program, in it and for it in the system, as the system counts it when the program ends;
what else runs on the machine stretches it far less than the time by the clock.
"""

import os
import statistics
import subprocess
import sys
import time
from typing import NamedTuple


class Used(NamedTuple):
    """The seconds that a program takes: of a processor, and by the clock from its start to its end."""

    processor: float
    clock: float


def used(words):
    """What a program takes, which has to end with status 0."""
    begin = time.perf_counter()
    with subprocess.Popen(words, stdout=subprocess.DEVNULL, env={**os.environ, "LC_ALL": "C"}) as child:
        _, status, resources = os.wait4(child.pid, 0)
        child.returncode = os.waitstatus_to_exitcode(status)
    if child.returncode != 0:
        sys.exit(f"{' '.join(words)} ended with status {child.returncode}")
    return Used(resources.ru_utime + resources.ru_stime, time.perf_counter() - begin)


def medians(count, *programs):
    """What each of these programs takes, in the median of so many turns: in a turn each of them runs once."""
    turns = [[used(words) for words in programs] for _ in range(count)]
    return [Used(*map(statistics.median, zip(*column))) for column in zip(*turns)]


def processor(count, *programs):
    """The processor seconds of each of these, in the median of so many turns."""
    return [each.processor for each in medians(count, *programs)]


def peak(words, folder):
    """The peak memory of a program in KiB. Told by `time`, since a child of Python begins with Python's own."""
    file = os.path.join(folder, "peak")
    used(["time", "-f", "%M", "-o", file, *words])
    with open(file, encoding="ascii") as told:
        return int(told.read())


def load():
    """How busy the machine is."""
    return f"{os.getloadavg()[0]:.1f} runnable processes in the last minute, on {os.cpu_count()} processors"
