"""The command lines of `tools/replay` and `tools/soak`: what is asked for, and what is written."""
import os
import re
import shlex
import sys
from collections import namedtuple

from viewing.reading import read_file
from viewing.told import DONE, NOT_READ, NOT_WRITTEN, USAGE, Told

from .application import Application
from .generated import STATES, script
from .parts import NOT_WHOLE, Part, call, cut, disjoint
from .results import Result, result, sum_of, whole
from .runs import Program, counted, first_run, looked, written_at_once
from .shown import counted_lines, looked_lines, shown
from .tally import six_lines

MOST_RUNS, MOST_WORKERS = 10_000, 64
INTERRUPTED = 130
TOOL = os.path.join(os.path.dirname(os.path.dirname(os.path.abspath(__file__))), "soak")
REPLAY_USAGE = "usage: replay APP NUMBER RUN\nThe script of the run RUN, 0 to 9999, of `rtic soak APP NUMBER ..`.\n"
USAGE_LINES = """usage: soak APP NUMBERS RUNS [--count] [--workers N] [--calls PARTS]
       soak --merge CALLS RESULTS..
NUMBERS is a number of `rtic soak`, or a range as 0-99; RUNS how many runs of each, or a range of them as 2500-4999.
Each run is looked at by itself; with --count they are only counted, by `rtic soak`. With --calls the campaign is not
run: a list of calls is written, for any machines. --merge makes one answer of what these wrote. `-` is standard input.
"""
Wanted = namedtuple("Wanted", "path part workers parts is_part")


def usage(lines=USAGE_LINES):
    """The words are none that the tool knows."""
    return Told(USAGE, lines.rstrip("\n"))


def number_in(word, below):
    """The number that a word spells, where it is below another."""
    if not re.fullmatch("[0-9]{1,20}", word) or int(word) >= below:
        raise usage()
    return int(word)


def range_in(word, below):
    """The first and the last number of a range, or of a number alone twice this."""
    first, dash, last = word.partition("-")
    found = number_in(first, below), number_in(last if dash else first, below)
    if found[0] > found[1]:
        raise usage()
    return found


def runs_in(word):
    """The first and the last run: of a range, or of so many runs from 0 on."""
    if "-" in word:
        return range_in(word, MOST_RUNS)
    count = number_in(word, MOST_RUNS + 1)
    if count == 0:
        raise usage()
    return 0, count - 1


def wanted(words):
    """What the words of a campaign or a part ask for."""
    rest, flags, values = [], set(), {}
    words = list(words)
    while words:
        word = words.pop(0)
        if word in ("--count", "--part"):
            flags.add(word)
        elif word in ("--workers", "--calls") and words:
            values[word] = number_in(words.pop(0), MOST_WORKERS + 1 if word == "--workers" else STATES)
        elif word.startswith("--"):
            raise usage()
        else:
            rest.append(word)
    if len(rest) != 3 or 0 in values.values():
        raise usage()
    part = Part(*range_in(rest[1], STATES), *runs_in(rest[2]), "--count" in flags)
    if part.is_counted and part.first_run:
        raise Told(USAGE, "`soak` counts the runs of a number from 0 on: with --count RUNS is how many")
    return Wanted(rest[0], part, values.get("--workers"), values.get("--calls"), "--part" in flags)


def replay_call(path):
    """The call that writes the script of a run of an application."""
    return shlex.join([os.path.join(os.path.dirname(sys.argv[0]), "replay"), path]) + " NUMBER RUN"


def tally_of(program, path, part):
    """The tally of a part; where `soak` can make it too, both have to agree.

    More workers than one look at the runs as parts, side by side; `soak` has its threads.
    """
    if part.is_counted:
        return counted(program, part.numbers(), part.last_run + 1)
    if program.workers == 1:
        tally = looked(program, part.runs())
    else:
        parts = cut(part, program.workers)
        lines = written_at_once([call(TOOL, path, each, 1) for each in parts])
        tally = whole(parts, [Result(line, f"part {number}") for number, line in enumerate(lines, 1)])[0]
    if part.first_run == 0:
        own = counted(program, part.numbers(), part.last_run + 1)
        if own.counts != tally.counts:
            raise Told(NOT_WHOLE, "`run` on the scripts and `soak` do not agree, which is a fault of this tool or of "
                                  f"the program:\n{six_lines(tally.counts)}\n{six_lines(own.counts)}")
    return tally


def lines_of(tally, application, program, count):
    """What is said below the six lines; of counted runs the first ones are found by asking `soak` again."""
    if tally.is_looked:
        return looked_lines(tally, application)
    full = deepest = None
    if tally.full_number is not None:
        run = first_run(program, tally.full_number, count, "full", 1)
        full = program.tally((tally.full_number, run))
    if tally.deepest_number is not None:
        run = first_run(program, tally.deepest_number, count, "depth", tally.counts["depth"])
        deepest = program.tally((tally.deepest_number, run))
    return counted_lines(full, deepest, application)


def make(asked):
    """What a campaign or a part came to, or the calls that make it."""
    application = Application(asked.path)
    if asked.parts is not None:
        parts = cut(asked.part, asked.parts)
        return "".join(shlex.join(call(sys.argv[0], asked.path, part, asked.workers or 1)) + "\n" for part in parts)
    program = Program(application, asked.workers or own_workers())
    tally = tally_of(program, asked.path, asked.part)
    if asked.is_part:
        return result(asked.part, tally, application, program.image())
    lines = lines_of(tally, application, program, asked.part.last_run + 1)
    return shown(tally, lines, replay_call(asked.path))


def merge(paths):
    """What the campaign of a list of calls came to, by the results of the calls."""
    if len(paths) < 2 or paths.count("-") > 1:
        raise usage()
    texts = [read_file(path, sys.stdin) for path in paths]
    calls = [wanted(shlex.split(line)[1:]) for line in texts[0].split("\n") if line.strip()]
    if not calls or len({asked.path for asked in calls}) > 1:
        raise Told(NOT_WHOLE, f"{paths[0]}: a list of calls has at least one, and all are of one application")
    parts = disjoint([asked.part for asked in calls])
    results = [Result(line, f"{path}:{number}") for path, text in zip(paths[1:], texts[1:])
               for number, line in enumerate(text.split("\n"), 1) if line]
    tally, sources = whole(parts, results)
    application = Application(calls[0].path)
    if application.digest != sources[0]:
        raise Told(NOT_WHOLE, f"{application.path} is not the application of the results")
    return shown(tally, lines_of_merged(tally, application, sources[1], parts), replay_call(application.path))


def lines_of_merged(tally, application, image, parts):
    """What is said below the six lines of a merged campaign; first runs are asked of a program with the same image."""
    if tally.is_looked:
        return looked_lines(tally, application)
    try:
        program = Program(application, own_workers())
    except Told as told:
        return ["", f"first runs are not looked for: {told.words}"]
    if sum_of(program.image()) != image:
        return ["", "first runs are not looked for: the program here makes another image than the parts were made with"]
    return lines_of(tally, application, program, max(part.last_run for part in parts) + 1)


def own_workers():
    """As many workers as there are processors."""
    return min(os.cpu_count() or 1, MOST_WORKERS)


def replay(words):
    """The script of a run."""
    if len(words) != 3 or not all(re.fullmatch("[0-9]{1,20}", word) for word in words[1:]):
        raise usage(REPLAY_USAGE)
    number, run = int(words[1]), int(words[2])
    if number >= STATES or run >= MOST_RUNS:
        raise usage(REPLAY_USAGE)
    return script(Application(words[0]).interrupts, number, run)


def answered(name, act):
    """Writes what an act answers; the answer is the status."""
    try:
        sys.stdout.write(act())
        sys.stdout.flush()
    except Told as told:
        sys.stderr.write(told.words + "\n" if told.status == USAGE else f"{name}: {told.words}\n")
        return told.status
    except BrokenPipeError:
        # Who read has gone: what is still kept for standard output goes nowhere.
        os.dup2(os.open(os.devnull, os.O_WRONLY), sys.stdout.fileno())
        return NOT_WRITTEN
    except OSError as failure:
        sys.stderr.write(f"{name}: {failure.filename or 'the output'}: {failure.strerror}\n")
        return NOT_WRITTEN if failure.filename is None else NOT_READ
    except KeyboardInterrupt:
        return INTERRUPTED
    return DONE


def main_replay(words):
    """`tools/replay`."""
    return answered("replay", lambda: replay(words))


def main_soak(words):
    """`tools/soak`."""
    return answered("soak", lambda: merge(words[1:]) if words and words[0] == "--merge" else make(wanted(words)))
