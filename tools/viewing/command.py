"""The command line of `tools/view`: what is asked for, what is read, and what is written where."""
import gc
import os
import shutil
import sys

from . import events, page, text, vcd
from .application import application_of
from .history import History
from .reading import read_file, read_output
from .report import read_report
from .responses import read_responses
from .summary import summary
from .told import DONE, NOT_WRITTEN, USAGE, Told

USAGE_LINE = ("usage: view RUN [CHECK [RESPOND]] [--html FILE | --vcd FILE | --wires FILE |\n"
              "                                   --trace-events FILE | --text [STEPS]]\n"
              "RUN is an output of `run` or `live`, or a trace; CHECK one of `rtic check` on the same\n"
              "application, and RESPOND one of `rticx respond`. Without a form the summary is written.\n"
              "`-` is standard input, or as FILE the output.\n")
FILES = {"--html": lambda history: [page.page(history)], "--vcd": vcd.dump, "--wires": vcd.wires,
         "--trace-events": events.trace_events}


class Wanted:
    """What the words ask for: one to three files to read, the form, and a file to write or the steps of a column."""

    def __init__(self, inputs, form, target, steps):
        self.inputs = inputs
        self.form = form
        self.target = target
        self.steps = steps


def wanted(words):
    """What the words ask for, or the usage lines."""
    inputs, form, target, steps = [], None, None, 1
    rest = list(words)
    while rest:
        word = rest.pop(0)
        if word in FILES and rest and form is None:
            form, target = word, rest.pop(0)
        elif word == "--text" and form is None:
            form = word
            if rest and rest[0].isascii() and rest[0].isdigit():
                steps = int(rest.pop(0)[:10])
        elif not word.startswith("--"):
            inputs.append(word)
        else:
            raise Told(USAGE, USAGE_LINE.rstrip("\n"))
    if len(inputs) not in (1, 2, 3) or inputs.count("-") > 1 or steps == 0:
        raise Told(USAGE, USAGE_LINE.rstrip("\n"))
    return Wanted(inputs, form, target, steps)


def shown_name(path):
    """How a file is called in what is told."""
    return "standard input" if path == "-" else path


def read(inputs):
    """The history of the run that was asked for."""
    texts = [read_file(path, sys.stdin) for path in inputs]
    names = [shown_name(path) for path in inputs]
    report = read_report(names[1], texts[1]) if len(inputs) > 1 else None
    responses = read_responses(names[2], texts[2]) if len(inputs) > 2 else None
    output = read_output(names[0], texts[0])
    application = application_of(output, report)
    if responses is not None:
        responses.agree(application)
    return History(output, application, responses)


def write(pieces, target):
    """Writes pieces into a file, or to standard output where there is none or it is `-`."""
    if target in (None, "-"):
        for piece in pieces:
            sys.stdout.write(piece)
        sys.stdout.flush()
        return
    with open(target, "w", encoding="utf-8") as file:
        for piece in pieces:
            file.write(piece)


def show(asked):
    """Reads, and writes what is asked for; a run without a step is told, never drawn."""
    history = read(asked.inputs)
    if asked.form is None:
        write([summary(history)], None)
    elif history.end == 0:
        raise Told(DONE, f"{history.output.name}: the run has no core step: there is nothing to draw")
    elif asked.form == "--text":
        write(text.draw(history, asked.steps, shutil.get_terminal_size().columns), None)
    else:
        write(FILES[asked.form](history), asked.target)


def main(words):
    """Does what the words ask for; the answer is the status."""
    gc.disable()
    try:
        show(wanted(words))
    except Told as told:
        sys.stderr.write(told.words + "\n" if told.status == USAGE else f"view: {told.words}\n")
        return told.status
    except BrokenPipeError:
        # Who read has gone: what is still kept for standard output goes nowhere.
        os.dup2(os.open(os.devnull, os.O_WRONLY), sys.stdout.fileno())
        return NOT_WRITTEN
    except OSError as failure:
        sys.stderr.write(f"view: {failure.filename or 'the output'} could not be written: {failure.strerror}\n")
        return NOT_WRITTEN
    return DONE
