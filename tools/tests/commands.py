#!/usr/bin/env python3
"""Compares what is said of the commands' words, of what they do and of the statuses in several places, for each
program: the words with its own usage line, the statuses with the table of its page, and the rest with the launcher's
help. What the launcher takes for each command is tried in launcher.py, and what completions offer in completion.py.

The man pages are also set, without a warning, where there is a program that does it."""
import pathlib
import shutil
import subprocess
import sys

TOOLS = pathlib.Path(__file__).resolve().parents[1]
sys.dont_write_bytecode = True
sys.path.insert(0, str(TOOLS))

from documenting import usage
from documenting.tree import ROOT
from explaining.words import COMMANDS, COMMANDS_BESIDE


def forms_of(operands):
    """Commands as places have them that give their words, in order."""
    return [" ".join([command, *words]) for command, words in operands.items()]


def places(program):
    """What each place says of the commands."""
    known = COMMANDS if program == "rtic" else {name.split()[1]: words for name, words in COMMANDS_BESIDE.items()}
    return {
        f"{program} --help": [form for form, _ in usage.part_of_help("Commands", program)],
        usage.PROGRAMS[program][1]: usage.of_page(program),
        f"man/{program}.1": [form for form, _ in usage.of_man_page(program)],
        "tools/explain": forms_of(known),
    }


def faults_of_sentences(program):
    """A line for each place that says of a command something else than the help does."""
    helped = usage.part_of_help("Commands", program)
    said = {f"man/{program}.1": [(form.split()[0], sentence) for form, sentence in usage.of_man_page(program)]}
    said.update({f"completion/{name}": usage.of_completion(name, program) for name in ("_rtic", "rtic.fish")})
    due = sorted((form.split()[0], sentence) for form, sentence in helped)
    for place, rows in said.items():
        for row in sorted({*due, *rows}):
            if rows.count(row) != due.count(row):
                yield f"{place}: {row[0]}: {row[1]}: {rows.count(row)} times, and in the help {due.count(row)}"


def faults_of(due, said):
    """A line for each command of which a place says otherwise than the usage line, or says it twice."""
    for place, forms in said.items():
        for form in sorted({*forms, *due}):
            if forms.count(form) != due.count(form):
                yield f"{place}: {form}: {forms.count(form)} times, and in the usage line {due.count(form)}"


def faults_of_statuses(program):
    """A line for each place whose statuses are not those of the page's table, in its words, and then the help's own."""
    due = [(number, meaning.replace("`", "")) for number, meaning in usage.statuses_of_page(program)]
    said = statuses(program)
    own = usage.part_of_help("Statuses", program)[len(due):]
    for place, rows in said.items():
        if rows != due + own:
            yield f"{place}: the statuses {rows}, and {due + own} are due"


def statuses(program):
    """What each place says of the statuses."""
    return {f"{program} --help": usage.part_of_help("Statuses", program),
            f"man/{program}.1": usage.statuses_of_man_page(program)}


def warnings_of_man_pages():
    """What groff has to say against the man pages; and what is left out where there is no groff."""
    if not shutil.which("groff"):
        print("commands: skipped in part: groff is not there, so the man pages are not set")
        return []
    words = ["groff", "-ww", "-man", "-Tutf8", *(ROOT / "man" / f"{program}.1" for program in usage.PROGRAMS)]
    done = subprocess.run(words, capture_output=True, text=True, check=False)
    return [line for line in done.stderr.splitlines() if line]


def unseen(due, said):
    """The planted faults that are not seen: in each place a command is left out, or has another operand."""
    for place, forms in said.items():
        for planted in (forms[1:], [forms[0] + " MORE", *forms[1:]]):
            if not list(faults_of(due, {**said, place: planted})):
                yield f"not seen: {planted[0]} in {place}"


def main():
    """Ends with 1 where a place says otherwise, or a planted fault is not seen."""
    faults = warnings_of_man_pages()
    for program in usage.PROGRAMS:
        due, said = forms_of(usage.of_usage(program)), places(program)
        faults += [*faults_of(due, said), *faults_of_statuses(program), *faults_of_sentences(program),
                   *unseen(due, said)]
        print(f"commands: {len(due)} commands of {program} compared in {len(said)} places, {2 * len(said)} planted"
              " faults tried")
    for fault in faults:
        print(f"commands: {fault}")
    return 1 if faults else 0


if __name__ == "__main__":
    sys.exit(main())
