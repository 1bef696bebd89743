#!/usr/bin/env python3
"""Tries the completions of bash, zsh and fish: what each offers for every word of every command of both programs, in a
folder that has a file with each usual ending. What is due comes from the programs' usage lines. A shell that is not
there is left out."""
import os
import pathlib
import pty
import select
import shlex
import shutil
import subprocess
import sys
import tempfile
import time

TOOLS = pathlib.Path(__file__).resolve().parents[1]
COMPLETION = TOOLS.parent / "completion"
sys.dont_write_bytecode = True
sys.path.insert(0, str(TOOLS))

from documenting.usage import ENDINGS, PROGRAMS, of_usage

FOLDER, OTHER = "sub", "text.c"
OPTIONS = ["--help", "--version", "-h"]
SECONDS = 30
END = "end of line"

BASH = """source {completion}/rtic.bash
each() {{ COMP_WORDS=("$@"); COMP_CWORD=$(($# - 1)); _rtic; printf '%s\\n' "${{COMPREPLY[@]}}" '{end}'; }}
{calls}
"""
FISH = """source {completion}/rtic.fish
for line in {lines}
    complete -C $line
    echo '{end}'
end
"""
# The first line that is edited becomes each line in turn; what is added to its completions is written to a file too.
ZSH = """fpath=({completion} $fpath)
autoload -Uz compinit
compinit -D -u
compadd() {{
    local -a found
    if (( ! ${{@[(I)-[OAD]]}} )); then
        builtin compadd -O found "$@"
        print -rl -- $found >>{output}
    fi
    builtin compadd "$@"
}}
zle-line-init() {{
    local line
    for line in {lines}; do
        BUFFER=$line CURSOR=$#line
        zle list-choices
        print -r -- '{end}' >>{output}
    done
    BUFFER=exit
    zle accept-line
}}
zle -N zle-line-init
"""


def by_bash(lines, folder):
    """What bash offers for each line."""
    calls = "\n".join(f"each {' '.join(shlex.quote(word) for word in line.split(' '))}" for line in lines)
    script = BASH.format(completion=shlex.quote(str(COMPLETION)), calls=calls, end=END)
    return output_of(["bash", "--norc", "-c", script], folder)


def by_fish(lines, folder):
    """What fish offers."""
    script = FISH.format(completion=shlex.quote(str(COMPLETION)), lines=" ".join(map(shlex.quote, lines)), end=END)
    return output_of(["fish", "--no-config", "-c", script], folder)


def output_of(words, folder):
    """What some words write in the folder."""
    environment = dict(os.environ, HOME=str(folder.parent), LC_ALL="C.UTF-8")
    done = subprocess.run(words, cwd=folder, env=environment, stdin=subprocess.DEVNULL, capture_output=True,
                          timeout=SECONDS, check=False)
    return done.stdout.decode()


def by_zsh(lines, folder):
    """What zsh offers: its completion works only where it edits a line on a terminal."""
    output, script = folder.parent / "offered", folder.parent / "script"
    output.touch()
    script.write_text(ZSH.format(completion=shlex.quote(str(COMPLETION)), output=shlex.quote(str(output)), end=END,
                                 lines=" ".join(map(shlex.quote, lines))))
    child, terminal = pty.fork()
    if child == 0:
        os.chdir(folder)
        os.environ.update(TERM="vt100", HOME=str(folder.parent), LC_ALL="C.UTF-8")
        os.execvp("zsh", ["zsh", "-f", "-i"])
    os.write(terminal, f"source {shlex.quote(str(script))}\n".encode())
    drain(terminal)
    os.waitpid(child, 0)
    return output.read_text()


def drain(terminal):
    """Reads what a terminal shows, until it is closed."""
    stop = time.monotonic() + SECONDS
    while select.select([terminal], [], [], max(stop - time.monotonic(), 0))[0]:
        try:
            os.read(terminal, 1 << 16)
        except OSError:
            return
    raise TimeoutError("zsh does not end")


SHELLS = {"bash": by_bash, "zsh": by_zsh, "fish": by_fish}


def due_of_place(operand):
    """The names that are due first for an operand, and those that may come after them."""
    # an operand in brackets may be left out
    if operand.strip("[]") not in ENDINGS:
        return [], set()
    ending = ENDINGS[operand.strip("[]")]
    others = {f"one.{other}" for other in ENDINGS.values() if other != ending} | {OTHER}
    return [f"one.{ending}", FOLDER], set() if ending == "rtic" else others


def due():
    """For each line what is due."""
    found = {f"rtic check {OTHER[0]}": ([], {OTHER}), "rtic de": ([], {"demo", "deepest"}),
             "rticx check ": ([], set()), "rticx ru": ([], {"run"})}
    for program in PROGRAMS:
        commands = of_usage(program)
        found.update({f"{program} ": ([], set(commands)), f"{program} -": ([], set(OPTIONS)),
                      f"{program} nothing ": ([], set())})
        for command, operands in commands.items():
            for place, operand in enumerate([*operands, "nothing more"]):
                found[" ".join([program, command, *["w"] * place, ""])] = due_of_place(operand)
    return found


def offered(text):
    """What a shell offers for each line: names, without what is said of them."""
    names = [line.split("\t")[0].rstrip("/") for line in text.splitlines()]
    found = [[]]
    for name in names:
        if name == END:
            found.append([])
        elif name and name not in found[-1]:
            found[-1].append(name)
    return found[:-1]


def folder_in(name):
    """A folder in which there is a file with each ending."""
    folder = pathlib.Path(name) / "files"
    (folder / FOLDER).mkdir(parents=True)
    for file in [OTHER, *(f"one.{ending}" for ending in ENDINGS.values())]:
        (folder / file).touch()
    return folder


def faults_of(shell, found, wanted):
    """A line for each word for which a shell offers something else."""
    if len(found) != len(wanted):
        yield f"{shell} answers {len(found)} of {len(wanted)} lines"
    for (line, (first, others)), names in zip(wanted.items(), found):
        if names[: len(first)] != first or set(names[len(first) :]) != others:
            yield f"{shell} offers {names} for {line!r}, and {first} and then {sorted(others)} are due"


def main():
    """Ends with 1 where a shell offers something else."""
    begun, wanted, faults, tried = time.monotonic(), due(), [], []
    for shell, offers in SHELLS.items():
        if shutil.which(shell):
            with tempfile.TemporaryDirectory() as name:
                found = offered(offers(list(wanted), folder_in(name)))
            faults += faults_of(shell, found, wanted)
            tried.append(shell)
    for fault in faults:
        print(f"completion: {fault}")
    print(f"completion: {len(wanted)} lines in {', '.join(tried)}, {len(faults)} faults, in "
          f"{time.monotonic() - begun:.1f} s")
    if missing := [shell for shell in SHELLS if shell not in tried]:
        print(f"completion: skipped in part: {' and '.join(missing)} not there")
    return 1 if faults else 0


if __name__ == "__main__":
    sys.exit(main())
