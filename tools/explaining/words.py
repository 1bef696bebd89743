"""Statuses 2 and 5: which word is wrong, and which file could not be read."""
import difflib
import os
import re

COMMANDS = {
    "run": ("APP", "SCRIPT"), "check": ("APP",), "fmt": ("APP",), "build": ("APP",), "audit": ("APP", "TRACE"),
    "live": ("APP", "SCRIPT"), "soak": ("APP", "NUMBER", "COUNT", "WORKERS"), "demo": ("N",), "deepest": ("APP",),
    "times": ("APP", "LIMITS"), "verify": ("IMAGE",), "pair": ("APP1", "APP2", "SCRIPT"),
}
# the second program's name, and its commands, each behind that name; a word in brackets may be left out
BESIDE = "rticx"
COMMANDS_BESIDE = {
    "rticx run": ("APP", "BOARD", "SCRIPT"), "rticx audit": ("APP", "BOARD", "TRACE"),
    "rticx live": ("APP", "BOARD", "SCRIPT"), "rticx native": ("APP", "BOARD"), "rticx why": ("IMAGE",),
    "rticx cycles": ("APP",),
    "rticx bounds": ("IMAGE", "[LIMITS]"),
    "rticx respond": ("APP", "LIMITS"),
}
TAKEN = {**COMMANDS, **COMMANDS_BESIDE}
RANGES = {"NUMBER": (0, (1 << 64) - 1), "COUNT": (1, 10_000), "WORKERS": (1, 64), "N": (1, 48)}
ALL = "--all"
OPTIONS = "the options are `--help`, `-h` and `--version`, and each comes alone"
INPUT, ONE_INPUT = "-", "standard input can be one file, and here it is two"
DIGITS = re.compile(r"[0-9]{1,20}")
FORMS = {
    "deepest": "`deepest` is for hardware tasks alone, without a monotonic, and an `init` that has no `pend` and costs "
               "at most 900,000",
    "times": "`times` is for hardware tasks alone, without a monotonic and without a `pend`",
    "rticx respond": "`rticx respond` is for applications without a monotonic and without a `pend` of a dispatcher's "
                     "interrupt",
    "rticx bounds": "`rticx bounds` has response times of images whose requests come from outside alone",
}


def listed(commands):
    """The sentence that lists commands with their words."""
    forms = [f"`{' '.join((name,) + words)}`" for name, words in commands.items()]
    return f"the commands are {', '.join(forms[:-1])} and {forms[-1]}"


BUILT, BUILT_BESIDE = listed(COMMANDS), listed(COMMANDS_BESIDE)


def joined(words):
    """The words with a command of the second program as one: its name and the word behind it."""
    place = int(words[:1] == [ALL])
    if words[place:place + 1] != [BESIDE]:
        return words
    return words[:place] + [" ".join(words[place:place + 2])] + words[place + 2:]


def is_of_beside(words):
    """Whether joined words are those of the second program."""
    return bool(words) and words[0].split(" ")[0] == BESIDE


def is_count(words, wanted):
    """Whether there are as many words behind the first as a command that wants these takes."""
    return fewest(wanted) <= len(words) - 1 <= len(wanted)


def fewest(wanted):
    """How many words there are at least."""
    return sum(not kind.startswith("[") for kind in wanted)


def files_of(words):
    """Those of the words after a command that name its files."""
    return [word for word, kind in zip(words[1:], TAKEN.get(words[0] if words else "", ())) if kind not in RANGES]


def inputs_of(words):
    """The positions of the files that are standard input, where the words are as many as their command takes."""
    if not words or not is_count(words, TAKEN.get(words[0], ())):
        return []
    return [place for place, name in enumerate(files_of(words), 1) if name == INPUT]


def is_in_range(word, kind):
    """Whether a word can be where one of this kind is wanted."""
    if kind not in RANGES:
        return True
    least, most = RANGES[kind]
    return bool(DIGITS.fullmatch(word)) and least <= int(word) <= most


def is_command(words):
    """Whether the words are a command."""
    wanted = TAKEN.get(words[0] if words else "")
    return wanted is not None and is_count(words, wanted) and all(map(is_in_range, words[1:], wanted))


def without_all(words):
    """The words without `--all`, and whether it is there: as the first word, or where without it they are a command."""
    for place, word in enumerate(words):
        rest = words[:place] + words[place + 1 :]
        if word == ALL and (place == 0 or is_command(rest)):
            return rest, True
    return words, False


def wrong_word(words):
    """The position of the word that is wrong, or after the last where one is missing."""
    if not words or words[0] not in TAKEN:
        return 0
    if len(inputs := inputs_of(words)) > 1:
        return inputs[1]
    wanted = TAKEN[words[0]]
    if is_count(words, wanted):
        for place, (word, kind) in enumerate(zip(words[1:], wanted)):
            if not is_in_range(word, kind):
                return place + 1
    return min(len(words), len(wanted) + 1)


def of_command(words):
    """The sentence on words that begin with a command."""
    wanted, given = TAKEN[words[0]], len(words) - 1
    if len(inputs_of(words)) > 1:
        return ONE_INPUT
    if is_count(words, wanted):
        place = wrong_word(words)
        least, most = RANGES[wanted[place - 1]]
        return f"{wanted[place - 1]} is {least} to {most:,}, in one to twenty digits, and `{words[place]}` is not"
    kind = "file" if not RANGES.keys() & set(wanted) else "word"
    noun, verb = kind if len(wanted) == 1 else kind + "s", "is" if given == 1 else "are"
    listed = ", ".join(wanted[:-1]) + " and " + wanted[-1] if len(wanted) > 1 else wanted[0]
    count = f"{fewest(wanted)} or {len(wanted)}" if fewest(wanted) < len(wanted) else len(wanted)
    return f"`{words[0]}` takes {count} {noun}, {listed}, and {given or 'none'} {verb} here"


def of_words(words):
    """The sentences on words that are no command: pairs of a kind and a sentence."""
    if not words:
        return [("help", BUILT)]
    name = words[0]
    if name in TAKEN:
        beside = f"{BESIDE} {name}"
        is_beside = len(words) - 1 == len(COMMANDS_BESIDE.get(beside, ())) and beside in COMMANDS_BESIDE
        more = [("help", f"with a board it is the second program's: `{' '.join([beside, *words[1:]])}`")]
        return [("cause", of_command(words))] + more * is_beside
    built = BUILT_BESIDE if is_of_beside(words) else BUILT
    if name == BESIDE:
        return [("help", built)]
    if name.startswith("-"):
        return [("cause", OPTIONS), ("help", built)]
    near = difflib.get_close_matches(name, COMMANDS_BESIDE if is_of_beside(words) else COMMANDS, 1, 0.6)
    told = f"a command of a similar name is `{near[0]}`" if near else built
    return [("cause", f"there is no command `{name}`"), ("help", told)]


def of_files(paths):
    """The first file that cannot be read, and why: a line for each sentence."""
    for path in paths:
        told = why(path)
        if told:
            return f"{path}: {told}"
    return "each file can be read now: one of them could not be when the program tried"


def why(path):
    """Why a file cannot be read, or None where it can."""
    if os.path.isdir(path):
        return "this is a folder"
    if not os.path.lexists(path):
        return "there is no such file"
    if os.path.islink(path) and not os.path.exists(path):
        return "this is a link to a file that is not there"
    try:
        with open(path, "rb") as file:
            file.read(1)
    except PermissionError:
        return "it may not be read"
    except OSError as fault:
        return str(fault.strerror)
    return None
