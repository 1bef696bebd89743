"""What is asked at places of accepted texts, and what is right there by the text and the program."""
import re

from explaining.expected import may_stand
from explaining.program import Program

from client import place as params
from reading import WORDS, applied, declares, is_name, offset, opened, place, tokens

NAMES_A_TEXT = 2
FRESH = "fresh_name_0"
# rules about two places, of which the second may be elsewhere
PAIRED = (6, 8, 10, 13, 14)
ARGUMENTS = 15
# words that a rule refuses where the grammar has them
BY_RULE = {"spawn_after", "cancel", "reschedule_after", "now", "lock", "capacity", "with", "binds"}
PLACES_OF_WORDS = 8
# declarations have an order, so of these those cannot come that are behind, or come after what is
DECLARED = {"monotonic", "shared", "local", "init", "idle", "task"}


def names_of(text, chosen, count=NAMES_A_TEXT):
    """Some name tokens of a text: their numbers."""
    numbers = [number for number, (word, _) in enumerate(tokens(text)) if is_name(word)
               and not (word in ("fpu", "on") and tokens(text)[number - 1][0] in (",", "="))]
    return chosen.sample(numbers, min(count, len(numbers)))


def numbers_of(text, ranges):
    """The numbers of the tokens that are at ranges of an answer; a range that is no token has None."""
    known = {at: (number, word) for number, (word, at) in enumerate(tokens(text))}
    found = []
    for one in ranges:
        number, word = known.get(offset(text, one["start"]), (None, ""))
        found.append(number if offset(text, one["end"]) == offset(text, one["start"]) + len(word) else None)
    return found


# Renames.

def rename_places(client, asking, told, chosen, uri, text):
    """References, definition, highlights and renames of some names."""
    for number in names_of(text, chosen):
        word, at = tokens(text)[number]
        line, character = place(text, at)
        found = client.at("references", uri, line, character, context={"includeDeclaration": True})
        same = numbers_of(text, [one["range"] for one in found])
        told.expect("references", f"{word} at {line}:{character} in {text[:60]!r}: {same}",
                    None not in same and number in same and is_one_name(asking, text, same))
        defined = numbers_of(text, [client.at("definition", uri, line, character)["range"]])
        told.expect("definition", f"{word} at {line}:{character}", declares(text, defined[0]) and defined[0] in same)
        marked = client.at("documentHighlight", uri, line, character)
        told.expect("highlights", word, numbers_of(text, [one["range"] for one in marked]) == same)
        others = client.at("references", uri, line, character, context={"includeDeclaration": False})
        told.expect("references", f"{word} without its declaration", numbers_of(
            text, [one["range"] for one in others]) == [one for one in same if one != defined[0]])
        names = sorted({name for name, _ in tokens(text) if is_name(name)} - {word})
        for new in [FRESH, chosen.choice(sorted(WORDS))] + chosen.sample(names, min(2, len(names))):
            rename(client, asking, told, (uri, text), (number, same), new)


def changed(text, numbers, new):
    """The text with these tokens changed."""
    row = tokens(text)
    for number in sorted(numbers, reverse=True):
        word, at = row[number]
        text = text[:at] + new + text[at + len(word):]
    return text


def is_one_name(asking, text, numbers):
    """Whether these tokens are one name, all and only: one of them declares it, and with a fresh name in their place
    the program accepts the text and builds the same."""
    word = tokens(text)[numbers[0]][0]
    renamed = changed(text, numbers, FRESH)
    return sum(declares(text, number) for number in numbers) == 1 and means_same(asking, text, renamed, word, FRESH)


def means_same(asking, text, renamed, old, new):
    """Whether the program accepts a renamed text, and builds the same image but for the name."""
    status, listing = asking.ask("build", renamed)
    if status != 0:
        return False
    was = asking.ask("build", text)[1]
    return without(listing, (old, new)) == without(was, (old, new))


def without(listing, names):
    """A listing with the same sign for all of these names."""
    return re.sub(rf"\b(?:{'|'.join(names)})\b", "@", listing)


def rename(client, asking, told, document, found, new):
    """The server renames where the program takes the result, and refuses where it does not."""
    (uri, text), (number, same) = document, found
    word, at = tokens(text)[number]
    due = changed(text, same, new)
    is_right = is_name(new) and means_same(asking, text, due, word, new)
    answer = client.respond("textDocument/rename", params(uri, *place(text, at), newName=new))
    if "error" in answer:
        told.expect("renames refused", f"{word} to {new} in {text[:60]!r}: {answer['error']['message']}", not is_right)
        return
    result = applied(text, answer["result"]["changes"][uri])
    formatted = asking.ask("fmt", text)[1]
    expected = changed(formatted, alike(text, formatted, same), new)
    told.expect("renames", f"{word} to {new} in {text[:60]!r}",
                is_right and result == due and asking.ask("fmt", result)[1] == expected)


def alike(text, formatted, numbers):
    """The numbers that name tokens have in the canonical text: each has as many equal names before it."""
    mine, other = tokens(text), tokens(formatted)
    word = mine[numbers[0]][0]
    order = [number for number, (name, _) in enumerate(mine) if name == word]
    there = [number for number, (name, _) in enumerate(other) if name == word]
    return [there[order.index(number)] for number in numbers]


# Hovers.

def report_of(asking, text):
    """The numbers of `check`: a line's first words, and its last."""
    lines = [line.rpartition(" ") for line in asking.ask("check", text)[1].splitlines()]
    return {words: number for words, _, number in lines}


def due_numbers(text, report, word, number):
    """What a hover on a declared name has to have in it: the numbers of the report, and what the text says."""
    row = [one for one, _ in tokens(text)]
    if row[number - 1] == "task":
        header = re.search(rf"\btask\s+{word}\b([^{{]*)", text)[1]
        priority = re.search(r"\bpriority\s*=\s*(\d+)", header)
        binds = re.search(r"\bbinds\s*=\s*(\w+)", header)
        level = priority[1] if priority else "1"
        found = [f"cost {int(report['cost ' + word]):,} ", f"frame {int(report['frame ' + word]):,} ",
                 f"priority {int(level)}", f"`wait {int(level)}`"]
        wait = int(report[f"wait {int(level)}"])
        found += [f"fewer than {wait:,} core steps"] if wait else ["no lower one"]
        return found + ([f"hardware task `{word}`, bound to `{binds[1]}`"] if binds else [f"software task `{word}`"])
    inside = opened(row, number)
    if inside == "shared":
        return [f"ceiling {report['ceiling ' + word]}", f"first value {row[number + 2]}"]
    if inside == "local":
        return [f"local resource `{word}`, first value {row[number + 2]}"]
    if inside == "interrupts":
        task = re.search(rf"\btask\s+(\w+)\s*\([^{{]*\bbinds\s*=\s*{word}\b", text)
        return [f"interrupt `{word}`, number {row[number + 2]}"] + ([f"the task `{task[1]}`"] if task else [])
    return [f"stack needs {int(report['stack']):,} bytes"] if row[number - 1] == "app" else [f"`{word}`"]


def hover_places(client, asking, told, chosen, uri, text):
    """Hovers on some declarations and on a word."""
    row, report = tokens(text), report_of(asking, text)
    numbers = [number for number, (word, _) in enumerate(row) if is_name(word) and declares(text, number)]
    for number in chosen.sample(numbers, min(2, len(numbers))):
        word, at = row[number]
        shown = client.at("hover", uri, *place(text, at))
        due = due_numbers(text, report, word, number)
        told.expect("hovers", f"{word} in {text[:60]!r}: {shown and shown['contents']['value']!r}, and due is {due}",
                    shown and all(one in shown["contents"]["value"] for one in due)
                    and numbers_of(text, [shown["range"]]) == [number])
    words = [number for number, (word, _) in enumerate(row) if word in WORDS]
    number = chosen.choice(words)
    shown = client.at("hover", uri, *place(text, row[number][1]))
    told.expect("hovers", f"the word {row[number][0]}", shown and f"`{row[number][0]}`" in shown["contents"]["value"]
                and numbers_of(text, [shown["range"]]) == [number])


# Completions.

def labels(client, uri, text, at):
    """The names and the words that are offered at an offset."""
    items = client.at("completion", uri, *place(text, at))
    names = {item["label"] for item in items if item["label"] not in WORDS and item["kind"] != 14}
    return names, {item["label"] for item in items if item["kind"] == 14}


def completion_places(client, asking, told, chosen, uri, text):
    """At some names that are used the names offered are those that the program does not refuse there."""
    row = tokens(text)
    used = [number for number in names_of(text, chosen, len(row)) if not declares(text, number)]
    candidates = sorted({word for word, _ in row if is_name(word)})
    for number in used[:2]:
        word, at = row[number]
        offered, _ = labels(client, uri, text, at)
        for name, fits in zip(candidates, fitting(asking, text, number, candidates)):
            if fits is not None:
                told.expect("names offered", f"{name} for {word} at {place(text, at)} in {text[:60]!r}: {fits}",
                            fits == (name in offered))


def fitting(asking, text, number, candidates):
    """For each name whether the program takes it in the place of a token; None where another refusal hides that."""
    word, at = tokens(text)[number]
    these = [text[:at] + name + text[at + len(word):] for name in candidates]
    asking.all("check", these)
    for name, tried in zip(candidates, these):
        where, rule = asking.refusal(tried)
        is_software = not re.search(rf"\btask\s+{name}\s*\([^{{]*\bbinds\b", text)
        if where is None or rule == ARGUMENTS and where == at and is_software and f"task {name}" in text:
            yield True
        elif where == at or rule in PAIRED or where == at - 1:
            yield False
        else:
            # behind a use of what is no longer listed there may be a second listing that does not agree
            is_listed = text.rfind("[", 0, at) > text.rfind("]", 0, at)
            yield None if where < at or is_listed else True


def word_places(client, told, chosen, accepted):
    """At some places the words offered are those that the program takes there, less those that a rule refuses."""
    program = Program()
    program.look()
    for number in range(PLACES_OF_WORDS):
        text = chosen.choice(accepted)
        _, at = chosen.choice([one for one in tokens(text) if one[0] in WORDS or one[0] == "}"])
        uri = f"file:///words{number}.rtic"
        client.open(uri, text)
        _, offered = labels(client, uri, text, at)
        client.close(uri)
        taken = {word for word in may_stand(program, text[:at]) if word in WORDS or word in ("fpu", "on")}
        behind = DECLARED if DECLARED & {word for word, other in tokens(text) if other > at} else set()
        told.expect("words offered", f"at {place(text, at)} in {text[:60]!r}: {offered ^ taken}",
                    offered <= taken and taken - offered <= BY_RULE | behind)
    program.folder.cleanup()
