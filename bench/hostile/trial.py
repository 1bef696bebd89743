"""Texts made by chance through each command in little stack: random bytes, tokens at random, rows of the tables of
tests that are changed, and each limit at its last value and one past it."""
import random
import re
from collections import Counter

import limits
import rows
from reference import Reference

TOKENS = """
app interrupts shared local monotonic init idle task lock_free binds priority capacity dispatchers bits fpu on with let
if else for in lock emit pend spawn spawn_after cancel reschedule_after now 0 1 2 3 7 8 16 17 255 4294967295 4294967296
0x10 a b c x t s n A B D I0 T ( ) [ ] { } , ; = & .. + - * / % | ^ << >> == != < <= > >= // @ ! . 0x
""".split()
BLANKS = [b" ", b"\n", b"\t", b"\r\n", b" // words\n", b"  "]
HEADS = [b"", b"app a(bits = 3);", b"app a(bits = 4); interrupts { A = 0, B = 1 }",
         b"app a(bits = 4); interrupts { A = 0 } task t(binds = A) {"]
# how many texts of a hundred are of each kind
SHARES = {"random bytes": 6, "random bytes in a row": 4, "tokens": 10, "changed rows": 60, "limits": 8}
SHARES["second texts"] = 100 - sum(SHARES.values())
# what has to come of the whole, where so many texts are made
WANTED_DONE, WANTED_EACH, WHOLE = 2_000, 50, 20_000
NUMBERS = [f"E{number:02}" for number in range(1, 19)]
LONG = 262_145


def random_bytes(draw):
    alphabet = draw.choice([range(256), range(32, 127), b" \n{}();=,&.0123456789abclockemit"])
    return bytes(draw.choice(alphabet) for _ in range(draw.randrange(120)))


def random_tokens(draw):
    words = [draw.choice(TOKENS).encode() for _ in range(draw.randrange(1, 60))]
    between = draw.choice([b" ", b"", b"\n"])
    return draw.choice(HEADS) + between + between.join(words)


def parts_of(text):
    """A text cut into words, blanks and single signs."""
    return re.findall(rb"[A-Za-z0-9_]+|[ \t\r\n]+|.", text, re.S)


def laid_out(draw, text):
    """The same tokens, with other blanks and comments between some of them."""
    parts = parts_of(text)
    for _ in range(draw.randrange(1, 4)):
        place = draw.randrange(len(parts) + 1)
        if place == 0 or parts[place - 1].isspace():
            parts.insert(place, draw.choice(BLANKS))
    return b"".join(parts)


def changed(draw, text, others):
    """A text with one part of it changed, left out, doubled, swapped, or replaced by a part of another text."""
    parts = parts_of(text) or [b""]
    here, there = draw.randrange(len(parts)), draw.randrange(len(parts))
    how = draw.randrange(8)
    if how == 0:
        parts[here] = b""
    elif how == 1:
        parts[here] *= 2
    elif how == 2:
        parts[here], parts[there] = parts[there], parts[here]
    elif how == 3:
        parts[here] = draw.choice(TOKENS).encode()
    elif how == 4:
        parts[here] = draw.choice(parts_of(draw.choice(others)) or [b""])
    elif how == 5:
        parts[here] = bytes([draw.randrange(256)])
    elif how == 6:
        return text[: draw.randrange(len(text) + 1)]
    else:
        digits = [place for place, part in enumerate(parts) if part.isdigit()]
        if digits:
            parts[draw.choice(digits)] = draw.choice([b"0", b"1", b"2", b"9", b"16", b"17", b"255", b"4294967295"])
    return b"".join(parts)


class Texts:
    """A source of texts, the same for the same seed."""

    def __init__(self, seed):
        self.draw = random.Random(seed)
        self.groups = rows.applications()
        self.all = [text for texts in self.groups.values() for text in texts]
        self.seconds = {"run": rows.seconds("scripts"), "audit": rows.seconds("audits"), "times": rows.limits(),
                        "verify": rows.listings()}
        self.limits = limits.LIMITS

    def application(self, kind):
        draw = self.draw
        if kind == "random bytes":
            return random_bytes(draw)
        if kind == "tokens":
            return random_tokens(draw)
        if kind == "limits":
            return laid_out(draw, draw.choice(self.limits)(draw))
        # each refusal as often as any other, and texts that are accepted five times as often
        text = draw.choice(self.groups[draw.choice(sorted(self.groups) + [""] * 5)])
        if kind == "random bytes in a row":
            place = draw.randrange(len(text) + 1)
            return text[:place] + random_bytes(draw)[: draw.randrange(1, 9)] + text[place:]
        for _ in range(draw.choice([0, 0, 0, 0, 1, 1, 2, 4])):
            text = changed(draw, text, self.all)
        return laid_out(draw, text)

    def second(self):
        """A command with a second text, an application, and that text changed."""
        word = self.draw.choice(sorted(self.seconds))
        app, text = self.draw.choice(self.seconds[word])
        others = [other for _app, other in self.seconds[word]]
        for _ in range(self.draw.choice([0, 1, 1, 2])):
            text = changed(self.draw, text, others)
        return word, app, text

    def long(self):
        """A text of one byte too many."""
        text = self.draw.choice(self.all)
        return text + self.draw.choice([b" ", b"x", b"(", b"\n", b"\xff"]) * (LONG - len(text))


class Trial:
    """Texts through the commands that the program knows."""

    def __init__(self, commands, starter, told, reference):
        self.words = {ready.command.word: ready.command for ready in commands if ready.command.files}
        self.starter, self.told, self.reference = starter, told, reference
        self.numbers, self.done, self.statuses = Counter(), 0, Counter()
        self.empty, self.steps = starter.write("empty", b""), starter.write("steps", b"step 40\n")
        self.good = starter.write("good", b"app good(bits = 3);\ninterrupts {}\n")

    def ended(self, words, text):
        """How the program ends; a signal, a byte on standard error or an unknown status is a difference."""
        ended = self.starter.ended(words)
        self.statuses[words[0], ended.status] += 1
        if ended.error or ended.status not in (0, 1, 2, 3, 4):
            self.differs(words, text, f"status {ended.status}, {ended.error[:80]!r}")
        return ended

    def differs(self, words, text, how):
        kept = repr(text) if len(text) < 2_000 else f"{text[:200]!r} and so on, {len(text)} bytes"
        self.told.differs(f"{words[0]}: {how}: {kept}")

    def wrong(self, words, text, ended, wanted):
        """An answer that is not the one that is wanted."""
        status, output = wanted
        self.differs(words, text, f"{ended.status} {ended.output[-80:]!r}, not {status} {output[-80:]!r}")

    def words_on(self, command, path):
        """The words of a command on an application, with other texts that are accepted."""
        others = {"script": self.steps, "trace": self.empty, "limits": self.empty, "second": self.good}
        files = [others.get(name, path) for name in command.files]
        return [command.word, *files, *("1" for _ in command.numbers)]

    def through_all(self, text):
        """An application through each command: one refusal for all, and the reference's."""
        path = self.starter.write("text", text)
        checked, printed = self.ended(["check", path], text), self.ended(["fmt", path], text)
        self.numbers[rows.told_by(checked.output)] += 1
        self.done += checked.status == 0
        for ended, word in ((checked, "check"), (printed, "fmt")):
            wanted = self.reference.answer([word, text])
            if wanted and wanted != (ended.status, ended.output):
                self.wrong([word], text, ended, wanted)
        for word, command in self.words.items():
            if word in ("check", "fmt"):
                continue
            ended = self.ended(self.words_on(command, path), text)
            if word == "verify":
                self.compare(["verify", text], ended, text)
            elif checked.status == 1 and (ended.status, ended.output) != (1, checked.output):
                self.differs([word], text, f"{ended.status} {ended.output[-80:]!r}, not the refusal of check")
            elif checked.status == 0 and ended.status not in (0, 4):
                self.differs([word], text, f"status {ended.status} of an accepted text")
        if "pair" in self.words and checked.status == 1:
            ended = self.ended(["pair", self.good, path, self.steps], text)
            if (ended.status, ended.output) != (1, b"second " + checked.output):
                self.differs(["pair"], text, f"{ended.status} {ended.output[-80:]!r}, not the refusal of check")

    def compare(self, words, ended, text):
        """The whole answer of a command, of which nothing is free, beside the reference's."""
        wanted = self.reference.answer(words)
        if wanted and wanted != (ended.status, ended.output):
            self.wrong(words, text, ended, wanted)

    def through_second(self, word, app, text):
        """A second text through the commands that read such a one. `verify` reads it alone."""
        if word not in self.words:
            return
        if word == "verify":
            self.compare([word, text], self.ended([word, self.starter.write("text", text)], text), text)
            return
        paths = [self.starter.write("app", app), self.starter.write("text", text)]
        ended = self.ended([word, *paths], text)
        if word != "run":
            self.compare([word, app, text], ended, text)
            return
        wanted = self.reference.script_refusal(app, text)
        if wanted is not None and wanted != (ended.output if ended.status == 3 else b""):
            self.differs([word], text, f"{ended.status} {ended.output[-80:]!r}, not {wanted!r}")
        other = self.ended(["live", *paths], text)
        if other.status != ended.status or ended.status == 3 and other.output != ended.output:
            self.differs(["live"], text, f"status {other.status} and not that of run")


def through_limits(trial, starter, told):
    """The limits of second texts, and one past them; and traces of the greatest length, which are made of holes."""
    for word, text in limits.SECONDS:
        trial.through_second(word, limits.SMALL, text())
    app, path = starter.write("app", limits.SMALL), starter.path("long")
    for size, line in limits.LONG_TRACES:
        with open(path, "wb") as to:
            to.truncate(size)
        ended = starter.ended(["audit", app, path])
        if (ended.status, ended.output) != (3, line):
            told.differs(f"a trace of {size} bytes: {ended.status} {ended.output!r}")
    told.says(f"texts: {len(limits.SECONDS) + len(limits.LONG_TRACES)} second texts at their limits and one past them")


def through_all(commands, starter, told, asked):
    """So many texts through each command."""
    reference = Reference(asked.reference)
    told.says(f"texts: {reference.said}; {starter.stack()} KiB of stack")
    source = Texts(asked.seed)
    trial = Trial(commands, starter, told, reference)
    through_limits(trial, starter, told)
    kinds = source.draw.choices(list(SHARES), SHARES.values(), k=asked.texts)
    for number, kind in enumerate(kinds):
        if number % (WHOLE // WANTED_EACH // 2) == 0:
            trial.through_all(source.long())
        elif kind == "second texts":
            trial.through_second(*source.second())
        else:
            trial.through_all(source.application(kind))
    told.says(f"texts: {len(kinds)}, of which {trial.done} are accepted; "
              + ", ".join(f"{number} {trial.numbers[number]}" for number in NUMBERS))
    told.says("texts: statuses: " + ", ".join(f"{word} {status}: {count}" for (word, status), count in
                                              sorted(trial.statuses.items())))
    few = [number for number in NUMBERS if trial.numbers[number] < WANTED_EACH]
    if asked.texts >= WHOLE and (few or trial.done < WANTED_DONE):
        told.differs(f"too few texts are accepted, or refused with {' '.join(few)}")
