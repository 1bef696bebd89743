"""Rows of the tables of commands, by files and standard output: the program ends as the row says, and writes that."""
from commands import COMMANDS
from rows import cases

# the words of a table's rows, where a row has none
TABLES = {"commands": "", "alone": "live app script", "pairs": "pair app second script"}
FILES = {command.word: len(command.files) for command in COMMANDS}
TEXTS = ("app", "second", "third")


def wanted(table, row):
    """The status and the output that a row wants, and None where it does not say all of them."""
    if table != "pairs":
        return int(row["exit"]), row.get("output", b"")
    if "first" in row and "other" in row:
        return 0, b"core 1\n" + row["first"] + b"core 2\n" + row["other"]
    return None


def is_of_files(row):
    """Whether files can do what a row says of its sources and its sink: that all is well, or that the first call fails,
    as with a file that is not there, and with a full device."""
    fails = [row.get(f"{name}_fails", b"").split() for name in (*TEXTS, "out")]
    return "room" not in row and "second_left" not in row and all(calls in ([], [b"0"]) for calls in fails)


def words_on(starter, usual, row):
    """The words of a row, with the paths of its texts in place of their names."""
    words = row.get("words", usual.encode()).decode().split()
    count = FILES.get(words[0], 0) if words else 0
    for place, text in enumerate(TEXTS[:count], 1):
        if place < len(words) and row.get(f"{text}_fails", b"").split():
            words[place] = starter.path("none")
        elif place < len(words):
            words[place] = starter.write(text, row.get(text, b""))
    return words


def rows_on_files(starter, told):
    """The rows that say all of an output, and whose faults are those that files can have."""
    tried = 0
    for table, usual in TABLES.items():
        for number, row in enumerate(cases(table), 1):
            due = wanted(table, row)
            if due is None or not is_of_files(row):
                continue
            tried += 1
            ended = starter.ended(words_on(starter, usual, row), output="/dev/full" if "out_fails" in row else None)
            if (ended.status, ended.output) != due or ended.error:
                told.differs(f"row {number} of {table}: status {ended.status}, not {due[0]}: {ended.output[:80]!r}")
    told.says(f"rows: {tried} rows of {', '.join(TABLES)} by files and standard output: status and output are theirs")
