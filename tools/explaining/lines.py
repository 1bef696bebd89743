"""`--all`: the refused lines of a script, limits or a trace behind the first one."""
import re

LINE_REFUSAL = re.compile(r"(script|board|trace|limits|image):(\d+) (\d+) ([^\n]*)\n")
MOST = 100
# a line of no form at the end: no script is run while there are others, and no trace is judged
LAST = "?"
COMMENT = "#"
ENDING = {("script", 1), ("script", 4), ("board", 1), ("trace", 1), ("limits", 1)}


def refused_lines(program, words, place, text):
    """Each line that the program refuses once those before it are mended: its number in the text, and the answer."""
    lines = text[: -1 if text.endswith("\n") else None].split("\n")
    numbers = list(range(1, len(lines) + 1))
    for _ in range(MOST):
        files = list(words[1:])
        files[place] = program.file("lines", "\n".join(lines + [LAST]))
        _, output = program.ask(words[0], *files)
        found = LINE_REFUSAL.match(output)
        if not found or int(found[2]) > len(lines):
            return
        which, line, number = found[1], int(found[2]), int(found[3])
        yield numbers[line - 1], number, found[4]
        if (which, number) in ENDING:
            return
        if which == "trace":
            del lines[line - 1], numbers[line - 1]
        else:
            lines[line - 1] = COMMENT
