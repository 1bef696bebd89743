"""A document in parts: what is said, what is quoted, and what is shown."""
import re

from documenting.tree import ROOT

QUOTED = re.compile(r"`([^`]+)`")
FENCE = re.compile(r"\s*```")
LINK = re.compile(r"\]\(([^)\s]+)\)")


class Page:
    """A document, by its path from the root."""

    def __init__(self, path, text=None):
        self.path = path
        self.text = (ROOT / path).read_text(encoding="utf-8") if text is None else text
        self.lines = self.text.split("\n")
        self.shown = shown_lines(self.lines)

    def said(self):
        """Its lines with their numbers, without those that are shown."""
        return [(number, line) for number, line in enumerate(self.lines, 1) if not self.shown[number - 1]]

    def parts(self):
        """Its paragraphs and rows of tables, each with the number of its first line."""
        found, begun = [], True
        for number, line in self.said():
            if not line.strip():
                begun = True
            elif begun or line.startswith(("|", "#", "- ", "* ")):
                found.append([number, line])
                begun = line.startswith(("|", "#"))
            else:
                found[-1][1] += "\n" + line
        return found

    def headings(self):
        """The names by which a link reaches its headings."""
        kept = [line.lstrip("#").strip() for _, line in self.said() if re.match(r"#+ ", line)]
        return {re.sub(r"[^\w\- ]", "", head.replace("`", "").lower()).replace(" ", "-") for head in kept}

    def links(self):
        """The targets of its links, each with the number of its line."""
        return [(number, target) for number, line in self.said() for target in LINK.findall(line)]

    def prose(self):
        """Its words without quoted ones, and without what is shown."""
        return " ".join(QUOTED.sub(" ", part) for _, part in self.parts())


def shown_lines(lines):
    """For each line whether it is shown: inside a fence, or indented after an empty line."""
    shown, fenced, after_gap, block = [], False, True, False
    for line in lines:
        if FENCE.match(line):
            fenced = not fenced
            shown.append(True)
            continue
        indented = line.startswith("    ") and line.strip() != ""
        block = (indented and (block or after_gap)) or (block and not line.strip())
        shown.append(fenced or (block and indented))
        after_gap = not line.strip()
    return shown
