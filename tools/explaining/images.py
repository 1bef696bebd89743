"""Refused listings, and images that break a rule: what is wrong, and what is due."""
import re

from . import rows
from .advice import advised_line
from .listing import image_of
from .points import TooMany
from .scripts import Line
from .seven import least_broken
from .table import Phrase

APPLICATION = re.compile(r"(?:\s|//[^\n]*\n)*app\b")
TRACE = re.compile(r"\d+ [a-z]+\b")
SCRIPT = re.compile(r"(?:#[^\n]*\n|\s)*(?:step|tick|pend|device) ")


def image_line(number, lines, line, front, ended, size, table, takes):
    """What is wrong with the first line of a listing with which the lines begin none; its text has this beginning, and
    its last line has its line feed or not."""
    source = lines[line - 1] if line <= len(lines) else ""
    said = Line(source)
    key = f"image {number}"
    said.cause = table.cause(key, A=Phrase(f"{size:,}"))
    said.helps = [table.mending(key)]
    if number == 2 and not front.startswith("image "):
        other_text(said, front)
    elif number == 2 and source.endswith("\r"):
        said.cause = "the line ends with a carriage return, and a line feed alone is due"
    elif number == 2 and source != " ".join(source.split()):
        said.cause = "words are separated by one space, with none before the first or after the last"
    elif number == 2 and (cause := rows.cause_of(lines, line, ended)):
        said.cause, said.helps = cause[0], list(cause[1:])
        if meant := rows.meant(source):
            said.helps[:0] = filter(None, [advised_line(takes, meant)])
    return said


def other_text(said, front):
    """What a text is that is no listing, where its beginning tells."""
    if APPLICATION.match(front):
        said.cause = "an application begins so, and the listing of an image is due"
        said.helps = ["`rtic build APP > LISTING` makes one, and `rtic verify LISTING` judges it"]
    elif SCRIPT.match(front):
        said.cause = "a script begins so, and the listing of an image is due"
    elif TRACE.match(front):
        said.cause = "a trace begins so, and the listing of an image is due"
    elif front.startswith(("#", "//", ";", "--")):
        said.cause = "a listing has no comments, and its first line is `image ..`"
        said.helps = []
    else:
        said.cause = "the first line is `image 1 BITS STACK THREAD CODE CELLS`, or `image 2 ..` with the extended frame"
        said.helps = []


def broken(text, number):
    """The breach of the rule that the program named, or a sentence that says why none is shown."""
    try:
        found, breach = least_broken(image_of(text))
    except TooMany:
        return None, "where, is not looked for: the image has too many points"
    if found != number:
        return None, f"where, is not known: the walk through the image finds {found or 'no rule broken'}"
    return breach, None
