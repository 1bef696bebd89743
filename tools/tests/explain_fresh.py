#!/usr/bin/env python3
"""Tries tools/explain on the fresh wrong texts of tools/tests/explain/fresh, hundreds that were each written before the
tool was mended for them: what it says of a text must be the sentences that were judged, and a page must be named.

A text: `== COMMAND APPLICATION CLASS`, lines `< ..` with what is replaced in the file (none where the file is whole)
and lines `> ..` with what stands there, then lines `= ..` with each help that must come, and no other. The class is
`help`, or `page` where the section that is named must do; a `!` behind it says that the first answer misled. Tried are
those, and each fifteenth of the others; with the word `all` all are.
"""
import concurrent.futures
import os
import pathlib
import re
import sys
import tempfile
import time
from dataclasses import dataclass

HERE = pathlib.Path(__file__).resolve().parent
EXAMPLES = HERE.parents[1] / "examples"
sys.path.insert(0, str(HERE.parent))
sys.dont_write_bytecode = True

from explaining import pages
from explaining.main import explained_call
from explaining.program import Program, asked_program

FOLDERS = (HERE / "explain" / "apps", EXAMPLES, EXAMPLES / "from_rtic")
SECOND = {"run": ".script", "times": ".limits"}
NAMES = ("app.rtic", "second")
EACH = 15


@dataclass
class Text:
    """A wrong text: the command, the application, the class, the edit, and the helps that are due."""

    command: str
    app: str
    kind: str
    was: str
    put: str
    helps: list

    @property
    def misled(self):
        return self.kind.endswith("!")


def texts_of(path):
    """The texts of a file."""
    for part in re.split(r"^== ", path.read_text(encoding="utf-8"), flags=re.MULTILINE)[1:]:
        head, body = part.rstrip("\n").split("\n", 1)
        command, app, kind = head.split(" ", 2)
        lines = re.sub(r"\n  ", " ", body).split("\n")
        was, put, helps = ([line[2:] for line in lines if line.startswith(sign)] for sign in ("< ", "> ", "= "))
        yield Text(command, app, kind, "\n".join(was), "\n".join(put), helps)


def base(name, suffix):
    """A file of the examples or of the applications of these texts."""
    return next(path for path in (folder / (name + suffix) for folder in FOLDERS) if path.exists()).read_text()


def files_of(text, program):
    """The files of a call, one of them with the edit."""
    if text.command == "verify":
        files = [base(text.app, ".listing")]
    else:
        files = [base(text.app, ".rtic")]
    if text.command == "audit":
        script = program.file("script", base(text.app, ".script"))
        _, output = program.whole("run", program.file("app", files[0]), script)
        files.append(output[output.index("trace\n") + len("trace\n") :])
    elif text.command in SECOND:
        files.append(base(text.app, SECOND[text.command]))
    files[-1] = files[-1].replace(text.was, text.put, 1) if text.was else text.put
    return files


def tried(text):
    """The helps that are said and are not due, those that are due and are not said, and what else is amiss."""
    with tempfile.TemporaryDirectory() as folder:
        os.chdir(folder)
        program = Program(lambda piece: True)
        program.look()
        names = list(NAMES[: len(files := files_of(text, program))])
        for name, content in zip(names, files):
            pathlib.Path(name).write_text(content, encoding="utf-8")
        _, report = explained_call(program, [text.command] + names)
        program.folder.cleanup()
        os.chdir("/")
    said = [line[len("  = help: ") :] for line in report.lines if line.startswith("  = help: ")]
    found = [f"said: {one}" for one in said if one not in text.helps]
    found += [f"not said: {one}" for one in text.helps if one not in said]
    return found + ["no page is named"] * (not any(line.startswith("  = page: ") for line in report.lines))


def sections_amiss():
    """The sections that answers name and that no document has."""
    found = []
    for page, heading in pages.all_sections():
        text = (HERE.parents[1] / "docs" / f"{page}.md").read_text(encoding="utf-8")
        if not re.search(rf"^#+ {re.escape(heading)}$", text, re.MULTILINE):
            found.append(f"no section: {pages.named((page, heading))}")
    return found


def main():
    amiss = sections_amiss()
    print("\n".join(amiss) + "\n" * bool(amiss), end="")
    program = asked_program()
    if program is None:
        print("explain_fresh: skipped: the proved program is not built (./build makes it), and RTIC names no other")
        return 1 if amiss else 0
    os.environ["RTIC"] = os.path.abspath(program)
    texts = [text for path in sorted(HERE.glob("explain/fresh/*.texts")) for text in texts_of(path)]
    if sys.argv[1:] != ["all"]:
        texts = [text for number, text in enumerate(texts) if text.misled or number % EACH == 0]
    begun, wrong = time.monotonic(), 0
    with concurrent.futures.ProcessPoolExecutor(os.cpu_count()) as pool:
        for text, faults in zip(texts, pool.map(tried, texts, chunksize=4)):
            if faults:
                print("\n".join([f"{text.command} {text.app}: {text.put}"] + [f"    {one}" for one in faults]))
            wrong += bool(faults)
    print(f"explain_fresh: {len(texts) - wrong} of {len(texts)} texts are answered as was judged, in "
          f"{time.monotonic() - begun:.1f} s")
    return 1 if wrong or amiss else 0


if __name__ == "__main__":
    sys.exit(main())
