"""An independent implementation, the package `rticref` in a folder that is named on the command line. Nothing of it is
in this repository; where no folder is named there is none, and no answer is compared with it."""
import importlib
import sys

STAGE = "r20"


class Reference:
    """Answers on texts in memory, or None where there is no such implementation."""

    def __init__(self, folder):
        self.folder = folder
        if not folder:
            self.said = ("NO REFERENCE IS GIVEN: refusals are compared among the commands alone, and with no other "
                         "implementation's")
            return
        sys.path.insert(0, folder)
        sys.setrecursionlimit(20_000)
        self.cli = importlib.import_module("rticref.cli")
        self.script = importlib.import_module("rticref.script")
        self.rules = importlib.import_module("rticref.rules")
        self.cli.set_stage(STAGE)
        self.said = "refusals are compared with those of rticref"

    def answer(self, words):
        """The status and the bytes of a command whose words after the first are the texts themselves."""
        if not self.folder:
            return None
        return self.cli.rtic([words[0]] + ["text"] * (len(words) - 1), lambda word, limit: words[word - 1][: limit + 1])

    def script_refusal(self, app, text):
        """The line of a script's refusal, and an empty one where there is none."""
        if not self.folder:
            return None
        try:
            self.script.read_script(text, self.rules.accept(app).names())
        except self.script.ScriptRefused as refused:
            return refused.text()
        return b""
