"""Diagnostics: a thread of its own asks the program about the newest texts, and the editor is told what it refuses."""
import threading
import time

from .answers import Asked

ERROR, WARNING = 1, 2
PAUSE = 0.15
SOURCE = "rtic"


def diagnostic(text, uri, finding):
    """A finding as the protocol has it."""
    told = {
        "range": text.range(finding.start, min(finding.start + finding.length, len(text.data))), "source": SOURCE,
        "severity": ERROR if finding.number else WARNING, "message": shown(finding.message),
    }
    if finding.number:
        told["code"] = finding.number
    if finding.notes:
        told["relatedInformation"] = [
            {"location": {"uri": uri, "range": text.range(start, start + length)}, "message": shown(sentence)}
            for sentence, start, length in finding.notes
        ]
    return told


def shown(sentence):
    """A sentence that may have words of a text of one character a byte in it."""
    try:
        return sentence.encode("latin-1").decode("utf-8")
    except UnicodeError:
        return sentence


class Watcher(threading.Thread):
    """Publishes the diagnostics of the newest text of each open document, some time after its last change."""

    def __init__(self, publish):
        super().__init__(daemon=True)
        self.publish = publish
        self.changed = threading.Condition()
        self.due, self.current = {}, {}
        self.is_ended = False

    def look(self, document, pause=PAUSE):
        """A document has a new text: it is looked at after a pause, if there is no newer one by then."""
        with self.changed:
            self.current[document.uri] = (document.version, document.text)
            self.due[document.uri] = time.monotonic() + pause
            self.changed.notify()

    def forget(self, uri):
        """A document is closed: nothing is said of it any more."""
        with self.changed:
            self.current.pop(uri, None)
            self.due.pop(uri, None)
            self.publish(uri, None, [])

    def end(self):
        with self.changed:
            self.is_ended = True
            self.changed.notify()
        self.join()

    def next(self):
        """The next document whose time has come, with its version and text; None at the end."""
        with self.changed:
            while not self.is_ended:
                uri = min(self.due, key=self.due.get, default=None)
                left = self.due[uri] - time.monotonic() if uri else None
                if uri and left <= 0:
                    del self.due[uri]
                    return (uri, *self.current[uri])
                self.changed.wait(left)
        return None

    def is_newest(self, uri, version):
        return not self.is_ended and self.current.get(uri, (None,))[0] == version

    def tell(self, uri, version, text, findings):
        """Publishes findings of a text, if no newer one is there."""
        told = [diagnostic(text, uri, finding) for finding in findings]
        with self.changed:
            if self.is_newest(uri, version):
                self.publish(uri, version, told)

    def run(self):
        asked = Asked()
        try:
            while found := self.next():
                uri, version, text = found
                asked.look()
                for findings in asked.findings(text.data, lambda: self.is_newest(uri, version)):
                    self.tell(uri, version, text, findings)
        finally:
            asked.close()
