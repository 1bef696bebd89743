"""The application of a campaign: its text, its declared interrupts, and what serves them."""
import hashlib

from explaining.tree import tree_of
from viewing.told import NOT_READ, REFUSED, Told


class Application:
    """An application by its path. `interrupts` are all that are declared, in order; `bound` are those of tasks."""

    def __init__(self, path):
        self.path = path
        try:
            with open(path, "rb") as file:
                self.data = file.read()
        except OSError as failure:
            raise Told(NOT_READ, f"{path} could not be read: {failure.strerror}") from failure
        try:
            self.tree = tree_of(self.data.decode("latin-1"))
        except (ValueError, IndexError, AttributeError, RecursionError) as failure:
            raise Told(REFUSED, f"{path} is no application: `tools/explain check` says why") from failure
        self.interrupts = [row[0].text for row in self.tree.interrupts]
        self.bound = {task.binds.text for task in self.tree.tasks if task.binds}
        self.digest = hashlib.sha256(self.data).hexdigest()

    def served(self, interrupt):
        """What an interrupt serves, as people name it."""
        task = self.tree.bound_by(interrupt)
        if task:
            return f"{task.name.text} ({interrupt})"
        if self.tree.monotonic and self.tree.monotonic[1].text == interrupt:
            return f"the timer queue ({interrupt})"
        for level, name in zip(self.tree.levels(), self.tree.dispatchers):
            if name.text == interrupt:
                return f"the dispatcher of priority {level} ({interrupt})"
        return interrupt
