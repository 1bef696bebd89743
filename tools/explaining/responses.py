"""Warnings on response times: tasks that count for nothing, and requests that may be served as one."""
import re

from .costs import Costs
from .limits import NAME
from .scripts import NUMERAL

TIME = re.compile(r"time (\d+) (\d+|-)\n")
TAKEN = 1


def limits_of(lines):
    """The limits of a text that the program took: interrupts with the numbers of their lines and their distances."""
    rows = {}
    for number, line in enumerate(lines, 1):
        words = line.split()
        if len(words) == 3 and words[0] == "every" and NAME.fullmatch(words[1]) and NUMERAL.fullmatch(words[2]):
            rows[words[1]] = (number, int(words[2]))
    return rows


class Responses:
    """What is seldom meant in an application's limits, with the response times that `times` printed."""

    def __init__(self, app, lines, output):
        self.app, self.limits = app, limits_of(lines)
        self.times = {int(level): time for level, time in TIME.findall(output)}
        self.costs = {task.name.text: Costs(app, 0).body(task) + TAKEN for task in app.tasks}

    def unlimited(self):
        """The tasks whose interrupt has no limit: each with a sentence."""
        rows = [task for task in self.app.tasks if task.binds.text not in self.limits]
        return [(task.binds, f"no line limits `{task.binds.text}`, so it is never requested, and the "
                 f"{self.costs[task.name.text]:,} core steps of `{task.name.text}` count for nothing") for task in rows]

    def merged(self):
        """The limits that are shorter than the response time of their priority: a line, an interrupt and a sentence."""
        for task in self.app.tasks:
            line, distance = self.limits.get(task.binds.text, (0, 0))
            time = self.times.get(task.level, "-")
            if line and time != "-" and int(time) > distance:
                yield line, task.binds.text, (
                    f"a request of `{task.binds.text}` is served within {int(time):,} core steps, and the next may "
                    f"come after {distance:,}: where two come before the handler is entered, they are served as one")

    def overloaded(self):
        """The first priority from above that has no number, with what the requests of it and above ask for; or None."""
        for level in sorted(self.times, reverse=True):
            if self.times[level] == "-":
                rows = [(self.costs[task.name.text], self.limits[task.binds.text][1]) for task in self.app.tasks
                        if task.level >= level and task.binds.text in self.limits]
                asked = sum(cost / distance for cost, distance in rows)
                return level, f"requests of the priority {level} and above ask for {asked:.0%} of all core steps"
        return None
