"""`no N`: the line of the item, who runs there, and what `audit` takes there, by asking it."""
import os

from .replay import Lost, Replay

ARRIVALS_TOLD = 8
ASKED_AT_MOST = 400
LONG = 5.0


class Trace:
    """The lines of a trace's file up to a wrong item, or up to the total, and which of them are items."""

    def __init__(self, path, wrong):
        self.lines, self.items, self.total = [], [], None
        with open(path, encoding="latin-1", newline="\n") as file:
            listed = False
            for number, line in enumerate(file, 1):
                self.lines.append(line.rstrip("\n"))
                listed = self.lines[-1] != "trace" if listed else number == 1 and line.startswith("image ")
                if not listed and self.lines[-1] != "trace" and self.item(number, self.lines[-1], wrong):
                    break

    def item(self, number, line, wrong):
        """Takes a line after the listing, and says whether it is the last one that is looked at."""
        if line.startswith("total "):
            self.total = (number, int(line[6:]))
            return True
        self.items.append((number, line))
        return len(self.items) > wrong

    def step(self, item):
        return int(self.items[item][1].split(" ", 1)[0])

    def what(self, item):
        return self.items[item][1].split(" ", 1)[1]


class Audit:
    """Asks about lines after the items that are right."""

    def __init__(self, program, app_file, trace, wrong):
        self.program, self.app_file = program, app_file
        self.path = os.path.join(program.folder.name, "trace")
        with open(self.path, "w", encoding="latin-1") as file:
            file.writelines(line + "\n" for _, line in trace.items[:wrong])
        self.kept = os.path.getsize(self.path)

    def takes(self, *lines):
        """Whether `audit` takes these lines after them."""
        os.truncate(self.path, self.kept)
        with open(self.path, "a", encoding="latin-1") as file:
            file.writelines(line + "\n" for line in lines)
        status, _ = self.program.ask("audit", self.app_file, self.path)
        return status == 0

    def last_step(self, low, high, form="total {}"):
        """The greatest step at which a line of the form is taken; at `low` one is, at `high` none."""
        reach = 1
        while low + reach < high and self.takes(form.format(low + reach)):
            low, reach = low + reach, 2 * reach
        high = min(high, low + reach)
        while high - low > 1:
            middle = (low + high) // 2
            if self.takes(form.format(middle)):
                low = middle
            else:
                high = middle
        return low


class Asked:
    """What may come after the right items of a trace."""

    def __init__(self, app, audit, trace, wrong, bound):
        self.app, self.audit, self.trace, self.wrong, self.bound = app, audit, trace, wrong, bound
        self.replay, self.lost = Replay(app), False
        try:
            for number, line in trace.items[:wrong]:
                self.replay.item(line.split(" ", 1)[1], number)
        except (Lost, KeyError, IndexError, AttributeError):
            self.lost = True

    def running(self):
        """Who runs after the right items."""
        jobs = [("", 0)]
        ended = False
        for number, line in self.trace.items[: self.wrong]:
            words = line.split(" ")
            ended = ended or words[1:] == ["end", "init"]
            if words[1] == "take":
                jobs.append((words[2], number))
            elif words[1] == "ret":
                jobs.pop()
        name, number = jobs[-1]
        if not name:
            if not ended:
                return "`init` runs here"
            return "`idle` runs here" if self.app.body("idle") else "nothing runs here, the core waits"
        told = "" if self.lost else f": {self.replay.jobs[-1].told}"
        return f"`{name}` runs here, taken in line {number}{told}"

    def item_at(self, step):
        """An item of a job that `audit` takes at a step, with how it is told; or None twice."""
        rows = self.candidates()
        return next(((line, told) for line, told in rows if self.audit.takes(f"{step} {line}")), (None, None))

    def latest(self, first, step):
        """The last step before another at which an item of a job may come, or the last that may pass without one."""
        last = step if self.audit.takes(f"total {step}") else self.audit.last_step(first, step)
        if self.item_at(last)[0]:
            return last
        line, _ = self.item_at(first)
        return self.audit.last_step(first, last, "{} " + line) if line else last

    def here(self, step):
        """The lines that `audit` takes at a step, as they are told: an item of a job, and arrivals."""
        _, shown = self.item_at(step)
        arrivals = []
        names = [row[0].text for row in self.app.interrupts]
        if names and self.audit.takes(*[f"{step} pend {name}" for name in names]):
            arrivals = [f"`pend {name}`" for name in names]
            if len(names) > ARRIVALS_TOLD:
                arrivals = ["`pend I` of each declared interrupt I"]
        if self.audit.takes(f"{step} tick"):
            arrivals.append("`tick`")
        return shown, ", ".join(arrivals)

    def used_up(self):
        """What is said where the running job has an item to come, and no step for it."""
        proposal = None if self.lost else self.replay.proposal()
        if not proposal:
            return None
        return f"`{proposal}` is due, and the steps of the cost are used up: items before came later than they may"

    def candidates(self):
        """Lines to ask of, each with how it is told; the likely ones first."""
        handlers = [row[0].text for row in self.app.interrupts]
        if not self.lost:
            proposal = self.replay.proposal()
            waiting = [name for name in handlers if name in self.replay.pending]
            yield from [("alarm", "`alarm`")] if self.replay.due else []
            yield from [(proposal, f"`{proposal}`")] if proposal else []
            yield from self.takes_of(waiting)
            return
        own = self.trace.what(self.wrong).split(" ") if self.wrong < len(self.trace.items) else []
        rows = list(self.takes_of(handlers)) + [(line, f"`{line}`") for line in self.plain(own)]
        yield from rows[:ASKED_AT_MOST]

    def takes_of(self, names):
        return [(f"take {name} 0", f"`take {name} D`, D at most {self.bound}") for name in names]

    def plain(self, own):
        """Lines of every kind without values, and those with the values of the wrong item."""
        app = self.app
        handlers = [row[0].text for row in app.interrupts]
        tasks = [task.name.text for task in app.tasks if task.is_software]
        queues = [f"free.{task}" for task in tasks] + [f"ready.{level}" for level in app.levels()] + ["timer.0"]
        resources = [row[0].text for row in app.shared]
        found = ["set", "alarm"] + [f"ret {name}" for name in handlers] + [f"post {name}" for name in handlers]
        found += [f"enter {name}" for name in resources + queues] + [f"leave {name}" for name in queues]
        found += [f"{kind} {task}" for kind in ("ok", "full", "ready", "free", "fire", "start") for task in tasks]
        found += [f"end {name}" for name in ["init", "idle"] + tasks]
        if own and own[-1].isdigit():
            found += [f"leave {name} {own[-1]}" for name in resources] + [f"emit {own[-1]}", f"clock {own[-1]}"]
        return found


def item_places(trace, wrong):
    """The step of the item before that has used its step, with its line; or -1."""
    for item in range(wrong - 1, -1, -1):
        kind = trace.what(item).split(" ")[0]
        rings = kind == "alarm" and item and trace.what(item - 1) == "tick"
        if kind not in ("pend", "tick") and not rings:
            return trace.step(item), trace.items[item][0]
    return -1, 0


def unasked(asked, step):
    """What is said of a long trace: what the running job does next, and whether it may do it at the step."""
    proposal = None if asked.lost else asked.replay.proposal()
    if not proposal:
        return []
    if asked.audit.takes(f"{step} {proposal}"):
        return [("help", f"at step {step} `audit` takes: `{proposal}`")]
    return [("help", f"`{proposal}` is next by its body; at which step was not asked, since the audit takes long")]


def told_item(asked):
    """The sentences on an item that is wrong: pairs of a kind and a sentence."""
    trace, wrong = asked.trace, asked.wrong
    step, words = trace.step(wrong), trace.what(wrong).split(" ")
    used, used_line = item_places(trace, wrong)
    last = trace.step(wrong - 1) if wrong else 0
    said = [("note", asked.running())]
    first, long = max(used + 1, last), asked.audit.program.took > LONG
    if step < last or step < used:
        said.append(("cause", f"step {step} has passed: the item before is of step {last}"))
    elif step == used and words[0] not in ("pend", "tick"):
        said.append(("cause", f"step {step} has its item already, in line {used_line}"))
    elif first <= step and not long:
        first = asked.latest(first, step)
        if first < step:
            said.append(("cause", f"step {step} is too late: the next item is due at step {first} at the latest"))
    if words[0] == "take" and int(words[2]) > asked.bound:
        said.append(("cause", f"the depth is above the stack bound of `check`, which is {asked.bound}"))
    if long:
        return said + unasked(asked, max(first, step))
    shown, arrivals = asked.here(first)
    used_up = asked.used_up() if not shown else None
    said += [("cause", used_up)] if used_up else []
    told = "; ".join(part for part in (shown, arrivals) if part)
    return said + ([("help", f"at step {first} `audit` takes: {told}")] if told else [])


def told_total(asked):
    """The sentences on a total that is wrong."""
    trace = asked.trace
    last = trace.step(len(trace.items) - 1) if trace.items else 0
    number, total = trace.total
    used, _ = item_places(trace, len(trace.items))
    least = max(last, used + 1)
    if total < least:
        items = len(trace.items)
        return [("help", f"the total is the number of all core steps, and item {items} comes after {last} of them")]
    if asked.audit.program.took > LONG:
        return []
    said = [("help", f"the greatest total that `audit` takes here is {asked.audit.last_step(least, total)}")]
    due = asked.latest(least, total)
    told = "; ".join(part for part in asked.here(due) if part)
    return said + ([("help", f"at step {due} `audit` takes: {told}")] if told else [])
