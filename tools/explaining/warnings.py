"""Warnings on an accepted application: what is allowed, and seldom meant."""
from .walk import uses_of


class Warnings:
    """The warnings of an application: each has a token, a sentence, helps, and notes with their tokens."""

    def __init__(self, app):
        self.app = app
        self.uses = [(body, use) for body in app.bodies for use in uses_of(body)]
        self.rows = []
        self.tasks()
        self.interrupts()
        self.resources()
        self.dropped()
        self.rows.sort(key=lambda row: row[0].at)

    def warn(self, token, sentence, help_=None, note=None):
        self.rows.append((token, sentence, help_, note))

    def tasks(self):
        """Software tasks that nobody spawns, or only such as never run themselves."""
        spawns = [(body.name.text, use.token.text) for body, use in self.uses if use.role.startswith("spawn")]
        running = {body.name.text for body in self.app.bodies if not body.is_software}
        while more := {name for body, name in spawns if body in running} - running:
            running |= more
        for task in self.app.tasks:
            name = task.name.text
            if task.is_software and name not in running:
                spawned = any(other == name for _, other in spawns)
                who = "nobody that runs" if spawned else "nobody"
                self.warn(task.name, f"{who} spawns the task `{name}`, so it never runs",
                          "a task that an interrupt runs has `binds = I` among its options")

    def interrupts(self):
        app = self.app
        served = {token.text for token in app.dispatchers} | {task.binds.text for task in app.tasks if task.binds}
        served |= {app.monotonic[1].text} if app.monotonic else set()
        pended = {use.token.text for _, use in self.uses if use.role == "pend"}
        for name, _, _ in app.interrupts:
            if name.text not in served and name.text in pended:
                self.warn(name, f"the interrupt `{name.text}` is pended, and no task here binds it",
                          f"alone this application never takes it; as a core of `pair` it requests the `{name.text}` "
                          "of the other core, if that one binds it")
            elif name.text not in served:
                self.warn(name, f"nobody uses the interrupt `{name.text}`")
        levels = len(app.levels())
        told = f"software tasks have {levels}" if levels else "no task is a software task"
        for name in app.dispatchers[levels:]:
            self.warn(name, f"the dispatcher `{name.text}` serves no priority: {told}")

    def resources(self):
        roles = ("read", "assign", "lock")
        for kind, rows in (("shared", self.app.shared), ("local", self.app.local)):
            for name, _, free in rows:
                bodies = [body for body, use in self.uses if use.role in roles and use.token.text == name.text
                          and use.around.variable(name.text) is None]
                listed = [(body, row.name) for body in self.app.bodies for row in body.shared
                          if row.name.text == name.text]
                if not bodies:
                    self.warn(name, f"nobody uses the {kind} resource `{name.text}`", None, self.raised(listed))
                elif kind == "shared" and not listed:
                    self.warn(name, f"only `init` uses the shared resource `{name.text}`")
                elif kind == "shared" and not free:
                    self.one_priority(name, [body for body, _ in listed])

    def raised(self, listed):
        """The note on a resource that is listed for nothing."""
        if not listed:
            return None
        body, token = listed[0]
        return f"it is listed here, by `{body.name.text}`, which raises its ceiling", token

    def one_priority(self, name, bodies):
        """A resource that tasks of one priority list, for writing."""
        if any(body.lists(name.text).by_ref for body in bodies) or len({body.level for body in bodies}) > 1:
            return
        alone = f": it is `{bodies[0].name.text}` alone" if len(bodies) == 1 else ""
        more = "; what one body alone uses can be local" if alone else ""
        self.warn(name, f"all users of `{name.text}` have the priority {bodies[0].level}{alone}",
                  f"what tasks of one priority use can be `lock_free {name.text}`, and needs no lock{more}")

    def dropped(self):
        """Spawns whose answer is dropped in a loop, or more often in one body than there are places: the first ones."""
        sent, warned = {}, set()
        for body, use in self.uses:
            if not (use.role in ("spawn", "spawn_after") and use.dropped and use.around.turns):
                continue
            task = self.app.task(use.token.text)
            key = (body.name.text, task.name.text)
            sent[key] = sent.get(key, 0) + use.around.turns
            told = None
            if use.around.turns > 1:
                told = f"in a loop: {use.around.turns:,} messages"
            elif sent[key] > task.places:
                told = f"and with it there are {sent[key]:,} messages"
            if told and key not in warned:
                warned.add(key)
                self.warn(use.node.word, f"the answer of this spawn is dropped, {told} to `{task.name.text}`, whose "
                          f"capacity is {task.places}",
                          "the answer, the value of `let sent = spawn t(a, b);`, is 0 where no place was left")


def warnings_of(app):
    return Warnings(app).rows
