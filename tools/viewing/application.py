"""What is known of an application from the listing of its image and from what `check` printed of it."""
from .told import NOT_A_RUN, Told

THREAD, HARDWARE, SOFTWARE = "thread", "hardware", "software"
DISPATCHER, TIMER, UNSERVED = "dispatcher", "timer", "unserved"
WORD = 4

# The row of the thread that waits, where there is no `idle`; no task can have this name.
WAITING = "the thread"


class Task:
    """A task, a dispatcher, the timer handler, `init` or `idle`: its interrupt, priority and bounds, where known.

    `cost` is in core steps, `frame` in words, `capacity` in messages; None is what is not known.
    """

    def __init__(self, name, kind, interrupt=None, priority=None):
        self.name = name
        self.kind = kind
        self.interrupt = interrupt
        self.priority = priority
        self.cost = None
        self.frame = None
        self.capacity = None
        self.call = None

    def is_software(self):
        """Whether it takes messages."""
        return self.kind == SOFTWARE


class Application:
    """The tasks by the highest priority first, and the bounds of `check`.

    `interrupts` says which task serves an interrupt: for a dispatcher's it is the dispatcher. `software` has the tasks
    that take messages by their names. `thread_bytes` is the stack of `init` and `idle`.
    """

    def __init__(self, report):
        self.report = report
        self.tasks = []
        self.interrupts = {}
        self.software = {}
        self.thread_bytes = 0
        self.listed = False
        self.waits = False

    def add(self, task):
        """Adds a task, with its bounds from `check`."""
        if self.report is not None:
            self.bound(task)
        self.tasks.append(task)
        if task.kind == SOFTWARE:
            self.software[task.name] = task
        elif task.interrupt is not None:
            self.interrupts[task.interrupt] = task
        return task

    def bound(self, task):
        """What `check` printed of a task; dispatchers and the timer handler have no lines of their own."""
        if task.kind in (THREAD, HARDWARE, SOFTWARE):
            task.cost = self.report.costs.get(task.name)
            task.frame = self.report.frames.get(task.name)

    def is_unknown(self, name):
        """Whether `check` was read and has no task of a name."""
        return self.report is not None and name not in self.report.costs

    def wait(self, task):
        """The waiting bound of a task's priority, in core steps of lower tasks."""
        return self.report.waits.get(task.priority) if self.report is not None else None


class Image:
    """The lines of a listing: sizes, interrupts in their order, bodies of software tasks, capacities and code."""

    def __init__(self, lines):
        self.bits, self.stack, self.thread = (int(word) for word in lines[0].split()[2:5])
        self.interrupts = []
        self.bodies = []
        self.places = {}
        self.code = []
        readers = {"irq": self.irq, "body": self.body, "cell": self.cell, "code": self.instruction}
        for line in lines[1:]:
            words = line.split(" ")
            readers[words[0]](words)

    def irq(self, words):
        """An interrupt, its logical priority or None, and its entry."""
        served = words[3] != "-"
        priority = (1 << self.bits) - (int(words[3]) >> (8 - self.bits)) if served else None
        self.interrupts.append((words[1], priority, int(words[4]) if served else None))

    def body(self, words):
        """The body of a software task: its name and its frame in words."""
        self.bodies.append((words[1], int(words[3])))

    def cell(self, words):
        """A place for messages of a task is a cell `free.TASK.NUMBER`."""
        parts = words[3].split(".")
        if parts[0] == "free" and parts[-1].isdigit():
            self.places[parts[1]] = self.places.get(parts[1], 0) + 1

    def instruction(self, words):
        """An instruction and its note, as words."""
        cut = words.index(";") if ";" in words else len(words)
        self.code.append((words[2:cut], words[cut + 1:]))

    def notes(self, entry):
        """The notes from an entry up to the next one."""
        entries = sorted(row[2] for row in self.interrupts if row[2] is not None and row[2] > entry)
        for _, note in self.code[entry:entries[0] if entries else len(self.code)]:
            if note:
                yield note

    def first_section(self, entry):
        """The section that the code at an entry enters first, or none."""
        return next((note[1] for note in self.notes(entry) if note[0] == "enter"), "")

    def call(self, name):
        """Steps after a task's `leave free` in its dispatcher, up to the call of its body; None if not told."""
        number = [body for body, _ in self.bodies].index(name)
        for at, (words, _) in enumerate(self.code):
            if words[:2] == ["call", str(number)]:
                return self.steps_before(at, name)
        return None

    def steps_before(self, at, name):
        """Steps from the nearest `leave free` before an address to it, where no jump is between."""
        for back in range(at - 1, -1, -1):
            words, note = self.code[back]
            if note == ["leave", "free." + name]:
                return at - back
            if words[0] in ("jump", "jumpz", "ret", "back"):
                return None
        return None


def read_image(name, lines):
    """The image of a listing; a listing that is none is told."""
    try:
        return Image(lines)
    except (KeyError, IndexError, ValueError) as failure:
        raise Told(NOT_A_RUN, f"{name}: its listing is not one of `rtic`") from failure


def application_of(output, report):
    """What is known of the application whose output and report these are; the report may be None."""
    application = Application(report)
    if output.listing:
        image = read_image(output.name, output.listing)
        agree(output.name, image, report)
        of_image(application, image)
    costs = report.costs if report is not None else {}
    application.add(Task("idle" if "idle" in costs else WAITING, THREAD, None, 0))
    if report is None or "init" in costs:
        application.add(Task("init", THREAD, None, 0))
    return application


def agree(name, image, report):
    """Tells where the listing and the report are of two applications."""
    if report is None:
        return
    tasks = [row for row in report.frames if row not in ("init", "idle")]
    served = [row for row in image.interrupts if row[1] is not None]
    if image.stack != report.stack:
        why = f"the image has {image.stack} bytes of stack, and `check` says {report.stack}"
    elif any(report.frames.get(body) != frame for body, frame in image.bodies):
        why = "their software tasks differ"
    elif len(tasks) - len(image.bodies) > len(served):
        why = "`check` has more hardware tasks than the image serves interrupts"
    else:
        return
    raise Told(NOT_A_RUN, f"{name} and the output of `check` are of two applications: {why}")


def of_image(application, image):
    """Adds the tasks of an image, by priority; hardware tasks come first in the code, in their order."""
    report = application.report
    application.listed = application.waits = True
    application.thread_bytes = WORD * image.thread
    served = sorted((row for row in image.interrupts if row[1] is not None), key=lambda row: row[2])
    bodies = [name for name, _ in image.bodies]
    names = [name for name in report.frames if name not in ("init", "idle", *bodies)] if report is not None else None
    tasks, dispatchers = [], {}
    for number, (interrupt, priority, entry) in enumerate(served):
        if image.first_section(entry).startswith("ready."):
            tasks.append(Task("dispatcher", DISPATCHER, interrupt, priority))
            for note in image.notes(entry):
                if note[0] == "start":
                    dispatchers[note[1]] = (interrupt, priority)
        elif names is not None and number >= len(names) or is_timer(image, entry):
            tasks.append(Task("timer queue", TIMER, interrupt, priority))
        else:
            tasks.append(Task(names[number] if names is not None else interrupt, HARDWARE, interrupt, priority))
    for name, frame in image.bodies:
        tasks.append(software_task(image, name, frame, dispatchers.get(name, (None, None))))
    for task in sorted(tasks, key=lambda task: (-(task.priority or 0), task.kind == DISPATCHER)):
        application.add(task)
    for interrupt, priority, _ in image.interrupts:
        if priority is None:
            application.add(Task(interrupt, UNSERVED, interrupt))


def is_timer(image, entry):
    """Whether the code at an entry lets messages fire, as the monotonic's handler alone does."""
    return any(note[0] == "fire" for note in image.notes(entry))


def software_task(image, name, frame, dispatcher):
    """A task that takes messages, with its dispatcher's interrupt and priority."""
    task = Task(name, SOFTWARE, *dispatcher)
    task.frame = frame
    task.capacity = image.places.get(name)
    task.call = image.call(name)
    return task
