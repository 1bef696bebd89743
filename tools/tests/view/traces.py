"""What the tests of `tools/view` count in the lines of a trace by themselves, without the view."""


def trace(path):
    """The items of an output as step and words, and the total."""
    with open(path, encoding="ascii") as file:
        return items_of(file.read())


def items_of(text):
    """The same of a text."""
    lines = text.rstrip("\n").split("\n")
    lines = lines[lines.index("trace") + 1:] if lines[0].startswith("image ") else lines
    items = [line.split(" ", 1) for line in lines if not line.startswith("total ")]
    total = [int(line.split()[1]) for line in lines if line.startswith("total ")]
    return [(int(step), what) for step, what in items], total[0] if total else None


def spans_of_jobs(items):
    """The jobs of a trace by their takes and returns: interrupt, begin, end."""
    stack, jobs = [], []
    for step, what in items:
        words = what.split()
        if words[0] == "take":
            stack.append((words[1], step))
        elif words[0] == "ret":
            jobs.append((*stack.pop(), step + 1))
    return jobs


def sections_of(items):
    """The sections by their enters and leaves: name, begin, end; those that are left."""
    stack, found = [[]], set()
    for step, what in items:
        words = what.split()
        if words[0] == "take":
            stack.append([])
        elif words[0] == "ret":
            stack.pop()
        elif words[0] == "enter":
            stack[-1].append((words[1], step))
        elif words[0] == "leave":
            found.add((*stack[-1].pop(), step + 1))
    return found


def runner_at(items, total):
    """Who runs in each step: an interrupt, or the thread."""
    stack, runners = ["the thread"], []
    steps = {}
    for step, what in items:
        words = what.split()
        if words[0] in ("take", "ret"):
            steps[step] = words
    for step in range(total):
        words = steps.get(step, ("", ""))
        if words[0] == "take":
            stack.append(words[1])
        runners.append(stack[-1])
        if words[0] == "ret":
            stack.pop()
    return runners


def task_at(items, total):
    """Who runs in each step: as `runner_at`, but for a dispatcher `start TASK`, the task whose message it starts."""
    stack, steps, begun, names = ["the thread"], [], {}, {}
    for step, what in items:
        words = what.split()
        if words[0] == "take":
            begun[len(stack)] = step
            stack.append(words[1])
        elif words[0] == "start":
            names[begun[len(stack) - 1]] = " ".join(words[:2])
        elif words[0] == "ret":
            stack.pop()
    takes = {step: names.get(step, what.split()[1]) for step, what in items if what.startswith("take ")}
    returns = {step for step, what in items if what.startswith("ret ")}
    stack = ["the thread"]
    for step in range(total):
        if step in takes:
            stack.append(takes[step])
        steps.append(stack[-1])
        if step in returns:
            stack.pop()
    return steps


def merged_in(items):
    """The step, the word and the interrupt of each `pend` and `post` that finds its interrupt pending."""
    bits, found = set(), []
    for step, what in items:
        words = what.split()
        if words[0] in ("pend", "post"):
            if words[1] in bits:
                found.append((step, *words))
            bits.add(words[1])
        elif words[0] == "take":
            bits.discard(words[1])
    return found


def requests_in(items, timer):
    """For each interrupt its requests, those that found it pending, whether it is pending at the end, and the steps.

    A request by software or by an alarm comes with a step, so it counts behind that step; `timer` is the interrupt of
    the monotonic. What comes during `init` has the step at which `init` ends.
    """
    bits, found, early, time_is_due = set(), {}, [], False
    for step, what in items:
        words = what.split()
        name = {"pend": words[-1], "post": words[-1], "alarm": timer}.get(words[0])
        if words[0] == "take":
            bits.discard(words[1])
        if what == "end init":
            for row in early:
                row[2][:] = [step + 1]
            early = None
        if name is not None:
            row = found.setdefault(name, [0, 0, []])
            row[0] += 1
            row[1] += name in bits
            bits.add(name)
            row[2].append(step + (words[0] == "post" or words[0] == "alarm" and not time_is_due))
            if early is not None:
                early.append(row)
        time_is_due = words[0] == "tick"
    return {name: (all_of, merged, int(name in bits), steps) for name, (all_of, merged, steps) in found.items()}
