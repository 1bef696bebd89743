"""What a campaign came to, as people read it: the six lines of `soak`, and the tables and lines below."""
from viewing.summary import ABSENT, column

from .tally import six_lines


def named(run):
    """A run as the words of `tools/replay`."""
    return ABSENT if run is None else "{} {}".format(*run)


def lost_rows(title, of, lost, table, names):
    """A table of what was lost, with a heading; names are the order, and what each is called."""
    heads = (title, of, lost, "in runs", "first in", "most in one run", "that is")
    rows = [(names[name], one.of, one.times, one.runs, named(one.first), one.most, named(one.worst))
            for name in names for one in [table.get(name)] if one is not None]
    if not rows:
        return []
    columns = [column(heads, rows, number) for number in range(len(heads))]
    return [""] + ["  ".join(texts).rstrip() for texts in zip(*columns)]


def deepest_lines(deepest, application):
    """The lines on the greatest depth: where it is, and the handlers inside each other there, the first taken first."""
    chain = ["  " + application.served(interrupt) for interrupt in deepest.chain]
    return [f"deepest: {deepest.depth} bytes, first in run {named(deepest.run)}, at the take of step {deepest.step}",
            *chain]


def looked_lines(tally, application):
    """What is said of runs that were looked at one by one."""
    tasks = {task.name.text: task.name.text for task in application.tree.tasks if task.is_software}
    interrupts = {task.binds.text: application.served(task.binds.text) for task in application.tree.tasks if task.binds}
    lines = lost_rows("messages to", "sent", "full", tally.full, tasks)
    lines += lost_rows("requests of", "requests", "merged", tally.merged, interrupts)
    if tally.deepest is not None:
        lines += ["", *deepest_lines(tally.deepest, application)]
    return lines


def counted_lines(full, deepest, application):
    """What is said of runs that were only counted: two tallies of one run each, the first full and the deepest one."""
    lines = [""]
    if full is None:
        lines.append("full: no message found its places out")
    else:
        tasks = ", ".join(f"{task} {lost.times}" for task, lost in full.full.items() if lost.times)
        run = next(lost.first for lost in full.full.values() if lost.times)
        lines.append(f"full: first in run {named(run)}: {tasks}")
    if deepest is not None:
        lines += deepest_lines(deepest.deepest, application)
    return lines + ["merged: not known, because these runs were only counted (leave --count out)"]


def shown(tally, lines, replay):
    """The whole answer as text; `replay` is the call that writes the script of a run."""
    return six_lines(tally.counts) + "".join(line + "\n" for line in [*lines, "", f"a run as a script: {replay}"])
