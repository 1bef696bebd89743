#!/usr/bin/env python3
"""Writes an application text to standard output, for bench/run and bench/stack.

    python3 texts.py natural BYTES       as people write: long names, comments, indentation, just so many bytes
    python3 texts.py dense BYTES         no blank where none is needed, an expression in each statement, so many bytes
    python3 texts.py hardware BYTES      the same, each task bound to an interrupt of its own
    python3 texts.py variables N         tasks with N variables in scope, as long for each N up to 930
    python3 texts.py parentheses N       an expression with N open parentheses
    python3 texts.py operands N          the same, with an operator in front of some of them
    python3 texts.py nested N            N blocks inside each other
    python3 texts.py statements N        a body of N statements
    python3 texts.py locks N             N blocks inside each other, all but the first of locks, round the deepest
                                         expression
    python3 texts.py ways N              the same with locks, choices and loops in turn, in `init`, `idle` and handlers
    python3 texts.py messages N          the same round messages whose values are the deepest expressions
"""

import sys

NATURAL_HEAD = """\
// The controller of a pump: it samples the level of the tank, and drives the motor.
app pump_controller(bits = 4, dispatchers = [SPARE_LINE]);

interrupts { LEVEL_SENSOR = 3, FLOW_METER = 5, SPARE_LINE = 7 }

"""
NATURAL_TASK = """\
// Takes one sample of channel {0}, and smooths it.
task sample_channel_{0}(priority = 1) {{
    let last_reading = {0};            // what the sensor gave before
    let smoothed_level = last_reading * 3 + {0};
    let threshold_value = 0;
"""
NATURAL_PART = """\
    for round_{0} in 0..4 {{
        // Each round halves what is left of the difference.
        smoothed_level = (smoothed_level + last_reading) / 2;
        if smoothed_level > 0x3ff {{
            smoothed_level = 1023;     // no sensor gives more
        }} else {{
            smoothed_level = smoothed_level + round_{0};
        }}
    }}
    threshold_value = last_reading + (smoothed_level >> 2);
    if threshold_value >= 512 {{
        emit threshold_value & 0xff;
    }}
"""
NATURAL_END = "    emit smoothed_level;\n}\n\n"
DENSE_TASK = "task t{0}{{let x={0};let y=2;"
DENSE_PART = "x=(x+y*3)<<1;" * 8
SMALL_HEAD = "app bench(bits = 4, dispatchers = [A]); interrupts { A = 3 } "


def filled(size, head, tasks, first, part, end):
    """A text of so many bytes: the head, so many tasks that are filled with parts, and blanks at the end."""
    share = (size - len(head)) // tasks
    text = [head]
    for task in range(tasks):
        body, count = first.format(task), 0
        while count < 100 and len(body) + len(part.format(count)) + len(end) <= share:
            body += part.format(count)
            count += 1
        text.append(body + end)
    return "".join(text).ljust(size - 1) + "\n"


def natural(size):
    return filled(size, NATURAL_HEAD, 60, NATURAL_TASK, NATURAL_PART, NATURAL_END)


def dense(size):
    head = SMALL_HEAD.replace(" = ", "=").replace("; ", ";").replace(", ", ",").replace(" { ", "{").replace(" } ", "}")
    return filled(size, head, 32, DENSE_TASK, DENSE_PART, "}")


def hardware(size):
    head = f"app bench(bits=4);interrupts{{{','.join(f'I{number}={number}' for number in range(32))}}}"
    return filled(size, head, 32, DENSE_TASK.replace("{{", "(binds=I{0}){{"), DENSE_PART, "}")


def variables(count):
    text = SMALL_HEAD
    for task in range(12):
        names = [f"v{number if number < count else 0:03}" for number in range(930)]
        lines = [f"{'let' if number < count else '   '} {name} = 1234; " for number, name in enumerate(names)]
        text += f"task t{task} {{ {''.join(lines)}{names[-1]} = {names[0]}; }} "
    return text + "\n"


def idle(body):
    return f"app bench(bits = 4); interrupts {{ A = 3 }} idle {{ {body} }}\n"


def parentheses(count):
    return idle(f"emit {'(' * count}1{')' * count};")


def operands(count):
    opened = "".join("(1 + " if number % 5 == 0 else "(" for number in range(count))
    return idle(f"emit {opened}1{')' * count};")


def nested(count):
    inner = count - 1
    return idle(f"let x = 0; {'if x { ' * inner}x = 1; {'} ' * inner}")


def statements(count):
    return idle("let x = 0; " + "x = x + 1; " * (count - 1))


def deepest(value="1"):
    """An expression of the greatest depth, 16, with as many open parentheses as may be, 64."""
    opened = "".join("(1 + " if number % 4 == 0 and number < 60 else "(" for number in range(64))
    return f"{opened}{value}{')' * 64}"


def inside(count, kinds, inner):
    """A block with blocks inside each other, so many with itself, of these kinds in turn, and something in the last."""
    opened = [kinds[number % len(kinds)].format(number) for number in range(count - 1)]
    return "{ " + "".join(f"{form} {{ " for form in opened) + inner + " }" * count


def resources(count):
    """The names of so many resources, as a list declares them and as a body lists them."""
    names = [f"r{number}" for number in range(count)]
    return ", ".join(f"{name} = 0" for name in names), ", ".join(names)


def handlers(count, kinds):
    """An application with two handlers that share all that is locked in them."""
    declared, listed = resources(count - 1)
    deep = inside(count, kinds, f"emit {deepest()};")
    tasks = "".join(f"task t{number}(binds = I{number}, priority = {number}, shared = [{listed}]) {deep}\n"
                    for number in (1, 2))
    return f"app bench(bits = 4); interrupts {{ I1 = 3, I2 = 5 }} shared {{ {declared} }}\n", deep, listed, tasks


def locks(count):
    head, _deep, _listed, tasks = handlers(count, ["lock r{0}"])
    return head + tasks


def ways(count):
    head, deep, listed, tasks = handlers(count, ["lock r{0}", f"if {deepest('2')}", "for i{0} in 0..2"])
    alone = inside(count, [f"if {deepest('3')}", "for i{0} in 0..2"], f"emit {deepest()};")
    return f"{head}init {alone}\nidle(shared = [{listed}]) {deep}\n{tasks}"


def messages(count):
    declared, listed = resources(count - 1)
    values = ", ".join(deepest(value) for value in "1234")
    inner = (f"let h = spawn_after({deepest()}) late({values}); let y = cancel late({deepest()}); "
             f"let x = reschedule_after({deepest()}) late({deepest()}); let z = spawn late({values});")
    body = inside(count, ["lock r{0}", f"if {deepest('2')}", "for i{0} in 0..2"], inner)
    return (f"app bench(bits = 4, dispatchers = [I2]); interrupts {{ I1 = 3, I2 = 5, I3 = 7 }}\n"
            f"monotonic(binds = I3, priority = 3); shared {{ {declared} }}\n"
            f"task early(binds = I1, priority = 2, shared = [{listed}]) {body}\n"
            f"task late(priority = 1, capacity = 2, shared = [{listed}]) with a, b, c, d {body}\n")


if __name__ == "__main__":
    kinds = [natural, hardware, dense, variables, parentheses, operands, nested, statements, locks, ways, messages]
    sys.stdout.write({kind.__name__: kind for kind in kinds}[sys.argv[1]](int(sys.argv[2])))
