#!/usr/bin/env python3
"""What the tools have copied from the sources of the program, number by number and word by word: limits, costs, words
of the language, ranges of the commands, and the generator's numbers. Nothing is built and nothing is run."""
import os
import re
import sys
from types import SimpleNamespace

TOOLS = os.path.dirname(os.path.dirname(os.path.abspath(__file__)))
sys.dont_write_bytecode = True
sys.path.insert(0, TOOLS)

from documenting.tree import text_of
from explaining import costs, forms, main as explain, neutral, points, recovery, scripts, seven, texts, tokens, words
from serving import documents, renaming
from soaking import command, generated

CONSTANT = re.compile(r"^(?:pub )?const (\w+): \w+ = ([\d_]+);", re.M)
SPELLED = re.compile(r'spells\(text, b"(\w+)"\)')
LIMITS, COSTS = "crates/rt_ids/src/limits.rt", "crates/rt_app/src/costs.rt"
TURNS = 3


def constants(path):
    """The numbers that a file of code gives names."""
    return {name: int(number.replace("_", "")) for name, number in CONSTANT.findall(text_of(path))}


def limits():
    """The copies of limits: what is copied, the copy, and the number in the code."""
    of = constants(LIMITS)
    one_more = {"tasks": "TASKS", "shared": "SHARED", "locals": "LOCALS", "interrupts": "IRQS", "nesting": "NESTING",
                "arguments": "ARGUMENTS", "parentheses": "PARENTHESES", "statements": "STATEMENTS"}
    yield "bytes of a text", tokens.MOST_BYTES, of["TEXT_BYTES"]
    yield "bytes of a text, of the language server", documents.LONGEST, of["TEXT_BYTES"]
    yield "bytes of a trace", explain.SECOND, of["TRACE_BYTES"]
    yield "bytes of a script", scripts.SCRIPT_BYTES, of["SCRIPT_BYTES"]
    yield "events of a script", scripts.EVENTS, of["SCRIPT_EVENTS"]
    yield "numbers of interrupts", neutral.NUMBERS, of["IRQ_NUMBERS"]
    yield "the thread's value", points.THREAD_VALUE, of["THREAD_VALUE"]
    yield "bytes of a name", renaming.LONGEST, of["NAME_BYTES"]
    yield "limits of numbers", recovery.LIMITED, {"interrupt": of["IRQ_NUMBERS"] - 1, "bits": of["MOST_BITS"],
                                                  "capacity": of["CAPACITY"], "number": 2**32 - 1}
    yield "least numbers", recovery.LEAST, {"bits": of["LEAST_BITS"], "capacity": 1, "interrupt": 0, "number": 0}
    yield "one too many", texts.ONE_TOO_MANY, {word: of[name] + 1 for word, name in one_more.items()}
    yield "steps and instructions", (costs.MOST_STEPS, costs.MOST_CODE), (of["BODY_COST"], of["CODE_SIZE"])


def call_cost(word, armed):
    """The steps that the tools count for a call without arguments, where so many messages may be armed."""
    call = SimpleNamespace(word=SimpleNamespace(text=word), delay=None, arguments=[])
    return costs.Costs(None, armed).call(call)


def steps():
    """The copies of costs and sizes."""
    of = constants(COSTS)
    for armed in (0, 1, 5):
        yield "a spawn", call_cost("spawn", armed), of["SPAWN_COST"]
        yield "a spawn_after", call_cost("spawn_after", armed), of["SPAWN_AFTER_COST"] + of["MESSAGE_COST"] * armed
        for word in ("cancel", "reschedule_after"):
            yield f"a {word}", call_cost(word, armed), of["HANDLE_COST"] + of["HANDLE_MESSAGE_COST"] * armed
    loop = SimpleNamespace(kind="for", block=[], turns=(0, TURNS))
    yield "a loop", costs.Costs(None, 0).statement(loop), of["LOOP_COST"] + of["TURN_COST"] * TURNS
    yield "messages that sizes count", costs.FEW, of["SIZED_MESSAGES"]
    yield "an `init` of `deepest`", forms.DEEPEST_INIT, of["BRIEF_INIT_COST"]
    task = SimpleNamespace(is_software=True, level=1, places=3)
    app = SimpleNamespace(levels=lambda: [1], tasks=[task], monotonic=True)
    size = of["THREAD_SIZE"] + of["DISPATCHER_COST"] + of["DISPATCHER_TASK_SIZE"] + of["TIMER_COST"]
    size += of["MESSAGE_COST"] * task.places + of["TIMER_TASK_SIZE"]
    yield "handlers that are not written", costs.sizes_before(app, [task]), size


def others():
    """The copies of words, of the ranges of numbers, of rules and of the generator."""
    yield "the words of the language", set(tokens.WORDS), set(SPELLED.findall(text_of("crates/rt_ids/src/word.rt")))
    of = constants("crates/rt_top/src/command.rt")
    runs, workers = of["MOST_RUNS"], of["MOST_WORKERS"]
    yield "ranges of numbers", words.RANGES, {"NUMBER": (0, 2**64 - 1), "COUNT": (1, runs), "WORKERS": (1, workers),
                                              "N": (1, of["MOST_DEMO_TASKS"])}
    yield "ranges of `tools/soak`", (command.MOST_RUNS, command.MOST_WORKERS), (runs, workers)
    of = constants("crates/rt_points/src/rule.rt")
    yield "open sections", points.MOST_OPEN, of["MOST_OPEN"]
    yield "bytes of a stack", seven.MOST_STACK, of["STACK_BYTES"]
    of = constants("crates/rt_script/src/generating.rt")
    for copied, name in (("LINES", "WORDS"), ("KINDS", "KINDS"), ("STEP_KINDS", "STEP_KINDS"),
                         ("MOST_STEPS", "MOST_STEPS"), ("MOST_TICKS", "MOST_TICKS")):
        yield f"the generator's {copied}", getattr(generated, copied), of[name]


def main():
    """Ends with 1 where a copy is not what the code has."""
    compared = [*limits(), *steps(), *others()]
    wrong = [(what, copy, wanted) for what, copy, wanted in compared if copy != wanted]
    for what, copy, wanted in wrong:
        print(f"copied: {what}: {copy} in the tools, and {wanted} in the code")
    print(f"copied: {len(compared)} copies compared, {len(wrong)} wrong")
    return 1 if wrong else 0


if __name__ == "__main__":
    sys.exit(main())
