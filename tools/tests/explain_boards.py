#!/usr/bin/env python3
"""What tools/explain says of the second program's answers: refused boards, scripts and traces beside them, wrong lines,
listings under `why`, limits of `respond`, and words. A stub stands for the program, which writes the answer of a row;
where the second program is built, or RTICX names it, the answers are compared with its own."""
import os
import pathlib
import re
import subprocess
import sys
import tempfile

HERE = pathlib.Path(__file__).resolve().parent
sys.path.insert(0, str(HERE.parent))
sys.dont_write_bytecode = True

from explaining.main import explained_call
from explaining.program import Program, asked_program

# of a board that is one of these right lines and then one of no form, as tools/explain asks, it says that the second
# one is refused
STUB = """#!/bin/sh
for line in 'input rx received' 'ram 0x20000000 0x10000'; do
    [ "$(cat "$3" 2>/dev/null)" != "$(printf '%s\\n?' "$line")" ] || { echo 'board:2 2 bad line'; exit 3; }
done
printf '%s\\n' "$ANSWER"
exit "$STATUS"
"""
APP = """\
app uart(bits = 4, dispatchers = [D]);
interrupts { UART0 = 5, PIN = 6, D = 7 }
shared { lost = 0 }
local { received = 0, level = 0, crc = 0, turns = 0 }
idle(local = [turns]) { turns = turns + 1; }
task rx(binds = UART0, priority = 2, local = [received]) { spawn digest(received); }
task pin(binds = PIN, priority = 2, local = [level], shared = [lost]) { lock lost { lost = level; } }
task digest(priority = 1, local = [crc]) with value { crc = crc ^ value; }
"""
BOARD = "input rx received\ninput pin level\n"
# A row: a board, the third text or none where a right one is meant, the answer, and sentences that must come.
BOARDS = (
    ("in rx received", "1 2 bad line", "no line of a board begins with `in`",
     "the lines are `input T R`, those of a chip, and `# ..`"),
    ("Input rx received", "1 2 bad line", "no line of a board begins with `Input`",
     "with `input rx received` as the whole line it is read"),
    ("// the line", "1 2 bad line", "a comment begins with `#`, and has a line of its own"),
    ("give received 5", "1 2 bad line", "a line of a script begins so: the board comes first, then the script"),
    ("app a(bits = 4);", "1 2 bad line", "an application begins so: it comes first, then the board"),
    ("input received", "1 2 bad line", "the form is `input T R`, with a task and its local resource",
     "`rx` lists `received`"),
    ("input rx received 0", "1 2 bad line", "the form is `input T R`, with a task and its local resource"),
    ("input rx.received", "1 2 bad line", "`rx` lists `received`"),
    ("input rx received;", "1 2 bad line",
     "`input` wants the names of a task and of its local resource, and `received;` is none"),
    (" input rx received", "1 2 bad line", "a blank comes before the first word, or after the last"),
    ("input\trx received", "1 2 bad line", "words are separated by spaces, and this is a tab"),
    ("input uart received", "1 3 unknown task", "no task `uart` is declared", "hardware tasks are `rx`, `pin`"),
    ("input UART0 received", "1 3 unknown task", "`UART0` is an interrupt, and the task `rx` binds it"),
    ("input received rx", "1 3 unknown task", "the task comes first, and `rx` lists `received`"),
    ("input idle turns", "1 3 unknown task", "`idle` is no task, and no interrupt lets it begin"),
    ("input digest crc", "1 4 software task", "`digest` is a software task, whose values come with its messages",
     "a hardware task takes a device's value over, and sends it: these are `rx`, `pin`"),
    ("input rx recieved", "1 5 unknown local", "no local resource `recieved` is declared", "`rx` lists `received`",
     "a local resource of a similar name is `received`"),
    ("input pin lost", "1 5 unknown local",
     "`lost` is a shared resource: a device writes a local one, and the task takes it over"),
    ("input pin received", "1 6 local of another", "`pin` does not list `received`: `rx` lists it",
     "a device writes a local resource of the task whose interrupt it requests"),
    ("input rx turns", "1 6 local of another", "`rx` does not list `turns`: `idle` lists it",
     "a device writes a local resource of the task whose interrupt it requests"),
    ("# two\ninput rx received\n\ninput rx received", "4 7 named twice", "`received` is an input already, by line 2",
     "a board names each input once"),
    ("flash 0", "1 2 bad line", "the form is `flash A S`"),
    ("ram 0x20000000 64K", "1 2 bad line", "`64K` is no number of 32 bits, decimal or behind `0x`",
     "with `ram 0x20000000 0x10000` as the whole line it is read"),
    ("word 5 0", "1 2 bad line", "`word` wants a name, and `5` is none"),
    ("port 0x40000000\n\nport 0x40000004", "3 7 named twice", "line 1 says this already"),
    ("call UART1", "1 8 unknown interrupt", "no interrupt `UART1` is declared", "declared are `UART0`, `PIN`, `D`",
     "an interrupt of a similar name is `UART0`"),
    ("word received 0x40000000\ninput rx received", "1 9 unknown input", "no line before names an input `received`"),
    ("ram 4 8", "1 10 out of range",
     "RAM begins at a multiple of 8 above 0, has a byte or more, and ends at 0xE0000000 at the latest"),
    ("flash 0 0x400\nport 0x3fc", "2 11 overlap", "this line and line 1 share a byte"),
    ("bits 3", "1 12 too few bits",
     "the application has 4 priority bits, and this core has fewer: two of its priorities would be one"),
    ("#" * (1 << 20) + "\n", "1 1 too long", "the board has 1,048,577 bytes, and 1,048,576 is the most"),
)
SCRIPTS = (
    ("give recieved 5", "1 6 unknown input", "the board has no input `recieved`", "its inputs are `received`, `level`",
     "an input of a similar name is `received`"),
    ("give crc 5", "1 6 unknown input", "the board has no input `crc`"),
    ("device 1 pend D 2 from 5", "1 7 no input",
     "the board has no input of a task that binds `D`, so the words are for nothing",
     "words stand behind a request where the board names an input of its task"),
    ("device 1 pend D from 65", "1 2 bad line", "`from` comes behind a number of requests"),
    ("device 1 pend UART0 seed 3", "1 2 bad line", "`seed` comes behind a number of requests"),
    ("give received", "1 2 bad line", "the form is `give R V`, with an input and its value"),
    ("give received 5 6", "1 2 bad line", "the form is `give R V`, with an input and its value"),
    ("give 5 received", "1 2 bad line", "the input comes first",
     "`give R V` gives the device of the input R the value V"),
    ("give received 0x41", "1 2 bad line", "numbers are decimal: `0x41` is 65"),
    ("give received 'A'", "1 2 bad line", "a value is a number, and that of this sign is 65"),
    ("give received -2", "1 2 bad line", "a value has no sign: in two's complement it is `4294967294`"),
    ("give received 007", "1 2 bad line", "without zeros in front it is 7"),
    ("give received 4294967296", "1 2 bad line",
     "`4294967296` is no decimal number of 32 bits, which is at most 4,294,967,295 and has no leading zero"),
    ("set received 5", "1 2 bad line", "no line of a script begins with `set`",
     "`give R V` gives the device of the input R the value V"),
    ("step x", "1 2 bad line", "`x` is no number of one to nine digits"),
    ("pend UART", "1 3 unknown interrupt", "no interrupt `UART` is declared"),
)
START = "0 pend UART0\n0 end init\n1 take UART0 168\n"
TRACES = (
    (START + "1 input received", "4 2 bad line", "the form is `input R V`, with an input of the board and its value"),
    (START + "1 input crc 5", "4 4 unknown input", "the board has no input `crc`",
     "its inputs are `received`, `level`"),
    (START + "1 input received 4294967296", "4 2 bad line",
     "`4294967296` is no decimal number of 32 bits, which is at most 4,294,967,295 and has no leading zero"),
    (START + "1 inputs received 5", "4 2 bad line", "no item is called `inputs`"),
)
WRONG = (
    (START + "2 enter free.digest\ntotal 5\n", 4,
     "behind the take come the inputs of `rx`, here `1 input received V` with a value V"),
    (START, 4, "behind the take come the inputs of `rx`, here `1 input received V` with a value V",
     "all 3 lines are right, and what comes behind them is not"),
    (START + "1 input received 5\n1 input received 5\n", 5, "line 5 of the trace is the first that is wrong"),
)
GUARDED = (HERE.parents[1] / "examples" / "guarded.listing").read_text(encoding="ascii")
# A row: a listing, the status, the answer, and sentences that must come.
LISTINGS = (
    (GUARDED.replace("code 5 add 0 0 1", "code 5 set 9 1"), 4,
     "no 4\nslots\npoint handler LO 5 set 9 1\nopen count raise 2 224",
     "there is no slot 9: the frame of the handler of `LO` has 4 words, the last number of its `irq` row, in line 3"),
    (APP, 3, "image:1 2 bad line", "an application begins so, and the listing of an image is due"),
)
TURN = APP.replace("spawn digest(received);", "spawn digest(received); pend D;")
FORMLESS = ("`rticx respond` asks that no body has a `pend` of a dispatcher's interrupt, because it has no numbers for "
            "a dispatcher that finds no message")
# A row: a listing, limits of it, the status, the answer, and sentences that must come.
TIMED = (
    (GUARDED, "every LO 100\nevery XX 9", 3, "limits:2 3 unknown interrupt", "no interrupt `XX` is enabled",
     "those that are enabled are `LO`, `HI`"),
    (GUARDED, "every LO 0", 3, "limits:1 2 bad line", "requests lie at least 1 core step apart"),
    (GUARDED.replace("code 10 set 0 0", "code 10 post LO"), "every LO 100", 4, "no",
     "`rticx bounds` has response times of images whose requests come from outside alone",
     "this instruction requests an interrupt"),
)
# A row: limits, the status, the answer, and sentences that must come.
LIMITS = (
    ("every UART0 0", 3, "limits:1 2 bad line", "the least number is 1, and this one is of core steps"),
    ("every rx 50", 3, "limits:1 3 unknown name", "`every` is of an interrupt that a task binds, and `rx` is none",
     "`rx` is a task, and binds the interrupt `UART0`"),
    ("every D 50", 3, "limits:1 3 unknown name", "those that may stand here are `UART0`, `PIN`"),
    ("every UART0 50\nevery UART0 60", 3, "limits:2 2 bad line", "`every UART0` is said already, in line 1"),
    ("tick 50", 3, "limits:1 3 unknown name", "the application has no monotonic, so it has no ticks"),
    ("delay digest 5", 3, "limits:1 3 unknown name",
     "`delay` is of a task that some `spawn_after` names, and `digest` is none"),
    ("deadline digest 5ms", 3, "limits:1 2 bad line", "`5ms` is no number of one to nine digits",
     "it is a number of core steps, and has no unit"),
    ("deadline 50 PIN", 3, "limits:1 2 bad line", "the name comes first, and then the number"),
    ("deadline PIN", 3, "limits:1 2 bad line", "the form is `deadline X N`"),
    ("period PIN 50", 3, "limits:1 2 bad line", "no line of limits begins with `period`",
     "the lines are `every I N`, `tick N`, `delay T N`, `deadline X N` and `# ..`"),
)
# The same of an application with a turn of a dispatcher that may find no message.
TURNS = (
    ("every PIN 50", 0, "- form", FORMLESS, "`rx` requests `D` here"),
    ("deadline digest 50", 4, "- form\nlate digest 50", FORMLESS),
)
WORDS = (
    (["rticx"], "the commands are `rticx run APP BOARD SCRIPT`, `rticx audit APP BOARD TRACE`, "
                "`rticx live APP BOARD SCRIPT`, `rticx native APP BOARD`, `rticx why IMAGE`, `rticx cycles APP`, "
                "`rticx bounds IMAGE [LIMITS]` and `rticx respond APP LIMITS`"),
    (["rticx", "run", "app", "board"], "`rticx run` takes 3 files, APP, BOARD and SCRIPT, and 2 are here"),
    (["rticx", "rum", "app"], "a command of a similar name is `rticx run`"),
    (["run", "app", "board", "script"], "with a board it is the second program's: `rticx run app board script`"),
    (["rticx", "native", "app"], "`rticx native` takes 2 files, APP and BOARD, and 1 is here"),
    (["rticx", "bounds", "image", "limits", "third"],
     "`rticx bounds` takes 1 or 2 files, IMAGE and [LIMITS], and 3 are here"),
    (["rticx", "live", "app", "board"], "`rticx live` takes 3 files, APP, BOARD and SCRIPT, and 2 are here"),
)


def plain(line):
    """A line without its margin."""
    return re.sub(r"^\s*(\|\s*\^+|=|(cause|help|note):)\s*", "", re.sub(r"^\s*=\s*", "", line)).strip()


def said(words, status, answer):
    """What is said where the stub answers so."""
    os.environ.update(STATUS=str(status), ANSWER=answer)
    program = Program(lambda piece: True)
    got, report = explained_call(program, words)
    program.folder.cleanup()
    return got, [plain(line) for line in report.lines], "\n".join(report.lines)


def rows():
    """Each row: the command, its texts, the status, the answer, and the sentences."""
    for board, answer, *sentences in BOARDS:
        yield "run", (APP, board, "step 1\n"), 3, f"board:{answer}", sentences
    for script, answer, *sentences in SCRIPTS:
        yield "run", (APP, BOARD, script), 3, f"script:{answer}", sentences
    for trace, answer, *sentences in TRACES:
        yield "audit", (APP, BOARD, trace), 3, f"trace:{answer}", sentences
    for trace, number, *sentences in WRONG:
        yield "audit", (APP, BOARD, trace), 4, f"no {number}", sentences
    for listing, status, answer, *sentences in LISTINGS:
        yield "why", (listing,), status, answer, sentences
    for app, table in ((APP, LIMITS), (TURN, TURNS)):
        for limits, status, answer, *sentences in table:
            yield "respond", (app, limits), status, answer, sentences
    for listing, limits, status, answer, *sentences in TIMED:
        yield "bounds", (listing, limits), status, answer, sentences


def compare(folder, program):
    """The faults of all rows; the program is the second one, or none."""
    faults = []
    for command, texts, status, answer, sentences in rows():
        paths = [str(folder / name) for name, _ in zip(("app", "board", "third"), texts)]
        for path, text in zip(paths, texts):
            pathlib.Path(path).write_text(text, encoding="ascii")
        name = f"{answer} of {[text[:40] for text in texts if text not in (APP, BOARD)]}"
        if program:
            done = subprocess.run([program, command, *paths], capture_output=True, check=False)
            if (done.returncode, done.stdout.decode("latin-1")) != (status, answer + "\n"):
                faults.append(f"{name}: the program answers {done.returncode} {done.stdout[:60]}")
        got, lines, whole = said(["rticx", command, *paths], status, answer)
        faults += [f"{name}: not said: {one}\n{whole}" for one in sentences if one not in lines]
        faults += [f"{name}: status {got}"] * (got != status)
        faults += [f"{name}: tools/explain failed"] * ("fault of tools/explain" in whole)
    for words, sentence in WORDS:
        _, lines, whole = said(words, 2, "usage: ")
        faults += [f"{words}: not said: {sentence}\n{whole}"] * (sentence not in lines)
    return faults


def main():
    """Ends with 1 where a row is not as it is to be."""
    program = asked_program("rticx")
    with tempfile.TemporaryDirectory() as name:
        folder = pathlib.Path(name)
        stub = folder / "stub"
        stub.write_text(STUB, encoding="ascii")
        stub.chmod(0o755)
        os.environ["RTIC"] = os.environ["RTICX"] = str(stub)
        faults = compare(folder, program)
    for fault in faults:
        print("explain_boards: wrong:", fault)
    if program is None:
        missing = "the second program is not built (./build makes it), and RTICX names no other"
        print(f"explain_boards: skipped in part: {missing}")
    print(f"explain_boards: {len(list(rows())) + len(WORDS)} answers,", "wrong" if faults else "as expected")
    return 1 if faults else 0


if __name__ == "__main__":
    sys.exit(main())
