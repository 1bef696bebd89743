#!/usr/bin/env python3
"""Whether executables read their inputs on an emulated board as the model does.

    inputs.py RTICX SEED REQUESTS APP=BOARD..

RTICX is the program `rticx`, or another with the same words. BOARD is a text that names inputs of the application APP.
Behind it come the lines of QEMU's mps2-an386 and one `word` for each input: a word of RAM beside that of the program
stands for the device's register. For each pair REQUESTS requests are made up from SEED, of any interrupt that the
application declares, one to three at once, each behind new words for all inputs. `RTICX run` takes them by `give` and
`pend`; on the emulated board the words are put into the registers, and the same requests come while the core waits. The
words that were stored to the port have to be those that the model emitted, in order. Passed over is an application with
an interrupt past the board's 32 lines, and one whose thread does not wait. Ends with 1 where an application differs.
"""
import pathlib
import random
import re
import sys
import tempfile

from emulator import CHIP, PC, Board
from run import LINES, Application

# the words that stand for the registers of devices, and core steps in which all is done that a request asks for
REGISTERS, STEPS = 0x2100_0000, 6000


def turns_of(rng, inputs, names, requests):
    """Words for all inputs, and requests at once, each so many times."""
    return [([rng.choice((rng.randrange(256), rng.randrange(1 << 32))) for _ in inputs],
             [rng.choice(names) for _ in range(rng.choice((1, 1, 2, 3)))]) for _ in range(requests)]


def script_of(inputs, turns):
    """The script of these turns."""
    lines = [f"step {STEPS}"]
    for words, together in turns:
        lines += [f"give {name} {word}" for name, word in zip(inputs, words)]
        lines += [f"pend {name}" for name in together] + [f"step {STEPS}"]
    return "".join(line + "\n" for line in lines)


def emitted_by_board(application, turns):
    """The words that an executable stores to the port."""
    wait, board = application.program.wait(), Board(application.path("executable"))
    try:
        board.run_to(wait)
        for words, together in turns:
            for at, word in enumerate(words):
                board.debugger.ask(f"M{REGISTERS + 4 * at:x},4:" + word.to_bytes(4, "little").hex())
            for name in together:
                board.pend(application.image.irqs[name].number, board.registers())
            board.debugger.set_register(PC, wait + 2)
            board.run_to(wait)
        return board.emitted()
    finally:
        board.close()


def compare(rticx, rng, requests, app, board):
    """One application: how many words were emitted, None where it is passed over, and the first difference."""
    text, beside = (pathlib.Path(path).read_text(encoding="ascii") for path in (app, board))
    inputs = re.findall(r"^input \S+ (\S+)$", beside, re.M)
    registers = "".join(f"word {name} {REGISTERS + 4 * at:#x}\n" for at, name in enumerate(inputs))
    with tempfile.TemporaryDirectory() as folder:
        application = Application(rticx, text, folder, f"{beside}\n{CHIP}{registers}")
        if max(irq.number for irq in application.image.irqs.values()) >= LINES or not application.image.waits():
            return None, None
        turns = turns_of(rng, inputs, list(application.image.irqs), requests)
        done = application.modelled(script_of(inputs, turns))
        model = [int(value) for value in re.findall(r"^\d+ emit (\d+)$", "\n".join(done), re.M)]
        board = emitted_by_board(application, turns)
    first = next((at for at, pair in enumerate(zip(model, board)) if pair[0] != pair[1]), min(len(model), len(board)))
    return len(model), None if model == board else f"word {first}: model {model[first:][:4]}, board {board[first:][:4]}"


def main(words):
    """Ends with 1 where an application differs."""
    rticx, seed, requests, *pairs = words
    ran = emitted = wrong = 0
    for app, _, board in (pair.partition("=") for pair in pairs):
        count, difference = compare(rticx, random.Random(f"{seed} {app}"), int(requests), app, board)
        if count is None:
            continue
        ran, emitted = ran + 1, emitted + count
        if difference:
            wrong += 1
            print(f"{app}: {difference}", flush=True)
    print(f"{ran} applications, {emitted} words emitted, {wrong} different, {len(pairs) - ran} passed over")
    return 1 if wrong else 0


if __name__ == "__main__":
    sys.exit(main(sys.argv[1:]))
