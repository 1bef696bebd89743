#!/usr/bin/env python3
"""Runs executables of examples on emulated boards. Two run one machine instruction at a time, with requests before some
of them: what is seen is, line by line, what the model shows (`bench/native/run.py` does it with a thousand
applications, and plants faults; two of these are planted here). Two send back what their UARTs receive, one of them
with functions of C, which are linked to the object that `native` writes.

The program is that of RTICX, or the second one where ./build or the gate has made it; without one, or without the
emulator, nothing is run."""
import contextlib
import os
import pathlib
import shutil
import subprocess
import sys
import tempfile
import threading
from collections import Counter

ROOT = pathlib.Path(__file__).resolve().parents[2]
sys.dont_write_bytecode = True
sys.path[:0] = [str(ROOT / "tools"), str(ROOT / "bench" / "native")]

from emulator import EMULATOR
from explaining.program import asked_program
from run import applications, first_seen, run_once

# How often a request comes before an instruction.
OFTEN = 0.2
# They are named from the root on, since chances come from names: so each clone has the same ones.
EXAMPLES = ("examples/pump.rtic", "examples/board/blink.rtic")
PLANTED, RUNS = ("no raise", "one bit off"), 3
# The examples with a UART, each with the board that it is for; what the UART receives, and seconds until all is sent
# back at most.
ECHO, ECHO_BOARD = "examples/board/echo", "lm3s6965evb"
RECEIVED, RECEIVED_BOARD = "examples/board/received", "mps2-an386"
SENT, LONGEST = b"to and fro\n", 60
# How functions of C are translated, and where they are linked behind an object.
COMPILER, LINKER = "arm-none-eabi-gcc", "arm-none-eabi-ld"
TRANSLATED = ("-mcpu=cortex-m4", "-mthumb", "-Os", "-ffreestanding", "-c")
PLACES = ("-e", "reset", "--section-start=.rtic=0", "-Ttext=0x2000")


def differences(program, sums):
    """The examples that differ from the model."""
    for path, rng, application in applications(program, 1, EXAMPLES, sums):
        run, wrong = run_once(rng, application, lambda run: rng.random() < OFTEN)
        sums.update(instructions=run.executed, requests=run.requests)
        if wrong:
            yield f"{path}: {wrong}"


def not_seen(program):
    """The planted faults that are not seen."""
    for fault in PLANTED:
        if not first_seen(fault, program, 1, RUNS, EXAMPLES)[1]:
            yield f"planted {fault} is not seen"


def sent_back(machine, executable):
    """What the UART of a board sends back, as much as it received."""
    words = [EMULATOR, "-M", machine, "-display", "none", "-monitor", "none", "-serial", "stdio", "-kernel", executable]
    with subprocess.Popen(words, stdin=subprocess.PIPE, stdout=subprocess.PIPE, stderr=subprocess.DEVNULL) as board:
        late = threading.Timer(LONGEST, board.kill)
        late.start()
        got = b""
        with contextlib.suppress(BrokenPipeError):
            for byte in SENT:
                board.stdin.write(bytes([byte]))
                board.stdin.flush()
                got += board.stdout.read(1)
        late.cancel()
        board.kill()
    return got


def linked(written, functions, folder):
    """The executable of an object that `native` wrote, and of functions of C."""
    translated, executable = pathlib.Path(folder, "functions.o"), pathlib.Path(folder, "linked")
    subprocess.run([COMPILER, *TRANSLATED, functions, "-o", translated], check=True)
    subprocess.run([LINKER, *PLACES, written, translated, "-o", executable], check=True)
    return executable


def not_echoed(program, example, machine, functions=None):
    """What is amiss with an example that has a UART."""
    with tempfile.TemporaryDirectory() as folder:
        written = pathlib.Path(folder, "written")
        words = [program, "native", f"{example}.rtic", f"{example}.board"]
        written.write_bytes(subprocess.run(words, stdout=subprocess.PIPE, check=True).stdout)
        got = sent_back(machine, linked(written, functions, folder) if functions else written)
        if got != SENT:
            yield f"{example}.rtic: {got!r} is sent back of {SENT!r}"


def main():
    """Ends with 1 where an example differs, or a fault is not seen."""
    program = asked_program("rticx")
    if program is None:
        print("native: skipped: the second program is not built (./build makes it), and RTICX names no other")
        return 0
    if not shutil.which(EMULATOR):
        print(f"native: skipped: {EMULATOR} is not there")
        return 0
    os.chdir(ROOT)
    sums = Counter()
    faults = [*differences(program, sums), *not_seen(program), *not_echoed(program, ECHO, ECHO_BOARD)]
    is_linked = bool(shutil.which(COMPILER) and shutil.which(LINKER))
    if is_linked:
        faults += not_echoed(program, RECEIVED, RECEIVED_BOARD, f"{RECEIVED}.c")
    else:
        print(f"native: skipped in part: {COMPILER} or {LINKER} is not there, so no function of C is linked")
    for fault in faults:
        print(f"native: wrong: {fault}")
    counted = f"{sums['applications'] + 1 + is_linked} executables, {sums['instructions']} machine instructions"
    print(f"native: {counted}, {sums['requests']} requests and ticks, {len(PLANTED)} planted faults,",
          "wrong" if faults else "as expected")
    return 1 if faults else 0


if __name__ == "__main__":
    sys.exit(main())
