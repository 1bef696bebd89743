#!/usr/bin/env python3
"""Whether `rticx cycles` adds up what an executable has.

    cycles.py RTIC RTICX APP..

RTIC and RTICX are the programs `rtic` and `rticx`, or others with the same words. Of each application the executable
that `RTICX native` makes is disassembled by GNU's objdump for ARM, each machine instruction is looked up in a copy of
the manual's table, and the sums of each image instruction, of what runs at a `take` and of what serves ticks have to be
those of `RTICX cycles`; costs and waits are those of `RTIC check`, each step as long as the longest. Ends with 1 where
an application differs.
"""
import pathlib
import re
import subprocess
import sys
import tempfile

from run import Application, numbered

OBJDUMP = "arm-none-eabi-objdump"
# Arm DDI 0439, sections 3.3.1 and 3.9.1, where P and B are 3: the mnemonics of each number of cycles.
TABLE = {
    1: "mov movs movw movt mvn mvns cmp nop wfi mul muls neg negs add adds addw adc adcs sub subs subw sbc sbcs "
       "rsb rsbs and ands orr orrs eor eors lsl lsls lsr lsrs",
    2: "mls mrs msr cpsid cpsie ldr str strb",
    4: "dsb isb b bx bl beq bne bhi bls bcs bcc",
    12: "udiv",
}
CYCLES = {word: count for count, listed in TABLE.items() for word in listed.split()}
ENTRY, RETURN = 12, 12


def disassembled(executable):
    """The mnemonic at each address."""
    told = subprocess.run([OBJDUMP, "-d", "-M", "force-thumb", "-m", "arm", executable], capture_output=True, text=True,
                          check=True).stdout
    return {int(place, 16): word.partition(".")[0]
            for place, word in re.findall(r"^\s*([0-9a-f]+):\t[0-9a-f ]+\t(\S+)", told, re.M)}


def straight(words, place, last):
    """The cycles from an address on, up to the first of these instructions."""
    total = 0
    for address in sorted(at for at in words if at >= place):
        total += CYCLES[words[address]]
        if words[address] == last:
            return total
    raise SystemExit(f"no {last} behind {place:#x}")


def kinds_of(program, words):
    """The cycles of each image instruction, at most of each kind."""
    sums = {}
    for place, (number, _) in program.what.items():
        sums[number] = sums.get(number, 0) + CYCLES[words[place]]
    most = {}
    for number, line in enumerate(program.image.code):
        own = sums.get(number, 0) + (RETURN if line.word == "ret" else 0)
        most[line.word] = max(most.get(line.word, 0), own)
    return most


def expected(rtic, application):
    """The lines, but for their order."""
    program, words = application.program, disassembled(application.path("executable"))
    found = kinds_of(program, words)
    takes = [ENTRY + straight(words, head, "b") for head in program.heads]
    most, take = dict(found), max(takes, default=0)
    found["take"] = take
    found["tick"] = ENTRY + straight(words, program.symbols["tick"], "bx") + RETURN
    found["step"] = max([take, *most.values()])
    told = subprocess.run([rtic, "check", application.path("app")], capture_output=True, text=True, check=True).stdout
    beside = [f"{line.rpartition(' ')[0]} {int(line.split()[-1]) * found['step']}" for line in told.splitlines()
              if line.startswith(("cost ", "wait "))]
    return sorted([f"cycles {kind} {count}" for kind, count in found.items()] + beside)


def main(words):
    """Ends with 1 where an application differs."""
    rtic, rticx, *paths = words
    ran = wrong = 0
    for path in paths:
        with tempfile.TemporaryDirectory() as folder:
            text = numbered(pathlib.Path(path).read_text(encoding="ascii"))
            if text is None:
                continue
            application = Application(rticx, text, folder)
            ran, wanted = ran + 1, expected(rtic, application)
            words = [rticx, "cycles", application.path("app")]
            told = sorted(subprocess.run(words, capture_output=True, text=True, check=True).stdout.splitlines())
            if told != wanted:
                wrong += 1
                print(f"{path}: {sorted(set(told) ^ set(wanted))}", flush=True)
    print(f"{ran} applications, {wrong} different")
    return 1 if wrong else 0


if __name__ == "__main__":
    sys.exit(main(sys.argv[1:]))
