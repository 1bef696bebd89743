#!/usr/bin/env python3
"""Writes the table of encodings that rt_thumb is held to: what GNU's assembler makes of each of its forms, with the
extremes and each bit of every operand, as the disassembler tells it.

    python3 thumb.py CRATE

CRATE, which is crates/thumb_cases, takes data/instructions. It needs arm-none-eabi-as and arm-none-eabi-objdump
(Debian: binutils-arm-none-eabi). A case is a form of the ARMv7-M manual; a line `row` of it has halfwords and the text
of the disassembler, where a branch has its displacement, a word that wraps, in place of the target. A line `none` has
halfwords of other instructions.
"""

import re
import subprocess
import sys
import tempfile
from pathlib import Path

TOOL = "arm-none-eabi-"
FLAGS = ["-mcpu=cortex-m4", "-mthumb"]
LOW = ["r0", "r1", "r2", "r4", "r7"]
GENERAL = ["r0", "r1", "r2", "r4", "r7", "r8", "r12"]
BASE = GENERAL + ["sp"]
MOVED = GENERAL + ["lr"]
CONDITIONS = ["eq", "ne", "hs", "lo", "hi", "ls"]
OPERATIONS = ["ands", "eors", "lsls", "lsrs", "adcs", "sbcs", "cmp", "orrs"]


def numbers(bits, unit=1):
    """0, the greatest of so many bits, and each power of two below it, in units."""
    return [unit * n for n in sorted({0, (1 << bits) - 1, *(1 << k for k in range(bits))})]


def displacements(bits):
    """The extremes of an even displacement of so many bits, and each bit of it, of both signs."""
    top = 1 << (bits - 1)
    powers = [1 << k for k in range(1, bits - 1)]
    return sorted({0, -top, top - 2, -2, *powers, *(p - top for p in powers), *(-p for p in powers)})


def spread(*lists):
    """Each value of each operand, with the first of the others; and the last of all."""
    rows = [tuple(values[0] for values in lists), tuple(values[-1] for values in lists)]
    for at, values in enumerate(lists):
        for value in values:
            for row in rows[:2]:
                rows.append((*row[:at], value, *row[at + 1:]))
    return list(dict.fromkeys(rows))


def lines(form, *lists):
    return [form.format(*row) for row in spread(*lists)]


def forms():
    """The lines of assembler text of each form, by its name."""
    yield "MOV (immediate) T1", lines("movs {}, #{}", LOW, numbers(8))
    yield "CMP (immediate) T1", lines("cmp {}, #{}", LOW, numbers(8))
    yield "ADD (immediate) T2", lines("adds {}, #{}", LOW, numbers(8))
    yield "SUB (immediate) T1", lines("subs {}, {}, #{}", ["r0", "r2", "r7"], ["r1", "r4", "r6"], numbers(3))
    yield "ADD (register) T1", lines("adds {}, {}, {}", LOW, LOW, LOW)
    yield "SUB (register) T1", lines("subs {}, {}, {}", LOW, LOW, LOW)
    for name in OPERATIONS:
        yield f"{name.rstrip('s').upper()} (register) T1", lines(name + " {}, {}", LOW, LOW)
    yield "RSB (immediate) T1", lines("negs {}, {}", LOW, LOW)
    yield "MUL T1", lines("muls {0}, {1}, {0}", LOW, LOW)
    yield "ADD (SP plus register) T1", lines("add {0}, sp, {0}", LOW)
    yield "BX T1", lines("bx {}", GENERAL + ["sp", "lr"])
    yield "LDR (immediate) T1", lines("ldr {}, [{}, #{}]", LOW, LOW, numbers(5, 4))
    yield "STR (immediate) T1", lines("str {}, [{}, #{}]", LOW, LOW, numbers(5, 4))
    yield "STRB (immediate) T1", lines("strb {}, [{}, #{}]", LOW, LOW, numbers(5))
    yield "LDR (immediate) T2", lines("ldr {}, [sp, #{}]", LOW, numbers(8, 4))
    yield "STR (immediate) T2", lines("str {}, [sp, #{}]", LOW, numbers(8, 4))
    yield "ADD (SP plus immediate) T2", lines("add sp, #{}", numbers(7, 4))
    yield "SUB (SP minus immediate) T1", lines("sub sp, #{}", numbers(7, 4))
    yield "CPS T1", ["cpsie i", "cpsid i"]
    yield "WFI T1", ["wfi"]
    yield "NOP T1", ["nop"]
    yield "MOV (immediate) T3", lines("movw {}, #{}", GENERAL, numbers(16))
    yield "MOVT T1", lines("movt {}, #{}", GENERAL, numbers(16))
    yield "MVN (immediate) T1", lines("mvn {}, #{}", GENERAL, numbers(8))
    yield "ADD (SP plus immediate) T4", lines("addw sp, sp, #{}", numbers(10, 4))
    yield "SUB (SP minus immediate) T3", lines("subw sp, sp, #{}", numbers(10, 4))
    yield "LDR (immediate) T3", lines("ldr.w {}, [{}, #{}]", MOVED, BASE, numbers(12))
    yield "STR (immediate) T3", lines("str.w {}, [{}, #{}]", MOVED, BASE, numbers(12))
    yield "LDR (register) T2", lines("ldr.w {}, [{}, {}, lsl #2]", GENERAL, BASE, GENERAL)
    yield "STR (register) T2", lines("str.w {}, [{}, {}, lsl #2]", GENERAL, BASE, GENERAL)
    yield "UDIV T1", lines("udiv {}, {}, {}", GENERAL, GENERAL, GENERAL)
    yield "MLS T1", lines("mls {}, {}, {}, {}", GENERAL, GENERAL, GENERAL, GENERAL)
    yield "MRS T1", lines("mrs {}, {}", GENERAL, ["primask", "basepri"])
    yield "MSR T1", lines("msr {}, {}", ["primask", "basepri"], GENERAL)
    yield "DSB T1", ["dsb sy"]
    yield "ISB T1", ["isb sy"]
    yield "B T4", lines("b.w .+4+({})", displacements(25))
    yield "B T3", [f"b{c}.w .+4+({n})" for c in CONDITIONS for n in displacements(21)]
    yield "BL T1", lines("bl .+4+({})", displacements(25))


# other instructions, near to ours: beside each opcode, with other bits of it, or with registers that are left out
OTHERS = """
movs r0, r1; lsls r0, r1, #2; lsrs r0, r1, #3; asrs r0, r1, #4; adds r0, r1, #3; subs r0, #8; asrs r0, r1; rors r0, r1
tst r0, r1; cmn r0, r1; bics r0, r1; mvns r0, r1; mov r0, r8; mov r8, r0; add r0, r8; add r8, sp, r8; add sp, r1
cmp r0, r8; blx r1; .inst.n 0x4778; .inst.n 0x4701; ldr r0, [pc, #4]; ldr r0, [r1, r2]; str r0, [r1, r2]
ldrb r0, [r1, #4]; strh r0, [r1, #4]; ldrh r0, [r1, #4]; add r0, sp, #4; add r0, pc, #4; push {r4, lr}; pop {r4, pc}
cbz r0, .+8; cbnz r0, .+8; sxth r0, r1; uxtb r0, r1; rev r0, r1; cpsie f; cpsid f; cpsie if; bkpt 0; bkpt 255; yield
wfe; sev; it eq; stmia r0!, {r1}; ldmia r0!, {r1}; beq.n .+4; bhi.n .+4; svc 0; udf #0; b.n .+4; nop.w; wfi.w
mov.w r0, #0; movs.w r0, #255; mvns.w r0, #0; mvn.w r0, #0x00ff00ff; mvn.w r0, #0x100; mvn.w r0, r1; addw r0, r1, #4
addw r0, sp, #4; addw sp, sp, #1; addw sp, sp, #4094; subw sp, sp, #2; subw r0, r1, #4; add.w sp, sp, #4
sub.w sp, sp, #8; adr.w r0, .+8; .inst.w 0xf2400d00; .inst.w 0xf2400e00; .inst.w 0xf2400f00; .inst.w 0xf2c00d00
.inst.w 0xf06f0d00; .inst.w 0xf06f0e00; ubfx r0, r1, #0, #8; bfi r0, r1, #0, #8; ssat r0, #4, r1; ldr.w r0, [pc, #4]
ldr.w sp, [r0]; ldr.w pc, [r0]; ldr.w r0, [r1, #-4]; ldr r0, [r1], #4; ldr r0, [r1, #4]!; str.w r0, [r1, #-4]
str r0, [r1], #4; str.w sp, [r0]; ldr.w r0, [r1, r2]; ldr.w r0, [r1, r2, lsl #1]; ldr.w r0, [r1, r2, lsl #3]
str.w r0, [r1, r2]; str.w r0, [r1, r2, lsl #3]; ldr.w lr, [r0, r1, lsl #2]; .inst.w 0xf851002d; .inst.w 0xf851002e
.inst.w 0xf85f0022; ldrb.w r0, [r1, #4]; strb.w r0, [r1, #4]; ldrh.w r0, [r1, #4]; ldrd r0, r1, [r2]
strd r0, r1, [r2]; ldrex r0, [r1]; sdiv r0, r1, r2; .inst.w 0xfbb1fdf2; .inst.w 0xfbbef0f2; .inst.w 0xfbb1f0fd
mla r0, r1, r2, r3; mul.w r0, r1, r2; .inst.w 0xfb013d12; .inst.w 0xfb01d012; .inst.w 0xfb01f012; umull r0, r1, r2, r3
smull r0, r1, r2, r3; mrs r0, ipsr; mrs r0, msp; mrs r0, psp; mrs r0, faultmask; mrs r0, control; mrs r0, basepri_max
.inst.w 0xf3ef8d10; .inst.w 0xf3ef8e10; msr basepri_max, r0; msr faultmask, r0; msr control, r0; msr msp, r0
.inst.w 0xf38d8810; .inst.w 0xf38e8811; msr apsr_nzcvq, r0; dmb sy; dsb st; .inst.w 0xf3bf8f6e; clrex; nop.w
bmi.w .+4; bpl.w .+4; bvs.w .+4; bvc.w .+4; bge.w .+4; blt.w .+4; bgt.w .+4; ble.w .+4; udf.w #0; push.w {r4, lr}
pop.w {r4, lr}; tbb [r0, r1]; add.w r0, r1, r2
"""


def assembled(texts):
    """Halfwords and text of each line, as the disassembler has them."""
    with tempfile.TemporaryDirectory() as folder:
        source, made = Path(folder, "a.s"), Path(folder, "a.o")
        marks = [f"L{n}: {text}" for n, text in enumerate(texts)]
        source.write_text("\n".join([".syntax unified", ".thumb", *marks, ""]))
        subprocess.run([TOOL + "as", *FLAGS, "-o", made, source], check=True)
        shown = subprocess.run([TOOL + "objdump", "-d", "-M", "reg-names-std", made], check=True, capture_output=True,
                               text=True).stdout
    rows = []
    for line in shown.splitlines():
        found = re.match(r"\s*([0-9a-f]+):\t([0-9a-f]{4}(?: [0-9a-f]{4})?)\s*\t(.*)", line)
        if found:
            rows.append((int(found[1], 16), found[2], found[3]))
    if len(rows) != len(texts):
        sys.exit(f"{len(texts)} lines, but {len(rows)} instructions")
    return rows


def told(place, text):
    """The text of an instruction at a place, without remarks; of a branch its displacement in place of the target."""
    text = " ".join(re.split(r"\s[@;]", text)[0].split())
    branch = re.fullmatch(r"(b\w*(?:\.w)?|bl) ([0-9a-f]+) <.*>", text)
    if branch:
        return f"{branch[1]} #{(int(branch[2], 16) - place - 4) % 2 ** 32}"
    return text


def others():
    """Other instructions, in an order in which none stands inside an IT block."""
    texts = [text.strip() for line in OTHERS.splitlines() for text in line.split(";") if text.strip()]
    return [text for text in dict.fromkeys(texts) if not text.startswith("it ")] + ["it eq", "moveq r0, #0"]


def main(crate):
    out = ["; Written by bench/thumb.py: encodings by GNU's assembler, and what its disassembler makes of them.", ""]
    for name, texts in forms():
        out.append(f"= {name}")
        out += [f"row | {code} {told(place, text)}" for place, code, text in assembled(list(dict.fromkeys(texts)))]
        out.append("")
    out.append("= other instructions")
    texts = others()
    for (place, code, text), source in zip(assembled(texts), texts):
        if source != "moveq r0, #0":
            out.append(f"none | {code} {told(place, text)}")
    out.append("")
    Path(crate, "data", "instructions").write_text("\n".join(out))


if __name__ == "__main__":
    main(sys.argv[1])
