"""Faults, planted into executables: each changes a few bytes of the code, as a wrong translation would have made it.

A fault is a function of a program: it gives the halfwords that are changed, by address, none where the program has no
place for it; and by how many machine instructions commits move, of each image instruction whose commit is changed.
"""
import struct

NOTHING = (0xF3AF, 0x8000)
LDR_TIME, LDR_SP, STR_SP, MOVS = 0x680A, 0x9800, 0x9000, 0x2000
CALL_WIDTH = 8


def commits_of(program, *words):
    """The addresses of the commits of such image instructions, each with the number of its image instruction."""
    return [(place, number) for place, number in program.commits.items() if program.image.code[number].word in words]


def kept_register(program):
    """`set` and `copy` by r4, which the hardware does not save."""
    changes = {}
    for place, _ in commits_of(program, "set", "copy"):
        before, store = program.halfword(place - 2), program.halfword(place)
        if before & 0xFF00 in (LDR_SP, MOVS) and store & 0xFF00 == STR_SP:
            changes.update({place - 2: before | 0x400, place: store | 0x400})
    return changes, {}


def arguments_below(program):
    """A call that stores its one argument below SP, and lets SP fall then."""
    changes, moved = {}, {}
    for place, number in commits_of(program, "call"):
        body = list(program.image.bodies.values())[program.image.code[number].operands[0]]
        displacement = program.places[body.entry] - (place + 6) - 4
        if body.args == 1 and 4 * body.frame < 256 and -2048 <= displacement < 2048:
            jump = 0xE000 | displacement // 2 & 0x7FF
            store = (0xF84D, 0x0C00 | 4 * body.frame)
            changes.update(zip(range(place, place + CALL_WIDTH, 2), (*store, program.halfword(place), jump)))
            moved[number] = 1
    return changes, moved


def no_raise(program):
    """`raise` without its MSR: a section that masks nothing."""
    changes, places = {}, commits_of(program, "raise")
    for place, _ in places:
        changes.update(zip((place, place + 2), NOTHING))
    return changes, {number: 0 for _, number in places}


def restore_of_nothing(program):
    """`restore` of 0: the end of an inner section masks nothing any more."""
    return {place - 2: 0x2000 for place, _ in commits_of(program, "restore")
            if program.halfword(place - 2) & 0xFF00 == LDR_SP}, {}


def early_time(program):
    """`alarm` that reads the time before the alarm is stored."""
    changes, moved = {}, {}
    for place, number in commits_of(program, "alarm"):
        changes.update({place: LDR_TIME, place + 2: program.halfword(place)})
        moved[number] = 1
    return changes, moved


def bit_off(program):
    """A branch where a slot is 1 in place of 0: one bit of an encoding."""
    return {place - 2: program.halfword(place - 2) | 1 for place, _ in commits_of(program, "jumpz")}, {}


FAULTS = {"kept register": kept_register, "arguments below SP": arguments_below, "no raise": no_raise,
          "restore of 0": restore_of_nothing, "time read early": early_time, "one bit off": bit_off}


def with_changes(application, changes):
    """The bytes of an executable with changed halfwords."""
    made, program = bytearray(application.data), application.program
    for address, halfword in changes.items():
        struct.pack_into("<H", made, program.offset + address - program.address, halfword)
    return bytes(made)
