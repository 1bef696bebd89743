"""Files of `native`: whether an image fits, and whether a file is an executable that lies in the memories of its chip,
or an object with the same bytes of flash where C functions are called."""
import struct

# external interrupts that a core may have, and the bytes that a tick takes on the stack
LINES, TICK = 240, 32
SEGMENT = struct.Struct("<8I")


def judge(image, chip, refused_at):
    """Raises the refusal of an image that does not fit, but for the bytes of its code."""
    if any(number >= LINES for _, number, enabled in image.irqs if enabled is not None):
        raise refused_at(18)
    if ram_bytes(image) > chip.said["ram"]["size"]:
        raise refused_at(19)


def stack_bytes(image):
    """The stack with a tick's frame, in eights."""
    return -(-(image.stack_bytes + TICK) // 8) * 8


def ram_bytes(image):
    """The stack, the cells, the time and the alarm."""
    return stack_bytes(image) + 4 * (len(image.cells) + 2)


def segments(data):
    """The loaded segments of a file: offset, virtual and physical address, bytes in the file and in memory, flags."""
    start, = struct.unpack_from("<I", data, 28)
    size, count = struct.unpack_from("<2H", data, 42)
    rows = [SEGMENT.unpack_from(data, start + size * at) for at in range(count)]
    return [row[1:7] for row in rows if row[0] == 1]


def sections(data):
    """The sections of a file: type, flags, offset and bytes."""
    start, = struct.unpack_from("<I", data, 32)
    size, count = struct.unpack_from("<2H", data, 46)
    rows = [struct.unpack_from("<10I", data, start + size * at) for at in range(count)]
    return [(row[1], row[2], row[4], row[5]) for row in rows]


def loaded(data):
    """The bytes of an object's section that is loaded."""
    return next(data[offset:offset + size] for kind, flags, offset, size in sections(data) if (kind, flags) == (1, 6))


def flash_bytes(data):
    """From the first byte that is loaded to the last."""
    if data[16] == 1:
        return len(loaded(data))
    rows = [row for row in segments(data) if row[3]]
    return max(row[2] + row[3] for row in rows) - min(row[2] for row in rows)


def faults_of(data, image, chip):
    """What is wrong with a file: it is no executable for ARM, or lies otherwise than the chip's memories do."""
    faults = []
    if any(key[0] == "call" for key in chip.said):
        return faults_of_object(data, image, chip)
    if data[:7] != b"\x7fELF\x01\x01\x01" or struct.unpack_from("<2H", data, 16) != (2, 40):
        return ["no executable for ARM"]
    flash, ram = chip.said["flash"], chip.said["ram"]
    rows = segments(data)
    if min(row[2] for row in rows if row[3]) != flash["address"]:
        faults.append("flash does not begin with the program")
    offset = next(row[0] for row in rows if row[2] == flash["address"] and row[3])
    top, reset = struct.unpack_from("<2I", data, offset)
    if top != ram["address"] + stack_bytes(image):
        faults.append(f"the stack begins at {top:#x}")
    if not reset & 1 or not flash["address"] <= reset < flash["address"] + flash["size"]:
        faults.append(f"the vector of reset is {reset:#x}")
    cells = [row for row in rows if row[1] == top]
    if [row[3] for row in cells] != [4 * (len(image.cells) + 2)]:
        faults.append("the cells do not lie behind the stack")
    else:
        first = struct.unpack_from(f"<{len(image.cells)}I", data, cells[0][0])
        if list(first) != [value for _, value in image.cells]:
            faults.append("the cells have other first values")
    return faults


def faults_of_object(data, image, chip):
    """What is wrong with an object: it is none for ARM, its section begins or ends otherwise, or a call is missing."""
    if data[:7] != b"\x7fELF\x01\x01\x01" or struct.unpack_from("<2H", data, 16) != (1, 40):
        return ["no object for ARM"]
    faults, code, calls = [], loaded(data), [key for key in chip.said if key[0] == "call"]
    top, reset = struct.unpack_from("<2I", code)
    if top != chip.said["ram"]["address"] + stack_bytes(image):
        faults.append(f"the stack begins at {top:#x}")
    if not reset & 1 or not 0 <= reset - chip.said["flash"]["address"] < len(code):
        faults.append(f"the vector of reset is {reset:#x}")
    count = len(image.cells) + 2
    if list(struct.unpack_from(f"<{count}I", code, len(code) - 4 * count))[:-2] != [value for _, value in image.cells]:
        faults.append("the cells have other first values")
    if [size for kind, _, _, size in sections(data) if kind == 9] != [8 * len(calls)]:
        faults.append("there is no relocation for each call")
    return faults
