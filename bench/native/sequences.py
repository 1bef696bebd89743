"""The machine instructions of each image instruction: how many, and which one is the commit.

The commit is the instruction by which the image's instruction is done, as it is seen from outside. What stands before
it changes registers that the processor saves, what stands behind it those and the own frame. `mark` has no code. This
is read off the manual's instructions and the listing alone, and it is checked: the commit has to have its form of
encoding, and the parts of the code have to begin where the executable's symbols say.
"""
WIDE = 4088
CALCULATIONS = {"add": 1, "sub": 1, "mul": 1, "div": 1, "rem": 2, "and": 1, "or": 1, "xor": 1, "shl": 4, "shr": 4}
CALCULATIONS.update(dict.fromkeys(("eq", "ne", "lt", "le", "gt", "ge"), 3))
# MOVW and MOVT, and MVN, STR, MOVW, MOVW, MOVT, STR, DSB and ISB of an alarm that is due.
ADDRESS, DUE = 2, 8
RETURN_SLOT = 15
# The forms of commits: a mask and what is left of the first halfword under it.
STORES = {(0xF800, 0x9000), (0xFFF0, 0xF8C0), (0xF800, 0x6000)}
FORMS = {
    "load": {(0xF800, 0x6800)}, "clock": {(0xF800, 0x6800)}, "store": {(0xF800, 0x6000)}, "emit": {(0xF800, 0x6000)},
    "loadat": {(0xFFF0, 0xF850)}, "storeat": {(0xFFF0, 0xF840)}, "jump": {(0xF800, 0xF000)},
    "jumpz": {(0xF800, 0xF000)}, "post": {(0xF800, 0x6000)}, "alarm": {(0xFFFF, 0x6048)},
    "noalarm": {(0xF800, 0x6000)}, "raise": {(0xFFF0, 0xF380)}, "restore": {(0xFFF0, 0xF380)},
    "mask": {(0xFFFF, 0xB672)}, "unmask": {(0xFFF0, 0xF380)}, "serve": {(0xFFFF, 0xB662)}, "wait": {(0xFFFF, 0xBF30)},
    "call": {(0xFF80, 0xB080), (0xFBFF, 0xF2AD), (0xF800, 0xF000)},
    "back": {(0xFF80, 0xB000), (0xFBFF, 0xF20D), (0xFF87, 0x4700)}, "ret": {(0xFFFF, 0x4770)},
}


def number(value):
    """Instructions that put a number into a register."""
    return 1 if value < 1 << 16 else 2


def slot(index):
    """Instructions that read or write a slot; one that is far takes its offset, an addition and the access."""
    return 1 if index < 1024 else number(4 * index % (1 << 32)) + 2


def frame(words):
    """Instructions by which SP moves over a frame."""
    size = 4 * words % (1 << 32)
    return size // WIDE + (size % WIDE > 0)


def sequence(image, address):
    """How many machine instructions an image instruction has, and the index of the commit; 0 and None for none."""
    word, at, _ = image.code[address]
    if word == "mark":
        return 0, None
    if word == "call":
        return of_call(list(image.bodies.values())[at[0]], at[1])
    if word == "back":
        closing = frame(image.body_frame(address))
        count = closing + slot(RETURN_SLOT) + 1
        return count, closing - 1 if closing else count - 1
    before, behind = parts(image, address, word, at)
    return before + 1 + behind, before


def of_call(body, first):
    """The same, of the call of a body with its arguments in the slots from one on."""
    before = ADDRESS + slot(RETURN_SLOT) + sum(slot(first + k) for k in range(body.args))
    opening = frame(body.frame)
    count = before + opening + sum(slot(k) for k in range(body.args)) + 1
    return count, before + opening - 1 if opening else count - 1


def parts(image, address, word, at):
    """How many machine instructions stand before the commit, and how many behind."""
    if word in CALCULATIONS:
        return slot(at[1]) + slot(at[2]) + CALCULATIONS[word] + slot(at[0]) - 1, 0
    if word in ("load", "clock"):
        return ADDRESS, slot(at[0])
    if word in ("restore", "unmask"):
        return slot(at[0]), 1
    if word == "ret":
        return frame(image.handler_frame(address)), 0
    return {
        "set": lambda d, v: (number(v) + slot(d) - 1, 0),
        "copy": lambda d, s: (slot(s) + slot(d) - 1, 0),
        "store": lambda c, s: (slot(s) + ADDRESS, 0),
        "emit": lambda s: (slot(s) + ADDRESS, 0),
        "loadat": lambda d, c, s: (slot(s) + ADDRESS, slot(d)),
        "storeat": lambda c, s, a: (slot(a) + slot(s) + ADDRESS, 0),
        "jump": lambda l: (0, 0),
        "jumpz": lambda s, l: (slot(s) + 1, 0),
        "post": lambda i: (1 + ADDRESS, 2),
        "alarm": lambda s, i: (slot(s) + ADDRESS, 3 + DUE),
        "noalarm": lambda: (ADDRESS + 1, 0),
        "raise": lambda d, v: (1 + slot(d) + number(v), 0),
        "mask": lambda d: (1 + slot(d), 0),
        "serve": lambda: (0, 1),
        "wait": lambda: (0, 1),
    }[word](*at)


def is_commit(word, halfword):
    """Whether a halfword begins an instruction of the form that the commit of such an image instruction has."""
    forms = STORES if word in ("set", "copy") or word in CALCULATIONS else FORMS[word]
    return any(halfword & mask == left for mask, left in forms)
