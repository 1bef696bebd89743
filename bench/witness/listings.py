"""Listings of random images that mostly keep the rules, and changes of them that mostly do not."""

VALUES = (240, 224, 208, 192, 176)
PLAIN = ("set {s} 7", "copy {s} {t}", "add {s} {s} {t}", "emit {s}", "clock {s}", "post {row}", "mark")
OTHER = (
    "mark", "ret", "serve", "wait", "noalarm", "back", "set 0 0", "raise 0 224", "raise 0 0", "mask 0", "mask 1",
    "restore 0", "unmask 0", "clock 1", "loadat 0 0 1", "storeat 0 1 1", "call 0 1", "load 0 1", "store 1 0",
    "set 99 1", "load 0 40", "emit 5",
)
NOTES = ("", "", "enter s0", "enter s1", "leave s0", "leave s1", "end init", "end idle", "enter timer.0",
         "leave ready.3", "enter ready.3")
NUMBERS = (0, 1, 2, 3, 9, 192, 208, 224, 232, 240, 255)
FRAME = 12


class Body:
    """The code of one owner, written from its first address on."""

    def __init__(self, chance, first, names, ceilings, value, rows):
        self.chance, self.first, self.names, self.value = chance, first, names, value
        self.ceilings, self.rows, self.code = ceilings, rows, []

    def add(self, text):
        self.code.append(text)

    def plain(self):
        s, t = self.chance.randrange(3), self.chance.randrange(3)
        self.add(self.chance.choice(PLAIN).format(s=s, t=t, row=self.chance.choice(self.rows)))

    def section(self, name, inside):
        """A section, in which its cell is touched."""
        ceiling, slot = self.ceilings[name], 3 + len(inside)
        masked = any(how == "mask" for _, how in inside)
        now = min([self.value] + [self.ceilings[one] for one, how in inside if how == "raise"] + [0] * masked)
        how = "mark" if ceiling >= now else self.chance.choice(["raise", "raise", "mask"])
        words = {"mark": "mark", "raise": f"raise {slot} {ceiling}", "mask": f"mask {slot}"}[how]
        self.add(f"{words} ; enter {name}")
        for _ in range(self.chance.randrange(1, 4)):
            self.add(self.chance.choice([f"load 0 {self.names.index(name)}", f"store {self.names.index(name)} 1"]))
        self.block(inside + [(name, how)])
        self.add({"mark": "mark", "raise": f"restore {slot}", "mask": f"unmask {slot}"}[how] + f" ; leave {name}")

    def block(self, inside=()):
        """Some statements: plain ones, sections and branches."""
        inside = list(inside)
        for _ in range(self.chance.randrange(3)):
            free = [name for name in self.ceilings if name not in [one for one, _ in inside]]
            kind = self.chance.randrange(3)
            if kind == 0 and free and len(inside) < 3:
                self.section(self.chance.choice(free), inside)
            elif kind == 1 and len(inside) < 3:
                place = len(self.code)
                self.add("")
                self.block(inside)
                self.code[place] = f"jumpz 0 {self.first + len(self.code)}"
            else:
                self.plain()


def listing(chance):
    """An image that keeps the rules, for the most part."""
    names = [f"s{number}" for number in range(chance.randrange(1, 4))]
    count = chance.randrange(1, 5)
    rows = [f"H{number}" for number in range(count)]
    values = [chance.choice(VALUES) for _ in rows]
    users = {name: [n for n in range(count) if chance.random() < 0.6] for name in names}
    ceilings = {name: min([values[n] for n in some] or [256]) for name, some in users.items()}
    code = ["serve ; end init"]
    idle = Body(chance, 1, names, {name: value for name, value in ceilings.items() if value <= 255
                                   and chance.random() < 0.4}, 256, rows)
    idle.block()
    code += idle.code + ["jump 1 ; end idle" if chance.random() < 0.5 else "wait"]
    lines = []
    for number, (row, value) in enumerate(zip(rows, values)):
        if number and chance.random() < 0.1:
            lines.append(f"irq {row} {number} -")
            continue
        body = Body(chance, len(code), names, {name: ceilings[name] for name in names if number in users[name]}, value,
                    rows)
        lines.append(f"irq {row} {number} {value} {len(code)} {FRAME}")
        body.block()
        body.block()
        code += body.code + ["ret"]
    stack = 4 * FRAME + sum(4 * (8 + FRAME) for _ in set(values))
    head = f"image 1 4 {stack} {FRAME} {len(code)} {len(names)}"
    cells = [f"cell {number} 0 {name}" for number, name in enumerate(names)]
    return [head, *cells, *lines, *[f"code {number} {text}" for number, text in enumerate(code)]]


def other_operand(chance, text):
    """A text with one number changed."""
    words = text.split(" ")
    places = [n for n, word in enumerate(words) if word.isdigit()]
    if places:
        words[chance.choice(places)] = str(chance.choice(NUMBERS))
    return " ".join(words)


def other_line(chance, codes, place):
    """The text of a line of code, changed."""
    front, _, note = codes[place].partition(" ; ")
    kind = chance.randrange(7)
    if kind == 0:
        note = chance.choice(NOTES)
    elif kind == 1:
        front = chance.choice(OTHER)
    elif kind == 2:
        front = f"jump {chance.randrange(len(codes) + 2)}"
    elif kind == 3:
        front = f"jumpz 0 {chance.randrange(len(codes) + 2)}"
    elif kind == 4:
        return codes[chance.randrange(len(codes))]
    elif kind == 5:
        front, note = "mark", ""
    else:
        front = other_operand(chance, front)
    return f"{front} ; {note}" if note else front


def other_section(chance, codes, names):
    """The texts of the code, with a section changed at both of its ends: its value, its kind, its name, or left out."""
    codes = list(codes)
    enters = [n for n, code in enumerate(codes) if " ; enter " in code]
    if not enters:
        return codes
    first = chance.choice(enters)
    front, name = codes[first].split(" ; enter ")
    last = next((n for n in range(first, len(codes)) if codes[n].endswith(f" ; leave {name}")), first)
    kind = chance.randrange(4)
    if kind == 0:
        codes[first] = f"raise 5 {chance.choice(VALUES)} ; enter {name}"
        codes[last] = f"restore 5 ; leave {name}"
    elif kind == 1:
        codes[first], codes[last] = f"mark ; enter {name}", f"mark ; leave {name}"
    elif kind == 2:
        codes[first], codes[last] = "mark", "mark"
    else:
        other = chance.choice(names)
        codes[first], codes[last] = f"{front} ; enter {other}", codes[last].replace(name, other)
    return codes


def able_numbers(first, place):
    """The numbers that may come at a place of a line that begins with this word."""
    if place == 2:
        return {"image": (3, 4, 5, 6, 7), "irq": NUMBERS[:6]}[first]
    return (*NUMBERS, 208, 224, 100, 244, 400, 4294967295, 2_000_000, 2_000_002)


def changed(chance, lines):
    """A listing with one line changed."""
    lines = list(lines)
    places = [n for n, line in enumerate(lines) if line.startswith("code ")]
    where = chance.random()
    if where < 0.12:
        place = chance.randrange(places[0])
        words = lines[place].split(" ")
        able = {"image": [2, 3, 3, 3, 4], "cell": [], "irq": [2, 3, 3, 4, 5]}[words[0]]
        able = [n for n in able if n < len(words) and words[n] != "-"]
        if able:
            at = chance.choice(able)
            words[at] = str(chance.choice(able_numbers(words[0], at)))
            lines[place] = " ".join(words)
        return lines
    codes = [lines[n].split(" ", 2)[2] for n in places]
    if where < 0.5:
        names = [line.split(" ")[3] for line in lines if line.startswith("cell ")]
        codes = other_section(chance, codes, names)
        return lines[:places[0]] + [f"code {n} {text}" for n, text in enumerate(codes)]
    place = chance.randrange(len(codes))
    lines[places[place]] = f"code {place} {other_line(chance, codes, place)}"
    return lines


def deep(chance):
    """A listing whose only handler opens as many sections as may be, or one more, with a way back."""
    names = [f"s{number}" for number in range(20)]
    count = chance.choice([15, 16, 17])
    back = chance.random() < 0.4
    code = ["serve ; end init", "wait", *[f"mark ; enter {name}" for name in names[:count]]]
    code += ["jump 2"] if back else [f"mark ; leave {name}" for name in reversed(names[:count])]
    head = f"image 1 4 200 1 {len(code) + 1} 20"
    cells = [f"cell {number} 0 {name}" for number, name in enumerate(names)]
    return [head, *cells, "irq H 0 240 2 1", *[f"code {n} {text}" for n, text in enumerate([*code, "ret"])]]


def some(chance):
    """A listing for a try: a random one, most often with a change or some."""
    lines = deep(chance) if chance.random() < 0.03 else listing(chance)
    for _ in range(chance.choice([0, 1, 1, 1, 1, 2, 3])):
        lines = changed(chance, lines)
    return "\n".join(lines) + "\n"
