"""An executable beside the listing of its image: where each image instruction's code lies, and what stands round it."""
import struct

from sequences import is_commit, sequence

# Of the machine instructions of `alarm` the one that makes an interrupt pending is the third from the end.
OWED = 3
BX_LR, WIDE_OPENINGS = 0x4770, (0b11101, 0b11110, 0b11111)


class Program:
    """What an executable has at each address. `places` has the address of each image instruction's code and where the
    last one ends; `what` tells of an address which image instruction it belongs to and which of its machine
    instructions it is; `commits` the addresses of commits, each with its image instruction. A planted fault has `moved`
    the commits of some image instructions by so many machine instructions, or none."""

    def __init__(self, data, image, moved=None):
        self.image, self.moved = image, moved or {}
        self.offset, self.address, _, self.size = struct.unpack_from("<4I", data, 56)
        self.text = data[self.offset:self.offset + self.size]
        self.symbols = {name: value & ~1 for name, value in symbols_of(data)}
        self.top = struct.unpack_from("<I", self.text)[0]
        self.places, self.what, self.commits, self.owing = [], {}, {}, set()
        self.heads = {self.symbols["handler_" + irq.name]: irq.name for irq in image.enabled()}
        self.read_code()
        self.read_tick()

    def halfword(self, address):
        """The halfword at an address."""
        return struct.unpack_from("<H", self.text, address - self.address)[0]

    def behind(self, address):
        """Where the instruction behind that at an address lies."""
        return address + (4 if self.halfword(address) >> 11 in WIDE_OPENINGS else 2)

    def read_code(self):
        """The code of the image's instructions, from the symbol `init` on."""
        place = self.symbols["init"]
        for number, line in enumerate(self.image.code):
            self.places.append(place)
            count, commit = sequence(self.image, number)
            if number in self.moved:
                commit += self.moved[number]
            for index in range(count):
                self.what[place] = number, index
                if line.word == "alarm" and index == count - OWED:
                    self.owing.add(place)
                if index == commit:
                    self.check(place, line.word, number)
                    self.commits[place] = number
                place = self.behind(place)
        self.places.append(place)
        entries = [("body_" + name, body.entry) for name, body in self.image.bodies.items()]
        for name, entry in entries:
            if self.symbols[name.replace(".", "_")] != self.places[entry]:
                raise SystemExit(f"{name} does not begin at the code of image instruction {entry}")

    def check(self, place, word, number):
        """A commit has to have its form, where no planted fault changed it."""
        if number not in self.moved and not is_commit(word, self.halfword(place)):
            raise SystemExit(f"image instruction {number}, {word}: no commit at {place:#x}")

    def read_tick(self):
        """Of what serves ticks: where the time is stored, an alarm's interrupt is made pending, and it returns."""
        place, stores = self.symbols["tick"], []
        while self.halfword(place) != BX_LR:
            if self.halfword(place) & 0xF800 == 0x6000:
                stores.append(place)
            place = self.behind(place)
        self.tick_return, self.tick_time = place, stores[0]
        self.tick_pend = stores[2] if len(stores) > 2 else None

    def kind_at(self, address):
        """The kind of image instruction whose code an address is in, and which of its machine instructions it is."""
        if address in self.what:
            number, index = self.what[address]
            return self.image.code[number].word, index
        for head in self.heads:
            index, place = 0, head
            while place < address and index < 4:
                index, place = index + 1, self.behind(place)
            if place == address:
                return "take", index
        return "other", 0

    def cell(self, name):
        """The address of a cell."""
        return self.symbols["cell_" + name.replace(".", "_")]

    def wait(self):
        """Where the thread waits: the address of the only WFI."""
        return next(address for address, number in self.commits.items() if self.image.code[number].word == "wait")


def symbols_of(data):
    """The symbols of an executable, each with its value."""
    at, count = struct.unpack_from("<I", data, 32)[0], struct.unpack_from("<H", data, 48)[0]
    headers = [struct.unpack_from("<10I", data, at + 40 * k) for k in range(count)]
    table = next(header for header in headers if header[1] == 2)
    names = headers[table[6]][4]
    for place in range(table[4], table[4] + table[5], 16):
        name, value = struct.unpack_from("<2I", data, place)
        begin = names + name
        yield data[begin:data.index(b"\0", begin)].decode("ascii"), value
