"""An emulated board, QEMU's mps2-an386, that runs an executable, by the debugger's port of the emulator.

Nothing is interpreted here: the emulated processor executes the code. The board writes each store to the port that
`emit` names into a log, and a request is a store to the register STIR, which the debugger makes while the core is
asleep or between any two instructions.
"""
import pathlib
import re
import socket
import struct
import subprocess
import tempfile
import time

# The core's register whose write makes the interrupt of its number pending, the one that makes SysTick pending, and the
# port: the register MISC of the board's FPGAIO.
STIR, ICSR, PEND_TICK, PORT = 0xE000EF00, 0xE000ED04, 1 << 26, 0x4002804C
# The lines of a board's text for `rticx native`. A tick comes only where it is asked for.
CHIP = f"flash 0 0x400000\nram 0x20000000 0x400000\nport {PORT:#x}\nbits 8\n"
# STR r1, [r0]: with other registers and another address, a request is made by executing it once.
STORE = b"\x01\x60"
R0, R1, SP, PC = 0, 1, 13, 15
EMULATOR = "qemu-system-arm"
# Seconds until an answer at most.
LONGEST = 120


class Debugger:
    """The debugger's port: packets of GDB's remote protocol."""

    def __init__(self, path):
        self.socket = socket.socket(socket.AF_UNIX)
        self.socket.settimeout(LONGEST)
        for _ in range(500):
            try:
                self.socket.connect(path)
                break
            except OSError:
                time.sleep(0.02)
        self.got, self.acknowledges = b"", True

    def send(self, text):
        data = text.encode()
        self.socket.sendall(b"$" + data + b"#%02x" % (sum(data) & 255))

    def begin(self):
        """The registers' names, and from then on no packet is acknowledged."""
        self.ask("qSupported:xmlRegisters=arm")
        self.ask("qXfer:features:read:target.xml:0,ffb")
        self.ask("QStartNoAckMode")
        self.acknowledges = False

    def receive(self):
        while True:
            found = re.search(rb"\$([^#]*)#..", self.got)
            if found:
                self.got = self.got[found.end():]
                if self.acknowledges:
                    self.socket.sendall(b"+")
                return found[1].decode()
            more = self.socket.recv(65536)
            if not more:
                raise SystemExit("the emulator is gone")
            self.got += more

    def ask(self, text):
        self.send(text)
        return self.receive()

    def register(self, number):
        return int.from_bytes(bytes.fromhex(self.ask(f"p{number:x}")), "little")

    def set_register(self, number, value):
        self.ask(f"P{number:x}=" + value.to_bytes(4, "little").hex())

    def read(self, address, count):
        return bytes.fromhex(self.ask(f"m{address:x},{count:x}"))


class Board:
    """A board that runs an executable, stopped at its reset."""

    def __init__(self, executable):
        self.folder = tempfile.TemporaryDirectory()
        self.log = pathlib.Path(self.folder.name, "port.log")
        path = str(pathlib.Path(self.folder.name, "port"))
        words = [EMULATOR, "-M", "mps2-an386", "-nographic", "-monitor", "none", "-serial", "none", "-S"]
        words += ["-kernel", str(executable), "-gdb", f"unix:{path},server=on,wait=off"]
        words += ["-trace", "mps2_fpgaio_write", "-D", str(self.log)]
        self.process = subprocess.Popen(words, stdin=subprocess.DEVNULL, stdout=subprocess.DEVNULL)
        self.debugger = Debugger(path)
        self.debugger.begin()
        self.mode = None
        header = pathlib.Path(executable).read_bytes()[52:84]
        offset, address, _, size = struct.unpack("<4I", header[4:20])
        text = pathlib.Path(executable).read_bytes()[offset:offset + size]
        self.store = next(address + k for k in range(0, size, 2) if text[k:k + 2] == STORE)

    def close(self):
        self.process.kill()
        self.process.wait()
        self.debugger.socket.close()
        self.folder.cleanup()

    def run_to(self, address):
        """Runs until an instruction is to be executed, and is not executed yet."""
        self.debugger.ask(f"Z0,{address:x},2")
        self.debugger.ask("c")
        self.debugger.ask(f"z0,{address:x},2")

    def registers(self):
        """The registers 0 to 15."""
        return struct.unpack_from("<16I", bytes.fromhex(self.debugger.ask("g")[:128]))

    def word(self, address):
        """A word of memory."""
        return int.from_bytes(self.debugger.read(address, 4), "little")

    def step(self, requests=True):
        """Executes one instruction; without requests no interrupt is taken before it."""
        mode = "5" if requests else "7"
        if mode != self.mode:
            self.debugger.ask("Qqemu.sstep=" + mode)
            self.mode = mode
        self.debugger.ask("s")

    def skip(self, place):
        """Passes over a WFI, which would let the emulator wait for a request."""
        self.debugger.set_register(PC, place + 2)

    def pend(self, number, now):
        """A request of an interrupt, or, where there is no number, of a tick; the registers, given as they are now, are
        put back."""
        address, value = (ICSR, PEND_TICK) if number is None else (STIR, number)
        for register, other in {R0: address, R1: value, PC: self.store}.items():
            self.debugger.set_register(register, other)
        self.step(requests=False)
        for register in (R0, R1, PC):
            self.debugger.set_register(register, now[register])

    def emitted(self):
        """The words that were stored to the port so far."""
        text = self.log.read_text() if self.log.exists() else ""
        return [int(value, 16) for value in re.findall(r"offset 0x4c data 0x([0-9a-f]+)", text)]
