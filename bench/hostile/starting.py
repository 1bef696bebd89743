"""Starts of the program: what it wrote and how it ended, with little stack, little memory, or memory refused."""
import mmap
import os
import resource
import signal
import struct
import subprocess
import tempfile
import threading
import time
from collections import namedtuple
from pathlib import Path

HERE = Path(__file__).resolve().parent
ROOT = HERE.parents[1]
# seconds for one start, and between two looks at the one under way
LONGEST = 60
LOOK = 1.0

# how a program ended: its status, or the negative number of a signal; what it wrote; and what on standard error
Ended = namedtuple("Ended", "status output error")


class Starter:
    """Starts a program again and again, with files in a folder of its own."""

    def __init__(self, program):
        self.program = os.path.abspath(program)
        self.folder = tempfile.TemporaryDirectory(prefix="rtic-faults-")
        self.output, self.error = self.path("output"), self.path("error")
        self.starts, self.under_way = 0, None
        # the statuses with which the words of each command ended
        self.statuses = set()

    def path(self, name):
        return os.path.join(self.folder.name, name)

    def write(self, name, text):
        """Writes a file, and answers its path."""
        with open(self.path(name), "wb") as to:
            to.write(text)
        return self.path(name)

    def ended(self, words, environment=(), output=None, wrapper=()):
        """Starts the program with words. `output`, in place of a fresh file, is a path, the number of an open file, or
        the word `closed`; `wrapper` are the words of a program that starts it."""
        fresh = os.O_WRONLY | os.O_CREAT | os.O_TRUNC
        actions = [(os.POSIX_SPAWN_OPEN, 0, os.devnull, os.O_RDONLY, 0)]
        if output == "closed":
            actions.append((os.POSIX_SPAWN_CLOSE, 1))
        elif isinstance(output, int):
            actions.append((os.POSIX_SPAWN_DUP2, output, 1))
        else:
            actions.append((os.POSIX_SPAWN_OPEN, 1, output or self.output, fresh, 0o600))
        actions.append((os.POSIX_SPAWN_OPEN, 2, self.error, fresh, 0o600))
        command = [*wrapper, self.program, *words]
        pid = os.posix_spawn(command[0], command, dict(environment), file_actions=actions,
                             setsigdef=[signal.SIGPIPE])
        self.starts += 1
        self.under_way = (pid, time.monotonic())
        _pid, how = os.waitpid(pid, 0)
        self.under_way = None
        status = os.waitstatus_to_exitcode(how)
        self.statuses.add((words[0] if words else "", status))
        return Ended(status, b"" if output else self.read(self.output), self.read(self.error))

    def stack(self):
        """The stack that a program which is started has, in kibibytes, as a shell says it."""
        return self.ended([], wrapper=("/bin/sh", "-c", "ulimit -s")).output.decode().strip()

    @staticmethod
    def read(path):
        with open(path, "rb") as taken:
            return taken.read()

    def end_what_hangs(self):
        """Ends the start under way where it has taken too long; its status is then that of the signal."""
        late = self.under_way
        if late and time.monotonic() - late[1] > LONGEST:
            os.kill(late[0], signal.SIGKILL)


def with_little_stack(kibibytes, starter, work):
    """Does work, a call without arguments, in a thread, while each program that is started has so much stack alone. The
    thread has a stack of its own, since the limit holds for this program's first one too."""
    caught, limited = [], threading.Event()

    def guarded():
        limited.wait()
        try:
            work()
        except BaseException as fault:
            caught.append(fault)

    kept = resource.getrlimit(resource.RLIMIT_STACK)
    threading.stack_size(512 << 20)
    worker = threading.Thread(target=guarded)
    worker.start()
    if kibibytes:
        resource.setrlimit(resource.RLIMIT_STACK, (kibibytes << 10, kept[1]))
    limited.set()
    while worker.is_alive():
        worker.join(LOOK)
        starter.end_what_hangs()
    resource.setrlimit(resource.RLIMIT_STACK, kept)
    if caught:
        raise caught[0]


class Preloaded:
    """A library that is made of a file of this folder and loaded in front of the C library, and the numbers that it
    shares with whoever starts the program."""

    def __init__(self, starter, source, variable, count):
        self.starter, self.variable = starter, variable
        self.parts, self.count = struct.Struct("Q" * count), count
        self.library = starter.path(f"{source}.so")
        subprocess.run(["gcc", "-O2", "-shared", "-fPIC", "-o", self.library, str(HERE / f"{source}.c")], check=True)
        self.told = starter.write(variable, bytes(self.parts.size))
        with open(self.told, "r+b") as file:
            self.shared = mmap.mmap(file.fileno(), self.parts.size)

    def started(self, words, *numbers):
        """Starts the program with these numbers, and zeros behind them; answers how it ended, and the numbers then."""
        self.shared[:] = self.parts.pack(*numbers, *[0] * (self.count - len(numbers)))
        ended = self.starter.ended(words, {"LD_PRELOAD": self.library, self.variable: self.told})
        return ended, self.parts.unpack(self.shared[:])


class Growths(Preloaded):
    """Growths of a program's memory, counted and refused."""

    ALL = 2**64 - 1

    def __init__(self, starter):
        super().__init__(starter, "refuse", "GROWTHS", 4)

    def ended(self, words, refused=0, until=0):
        """Starts the program while the growths from one number to another are refused; answers how it ended, how many
        growths it asked for, and of how many bytes."""
        ended, (_refused, _until, growths, size) = self.started(words, refused, until)
        return ended, growths, size


class Reads(Preloaded):
    """Reads of one file, which move so many bytes at most; one of them fails, or finds the end of the file."""

    FAILS, ENDS = 1, 2

    def __init__(self, starter):
        super().__init__(starter, "reads", "READS", 6)

    def ended(self, words, path, most, number=0, how=0):
        """Starts the program while each read of a file moves `most` bytes at most, where that is not 0, and the one of
        a number, from 1, does not read; answers how it ended, how many reads there were, and how many bytes came before
        that one."""
        ended, (_file, _most, _number, _how, reads, before) = self.started(
            words, os.stat(path).st_ino, most, number, how)
        return ended, reads, before


class Writes(Preloaded):
    """Writes of standard output, which move so many bytes at most; one of them fails."""

    def __init__(self, starter):
        super().__init__(starter, "writes", "WRITES", 3)

    def ended(self, words, most, number=0):
        """Starts the program while each write moves `most` bytes at most, where that is not 0, and the one of a number,
        from 1, fails; answers how it ended, and how many writes there were."""
        ended, (_most, _number, writes) = self.started(words, most, number)
        return ended, writes


class Told:
    """What is said, and how many differences."""

    def __init__(self):
        self.differences = 0

    def says(self, line):
        print(line, flush=True)

    def differs(self, line):
        self.differences += 1
        self.says(f"DIFFERS: {line}")
