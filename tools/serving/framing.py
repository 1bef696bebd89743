"""Messages on a stream: a header with their length, an empty line, and a text of JSON."""
import json
import re
import threading

LENGTH = re.compile(rb"Content-Length: *([0-9]{1,9})\r?\n$", re.IGNORECASE)
OTHER = re.compile(rb"Content-Type:[^\n]*\n$", re.IGNORECASE)
EMPTY = (b"\r\n", b"\n")
SHOWN = 60
LONGEST_LINE = 4096


class Broken(Exception):
    """What came is no message; the reader goes on behind it."""


def messages(source):
    """The messages of a stream, and for each piece of it that is none what is wrong; then it goes on behind that."""
    length, begun, is_lost = None, False, False
    while line := source.readline(LONGEST_LINE):
        found = LENGTH.search(line)
        is_header = found and not found.start() or OTHER.match(line)
        if line in EMPTY and length is not None:
            yield message_of(source.read(length), length)
            length, begun, is_lost = None, False, False
        elif not is_lost and (not is_header and line not in EMPTY or line in EMPTY and begun):
            yield Broken(f"no header of a message, or none with its length: {line[:SHOWN]!r}")
            is_lost = True
        if found:
            length = int(found[1])
        begun = bool(is_header) or begun and line not in EMPTY
    if length is not None:
        yield Broken("the input ends inside a header")


def message_of(body, length):
    """The message of a body, or what is wrong with it."""
    if len(body) < length:
        return Broken(f"the input ends after {len(body)} of {length} bytes of a message")
    try:
        message = json.loads(body)
    except (ValueError, RecursionError) as fault:
        return Broken(f"no text of JSON: {fault}")
    return message


class Sink:
    """Writes messages, one at a time, from several threads."""

    def __init__(self, stream):
        self.stream = stream
        self.lock = threading.Lock()

    def write(self, message):
        body = json.dumps({"jsonrpc": "2.0", **message}, separators=(",", ":")).encode("ascii")
        with self.lock:
            self.stream.write(b"Content-Length: %d\r\n\r\n" % len(body) + body)
            self.stream.flush()
