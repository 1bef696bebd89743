"""The session of `tools/lsp`: one thread reads messages, so that what is cancelled is known before its turn comes."""
import gc
import queue
import sys
import threading

from .framing import Broken, Sink, messages
from .server import INVALID_REQUEST, PARSE_ERROR, Server

ENDED_WELL, ENDED_EARLY = 0, 1
# between two looks for what can be freed: a text is read into tens of thousands of objects, all of which are kept
ALLOCATIONS = 100_000


class Inbox:
    """Messages in their order, and the numbers of the requests among them that are cancelled."""

    def __init__(self):
        self.waiting = queue.Queue()
        self.lock = threading.Lock()
        self.open, self.cancelled = set(), set()

    def fill(self, source):
        """Reads a stream to its end."""
        for message in messages(source):
            if isinstance(message, dict) and message.get("method") == "$/cancelRequest":
                self.cancel((message.get("params") or {}).get("id"))
                continue
            number = number_of(message)
            with self.lock:
                self.open |= {number} if number is not None else set()
            self.waiting.put(message)
        self.waiting.put(None)

    def cancel(self, number):
        with self.lock:
            if isinstance(number, (int, str)) and number in self.open:
                self.cancelled.add(number)

    def takes(self, number):
        """Whether a request was cancelled, now that its turn has come; from now on it cannot be."""
        with self.lock:
            self.open.discard(number)
            was = number in self.cancelled
            self.cancelled.discard(number)
            return was


def number_of(message):
    """The number of a request, or None."""
    number = message.get("id") if isinstance(message, dict) and "method" in message else None
    return number if isinstance(number, (int, str)) else None


def answer(server, inbox, message):
    """Hands one message to the server, if it is one."""
    if isinstance(message, Broken):
        print(f"tools/lsp: {message}", file=sys.stderr)
        server.sink.write({"id": None, "error": {"code": PARSE_ERROR, "message": str(message)}})
    elif not isinstance(message, dict) or not isinstance(message.get("method", ""), str):
        server.sink.write({"id": None, "error": {"code": INVALID_REQUEST, "message": "this is no request"}})
    elif "method" in message:
        number = number_of(message)
        server.handle(message, lambda: number is not None and inbox.takes(number))


def session(source, stream):
    """Answers messages until `exit` comes or the input ends: the status is 0 where `shutdown` came before `exit`."""
    gc.set_threshold(ALLOCATIONS)
    server, inbox = Server(Sink(stream)), Inbox()
    threading.Thread(target=inbox.fill, args=(source,), daemon=True).start()
    try:
        while (message := inbox.waiting.get()) is not None:
            if isinstance(message, dict) and message.get("method") == "exit":
                return ENDED_WELL if server.is_shut_down else ENDED_EARLY
            answer(server, inbox, message)
        print("tools/lsp: the input ended without `exit`", file=sys.stderr)
        return ENDED_EARLY
    except BrokenPipeError:
        return ENDED_EARLY
    finally:
        server.end()
