"""A client of the language server: it starts it, speaks the protocol with it, and measures how long answers take."""
import json
import os
import pathlib
import queue
import subprocess
import sys
import threading
import time

SERVER = pathlib.Path(__file__).resolve().parents[2] / "lsp"
LONGEST = 60


class Client:
    """One session with a server of its own."""

    def __init__(self, program=None, encodings=(), begins=True):
        environment = dict(os.environ, **({"RTIC": program} if program else {}))
        self.child = subprocess.Popen([sys.executable, str(SERVER)], stdin=subprocess.PIPE, stdout=subprocess.PIPE,
                                      stderr=subprocess.PIPE, env=environment)
        self.answers, self.notified, self.times = {}, queue.Queue(), []
        self.arrived = threading.Condition()
        self.is_ended = False
        self.number = 0
        threading.Thread(target=self.listen, daemon=True).start()
        if begins:
            offered = {"general": {"positionEncodings": list(encodings)}} if encodings else {}
            self.capabilities = self.ask("initialize", {"processId": None, "capabilities": offered})["capabilities"]
            self.tell("initialized", {})

    # Bytes and messages.

    def write(self, data):
        self.child.stdin.write(data)
        self.child.stdin.flush()

    def send(self, message):
        body = json.dumps({"jsonrpc": "2.0", **message}).encode()
        self.write(b"Content-Length: %d\r\n\r\n" % len(body) + body)

    def listen(self):
        """Takes what the server sends until its output ends."""
        stream = self.child.stdout
        while header := stream.readline():
            length = int(header.split(b":")[1])
            stream.readline()
            message = json.loads(stream.read(length))
            if "method" in message:
                self.notified.put(message)
                continue
            with self.arrived:
                self.answers.setdefault(message["id"], []).append((message, time.perf_counter()))
                self.arrived.notify_all()
        with self.arrived:
            self.is_ended = True
            self.arrived.notify_all()

    def tell(self, method, params):
        self.send({"method": method, "params": params})

    def request(self, method, params):
        """Sends a request: its number."""
        self.number += 1
        self.send({"id": self.number, "method": method, "params": params})
        return self.number

    def answer(self, number):
        """The answer to a request, a result or an error, and when it came."""
        with self.arrived:
            came = self.arrived.wait_for(lambda: self.answers.get(number) or self.is_ended, LONGEST)
            if not came or not self.answers.get(number):
                raise AssertionError(f"no answer to request {number}")
            return self.answers[number].pop(0)

    def respond(self, method, params):
        """Asks, and takes the whole answer."""
        begun = time.perf_counter()
        message, came = self.answer(self.request(method, params))
        self.times.append((method, came - begun))
        return message

    def ask(self, method, params):
        """The result of a request."""
        message = self.respond(method, params)
        if "error" in message:
            raise AssertionError(f"{method}: {message['error']}")
        return message["result"]

    # Documents.

    def open(self, uri, text, version=1):
        self.tell("textDocument/didOpen",
                  {"textDocument": {"uri": uri, "languageId": "rtic", "version": version, "text": text}})

    def change(self, uri, version, *changes):
        self.tell("textDocument/didChange",
                  {"textDocument": {"uri": uri, "version": version}, "contentChanges": list(changes)})

    def close(self, uri):
        self.tell("textDocument/didClose", {"textDocument": {"uri": uri}})

    def at(self, name, uri, line, character, **more):
        """The result of a request on a place."""
        return self.ask(f"textDocument/{name}", place(uri, line, character, **more))

    def diagnostics(self, uri, version):
        """The next diagnostics of a version of a document."""
        while True:
            message = self.notified.get(timeout=LONGEST)
            params = message["params"]
            if message["method"] == "textDocument/publishDiagnostics" and params["uri"] == uri \
                    and params.get("version") == version:
                return params["diagnostics"]

    def end(self):
        """Shuts the server down: its status."""
        self.ask("shutdown", None)
        self.tell("exit", None)
        return self.child.wait(LONGEST)


def place(uri, line, character, **more):
    """The parameters of a request on a place."""
    return {"textDocument": {"uri": uri}, "position": {"line": line, "character": character}, **more}
