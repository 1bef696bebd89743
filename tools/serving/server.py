"""The server: what it answers to each request and notification of the Language Server Protocol."""
import sys
import traceback

from . import renaming
from .answers import Asked
from .completing import completions
from .documents import UNITS, Document, Text, bytes_of
from .formatting import formatting
from .hovering import hover
from .outline import outline
from .watching import Watcher

PARSE_ERROR, INVALID_REQUEST, METHOD_NOT_FOUND, INVALID_PARAMS, INTERNAL = -32700, -32600, -32601, -32602, -32603
NOT_INITIALIZED, FAILED, CANCELLED = -32002, -32803, -32800
READ, WRITE = 2, 3
INCREMENTAL, WARNED = 2, 2
NOT_BUILT = "the proved program is not built, so no refusals are shown: ./build makes it, or RTIC names one"


class Fault(Exception):
    """A request that is answered with an error."""

    def __init__(self, code, words):
        super().__init__(words)
        self.code = code


class Server:
    """The state of one session; `sink` takes what is sent."""

    def __init__(self, sink):
        self.sink = sink
        self.asked = Asked()
        self.watcher = Watcher(self.publish)
        self.documents = {}
        self.encoding = "utf-16"
        self.is_initialized = self.is_shut_down = False

    # Messages.

    def handle(self, message, is_cancelled=lambda: False):
        """Takes one message, and answers it if it is a request."""
        number = message.get("id")
        try:
            if is_cancelled():
                raise Fault(CANCELLED, "cancelled")
            answer = self.call(message["method"], message.get("params"), number is not None)
        except Fault as fault:
            return self.refuse(number, fault.code, str(fault))
        except renaming.Refused as fault:
            return self.refuse(number, FAILED, str(fault))
        except (KeyError, TypeError, AttributeError, ValueError, IndexError, RecursionError):
            traceback.print_exc(file=sys.stderr)
            return self.refuse(number, INTERNAL, "this is a fault of tools/lsp; its standard error says more")
        if number is not None:
            self.sink.write({"id": number, "result": answer})
        return None

    def refuse(self, number, code, words):
        """Answers a request with an error; a notification has no answer."""
        if number is not None:
            self.sink.write({"id": number, "error": {"code": code, "message": words}})

    def call(self, method, params, is_request):
        """The answer of a method; notifications that are not known are passed over."""
        found = (REQUESTS if is_request else NOTIFICATIONS).get(method)
        if is_request and self.is_shut_down:
            raise Fault(INVALID_REQUEST, "the server is shut down")
        if is_request and not self.is_initialized and method != "initialize":
            raise Fault(NOT_INITIALIZED, "the first request is `initialize`")
        if found is None and is_request:
            raise Fault(METHOD_NOT_FOUND, f"there is no method `{method}` here")
        if found is None or not is_request and not self.is_initialized:
            return None
        return found(self, self.checked(method, params))

    def checked(self, method, params):
        """The parameters, if they have what the method wants."""
        wanted = SHAPES.get(method, ())
        for path, kind in wanted:
            value = params
            for key in path.split("."):
                value = value.get(key) if isinstance(value, dict) else None
            if not isinstance(value, kind) or isinstance(value, bool):
                raise Fault(INVALID_PARAMS, f"`{method}` wants `{path}`")
        return params

    def notify(self, method, params):
        self.sink.write({"method": method, "params": params})

    def publish(self, uri, version, told):
        found = {"uri": uri, "diagnostics": told}
        self.notify("textDocument/publishDiagnostics", found if version is None else {**found, "version": version})

    # The session.

    def initialize(self, params):
        if self.is_initialized:
            raise Fault(INVALID_REQUEST, "`initialize` comes once")
        general = params.get("capabilities", {}).get("general", {}) or {}
        offered = general.get("positionEncodings") or []
        self.encoding = next((one for one in UNITS if one in offered), "utf-16")
        self.is_initialized = True
        self.watcher.start()
        if not self.asked.answers:
            self.notify("window/showMessage", {"type": WARNED, "message": NOT_BUILT})
        return {"capabilities": self.capabilities(), "serverInfo": {"name": "tools/lsp of rtic"}}

    def capabilities(self):
        return {
            "positionEncoding": self.encoding,
            "textDocumentSync": {"openClose": True, "change": INCREMENTAL, "save": {"includeText": False}},
            "hoverProvider": True, "definitionProvider": True, "referencesProvider": True,
            "documentHighlightProvider": True, "renameProvider": {"prepareProvider": True},
            "completionProvider": {"triggerCharacters": ["&"]}, "documentSymbolProvider": True,
            "documentFormattingProvider": True,
        }

    def shutdown(self, params):
        self.is_shut_down = True

    # Documents.

    def opened(self, params):
        found = params["textDocument"]
        text = Text(bytes_of(found["text"]), self.encoding)
        document = self.documents[found["uri"]] = Document(found["uri"], found["version"], text)
        self.asked.look()
        self.watcher.look(document, 0)

    def changed(self, params):
        found = params["textDocument"]
        document = self.documents.get(found["uri"])
        if document:
            document.change(found["version"], params["contentChanges"])
            self.watcher.look(document)

    def saved(self, params):
        document = self.documents.get(params["textDocument"]["uri"])
        if document:
            self.asked.look()
            self.watcher.look(document, 0)

    def closed(self, params):
        if self.documents.pop(params["textDocument"]["uri"], None):
            self.watcher.forget(params["textDocument"]["uri"])

    def text(self, params):
        """The newest text of the document that a request is about."""
        document = self.documents.get(params["textDocument"]["uri"])
        if document is None:
            raise Fault(INVALID_PARAMS, f"the document is not open: {params['textDocument']['uri']}")
        return document.text

    def place(self, params):
        """The text and the offset that a request is about."""
        text = self.text(params)
        return text, text.offset(params["position"])

    def found(self, params):
        """The text and the occurrence that a request is about; that is None where no name is there."""
        text, offset = self.place(params)
        return text, text.names.at(offset)

    # Requests on a place.

    def hover(self, params):
        text, offset = self.place(params)
        return hover(text, self.asked.report(text), offset)

    def definition(self, params):
        text, found = self.found(params)
        return found and self.location(params, text, found.symbol.token)

    def location(self, params, text, token):
        return {"uri": params["textDocument"]["uri"], "range": text.range_of(token)}

    def references(self, params):
        text, found = self.found(params)
        declared = params.get("context", {}).get("includeDeclaration", True)
        return found and [self.location(params, text, one.token) for one in found.symbol.occurrences
                          if declared or one.token is not found.symbol.token]

    def highlights(self, params):
        text, found = self.found(params)
        return found and [{"range": text.range_of(one.token), "kind": WRITE if one.is_write else READ}
                          for one in found.symbol.occurrences]

    def prepare_rename(self, params):
        text, found = self.found(params)
        return found and {"range": text.range_of(found.token), "placeholder": found.token.text}

    def rename(self, params):
        text, found = self.found(params)
        if found is None:
            raise Fault(FAILED, "no name is here that could be renamed")
        new = bytes_of(params["newName"])
        tokens = renaming.rename(text, found, new)
        edits = [{"range": text.range_of(token), "newText": new} for token in tokens]
        return {"changes": {params["textDocument"]["uri"]: edits}} if edits else None

    def completion(self, params):
        return completions(*self.place(params))

    # Requests on a document.

    def symbols(self, params):
        return outline(self.text(params))

    def formatting(self, params):
        return formatting(self.asked, self.text(params))

    def end(self):
        """Ends the thread and removes what was written."""
        if self.watcher.is_alive():
            self.watcher.end()
        self.asked.close()


REQUESTS = {
    "initialize": Server.initialize, "shutdown": Server.shutdown, "textDocument/hover": Server.hover,
    "textDocument/definition": Server.definition, "textDocument/references": Server.references,
    "textDocument/documentHighlight": Server.highlights, "textDocument/prepareRename": Server.prepare_rename,
    "textDocument/rename": Server.rename, "textDocument/completion": Server.completion,
    "textDocument/documentSymbol": Server.symbols, "textDocument/formatting": Server.formatting,
}
NOTIFICATIONS = {
    "textDocument/didOpen": Server.opened, "textDocument/didChange": Server.changed,
    "textDocument/didSave": Server.saved, "textDocument/didClose": Server.closed,
}
DOCUMENT = [("textDocument.uri", str)]
PLACE = DOCUMENT + [("position.line", int), ("position.character", int)]
SHAPES = {
    "initialize": [("capabilities", dict)],
    "textDocument/didOpen": DOCUMENT + [("textDocument.text", str), ("textDocument.version", int)],
    "textDocument/didChange": DOCUMENT + [("textDocument.version", int), ("contentChanges", list)],
    "textDocument/didSave": DOCUMENT, "textDocument/didClose": DOCUMENT, "textDocument/documentSymbol": DOCUMENT,
    "textDocument/formatting": DOCUMENT, "textDocument/rename": PLACE + [("newName", str)],
    **{f"textDocument/{name}": PLACE for name in ("hover", "definition", "references", "documentHighlight",
                                                  "prepareRename", "completion")},
}
