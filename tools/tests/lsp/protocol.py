"""The protocol itself: frames, errors, encodings, changes, diagnostics, the end of a session, and how long it takes."""
import json
import os
import random
import signal

from client import LONGEST, Client, place
from reading import ROOT, applied, cases, place as place_in

PARSE_ERROR, INVALID_REQUEST, METHOD_NOT_FOUND, INVALID_PARAMS = -32700, -32600, -32601, -32602
NOT_INITIALIZED, CANCELLED = -32002, -32800
ERROR, WARNING = 1, 2
URI, OTHER = "file:///a.rtic", "file:///b%20c.rtic"
SEED, EDITS = 58, 60
GOOD = "app a(bits = 3);\ninterrupts {}\nidle { let x = 1; emit x; }\n"
SEVERAL = "app a(bits = 3);\ninterrupts { A = 1, A = 2 }\nidle { emit 1 }\n" \
    "task t(binds = B) { let x = 1; let x = 2; }\n"
FOREIGN = "app é𝄞 a(bits = 3);\ninterrupts {}\n"
WIDE = {"utf-8": 6, "utf-16": 3, "utf-32": 2}
LINES = 1_000
METHODS = ("hover", "definition", "references", "documentHighlight", "prepareRename", "rename", "completion",
           "documentSymbol", "formatting")


def code_of(message):
    return message.get("error", {}).get("code")


def try_errors(told):
    """Requests at the wrong time, or of no form."""
    client = Client(begins=False)
    early = client.respond("textDocument/hover", place(URI, 0, 0))
    told.expect("protocol", f"before `initialize`: {early}", code_of(early) == NOT_INITIALIZED)
    client.tell("textDocument/didOpen", {})
    client.ask("initialize", {"capabilities": {}})
    again = client.respond("initialize", {"capabilities": {}})
    told.expect("protocol", f"`initialize` twice: {again}", code_of(again) == INVALID_REQUEST)
    unknown = client.respond("workspace/none", {})
    told.expect("protocol", f"no method: {unknown}", code_of(unknown) == METHOD_NOT_FOUND)
    for params in (None, {}, {"textDocument": {"uri": 1}}, place(URI, "0", 0), place(OTHER, 0, 0), [1]):
        answer = client.respond("textDocument/hover", params)
        told.expect("protocol", f"{params}: {answer}", code_of(answer) == INVALID_PARAMS)
    client.tell("$/none", {})
    client.tell("textDocument/none", None)
    client.open(URI, GOOD)
    told.expect("protocol", "after notifications that it does not know", client.at("hover", URI, 0, 0) is not None)
    client.ask("shutdown", None)
    late = client.respond("textDocument/hover", place(URI, 0, 0))
    told.expect("protocol", f"after `shutdown`: {late}", code_of(late) == INVALID_REQUEST)
    client.tell("exit", None)
    told.expect("protocol", "the status after `shutdown` and `exit`", client.child.wait(LONGEST) == 0)


def try_frames(told):
    """After what is no message comes an error, and then the next message is answered."""
    client = Client()
    client.open(URI, GOOD)
    body = json.dumps({"jsonrpc": "2.0", "id": 9, "method": "workspace/none"}).encode()
    head = b"Content-Length: %d\r\n\r\n"
    broken = [
        (b"Content-Length: 5\r\n\r\n{\"a\":", PARSE_ERROR), (head % (len(body) - 4) + body, PARSE_ERROR),
        (b"junk\r\n\r\n", PARSE_ERROR), (b"Content-Type: x\r\n\r\n", PARSE_ERROR), (head % 2 + b"[]", INVALID_REQUEST),
        (head % 4 + b"\xff\xff\xff\xff", PARSE_ERROR), (head % 14 + b'{"method": 12}', INVALID_REQUEST),
    ]
    for data, code in broken:
        client.write(data)
        told.expect("protocol", f"after {data[:40]!r}", client.at("hover", URI, 0, 0) is not None)
        message, _ = client.answer(None)
        told.expect("protocol", f"{data[:40]!r}: {message}", code_of(message) == code)
        client.answers.pop(None)
    client.write(head % len(body) + b"Content-Type: application/vscode-jsonrpc; charset=utf-8\r\n\r\n"[:0] + body)
    told.expect("protocol", "a good frame", code_of(client.answer(9)[0]) == METHOD_NOT_FOUND)
    client.write(b"Content-Length: 100\r\n\r\n{")
    client.child.stdin.close()
    told.expect("protocol", "the status where the input ends", client.child.wait(LONGEST) == 1)
    told.expect("protocol", "what is said where it ends", b"the input ended" in client.child.stderr.read())


def try_end(told):
    client = Client()
    client.tell("exit", None)
    told.expect("protocol", "the status of `exit` alone", client.child.wait(LONGEST) == 1)


def try_cancel(told):
    """A request that waits while its cancellation comes is answered with an error, once; others are answered."""
    client = Client()
    client.open(URI, large())
    client.child.send_signal(signal.SIGSTOP)
    numbers = [client.request("textDocument/hover", place(URI, line, 6)) for line in range(12)]
    for number in numbers[6:] + [12345, numbers[6]]:
        client.tell("$/cancelRequest", {"id": number})
    client.child.send_signal(signal.SIGCONT)
    codes = [code_of(client.answer(number)[0]) for number in numbers]
    told.expect("protocol", f"cancelled requests: {codes}", codes[:1] == [None] and CANCELLED in codes[6:]
                and set(codes) <= {None, CANCELLED} and CANCELLED not in codes[:6])
    told.expect("protocol", "after that", client.at("hover", URI, 0, 0) is not None and client.end() == 0)


def try_encodings(told):
    """A place behind signs that are not ASCII, in each encoding of the protocol that can be agreed on."""
    for offered, due in ((("utf-16", "utf-8"), "utf-8"), ((), "utf-16"), (("utf-32",), "utf-32")):
        client = Client(encodings=offered)
        told.expect("encodings", f"{offered}", client.capabilities["positionEncoding"] == due)
        client.open(URI, FOREIGN)
        found = client.diagnostics(URI, 1)[0]
        wide = WIDE[due]
        told.expect("encodings", f"{due}: {found['range']}", found["code"] == "E02" and found["range"] == {
            "start": {"line": 0, "character": 4}, "end": {"line": 0, "character": 4 + (2 if due == "utf-8" else 1)}})
        shown = client.at("hover", URI, 0, 4 + wide + 1)
        told.expect("encodings", f"{due}: {shown}", shown and shown["range"]["start"]["character"] == 4 + wide + 1)
        client.change(URI, 2, {"range": {"start": {"line": 0, "character": 4},
                                         "end": {"line": 0, "character": 4 + wide}}, "text": ""})
        told.expect("encodings", f"{due}: after the change", client.diagnostics(URI, 2) == [])
        client.end()


def try_changes(told):
    """Two documents under random edits, some of all the text, are read as texts that are opened anew."""
    client, chosen = Client(), random.Random(SEED)
    texts = {URI: GOOD, OTHER: (ROOT / "examples" / "forms.rtic").read_text(encoding="ascii")}
    for uri, text in texts.items():
        client.open(uri, text)
    for version in range(2, EDITS):
        uri = chosen.choice(list(texts))
        changes = []
        for _ in range(chosen.randrange(1, 4)):
            start, stop = sorted(chosen.randrange(len(texts[uri]) + 1) for _ in range(2))
            edit = {"range": {"start": spot(texts[uri], start), "end": spot(texts[uri], min(stop, start + 9))},
                    "newText": chosen.choice(["", "x", "task u {}\r\n", "}", "let y = 1;\n"])}
            texts[uri] = applied(texts[uri], [edit])
            changes.append({"range": edit["range"], "text": edit["newText"]})
        client.change(uri, version, *(changes if version % 10 else [{"text": texts[uri]}]))
    for uri, text in texts.items():
        client.open(uri + ".new", text)
        both = [client.ask("textDocument/documentSymbol", {"textDocument": {"uri": one}})
                for one in (uri, uri + ".new")]
        told.expect("changes", f"{uri}: {both}", both[0] == both[1])
        line, character = place_in(text, len(text) // 2)
        both = [client.at("completion", one, line, character) for one in (uri, uri + ".new")]
        told.expect("changes", f"{uri}: {both}", both[0] == both[1])
    client.close(URI)
    told.expect("changes", "a closed document", client.diagnostics(URI, None) == [])
    client.end()


def spot(text, at):
    line, character = place_in(text, at)
    return {"line": line, "character": character}


def try_diagnostics(told):
    """One case of each refusal: its place and number are those of the table; and a warning."""
    client, tried = Client(), {}
    for case in cases("refusals") + cases("syntax") + cases("limits"):
        line = case.get("output", b"").decode("latin-1")
        text = case.get("app", b"")
        if " E" in line[:12] and len(text) < 4_000 and text.isascii():
            tried.setdefault(line.split(" ")[1], (text.decode(), line))
    for number, (text, line) in sorted(tried.items()):
        uri = f"file:///{number}.rtic"
        client.open(uri, text)
        found = client.diagnostics(uri, 1)
        row, column = (int(word) - 1 for word in line.split(" ")[0].split(":"))
        told.expect("diagnostics", f"{number}: {line!r}, {found}", found and found[0]["code"] == number
                    and found[0]["range"]["start"] == {"line": row, "character": column}
                    and found[0]["severity"] == ERROR and "\nhelp: " in found[0]["message"]
                    and found[0]["message"].startswith(line.split(" ", 2)[2].strip()))
    told.expect("diagnostics", f"kinds of refusals: {len(tried)}", len(tried) >= 16)
    client.open(OTHER, SEVERAL)
    told.expect("diagnostics", "the program's refusal comes first, and alone", [
        one["code"] for one in client.diagnostics(OTHER, 1)] == ["E03"])
    found = client.diagnostics(OTHER, 1)
    told.expect("diagnostics", f"all refusals: {found}", sorted(
        (one["code"], one["range"]["start"]["line"], one["range"]["start"]["character"]) for one in found)
        == [("E03", 2, 14), ("E05", 3, 15), ("E06", 1, 20), ("E06", 3, 35)])
    told.expect("diagnostics", "the other place of a name that is declared twice", [
        one["relatedInformation"][0]["location"]["range"]["start"] for one in found if one["code"] == "E06"]
        == [{"line": 1, "character": 13}, {"line": 3, "character": 24}])
    client.open(URI, GOOD.replace("interrupts {}", "interrupts { A = 1 }"))
    told.expect("diagnostics", "a warning", [(one["severity"], one["message"], one["range"]["start"])
                for one in client.diagnostics(URI, 1)] == [
                    (WARNING, "nobody uses the interrupt `A`", {"line": 1, "character": 13})])
    client.end()


def try_formatting(told):
    """A text without comments becomes what `fmt` writes; one with comments keeps them, or stays."""
    client = Client()
    rows = [case for case in cases("canonical") if case.get("exit") == b"0\n" and case["app"].isascii()]
    for number, case in enumerate(row for row in rows if b"//" not in row["app"] and len(row["app"]) < 2_000):
        uri, text = f"file:///f{number}.rtic", case["app"].decode()
        client.open(uri, text)
        edits = client.ask("textDocument/formatting", {"textDocument": {"uri": uri}, "options": {}})
        told.expect("formatting", f"{text[:60]!r}: {edits}", applied(text, edits) == case["output"].decode()
                    and bool(edits) == (text != case["output"].decode()))
        if number == 11:
            break
    client.open(URI, "app a(bits = 3);interrupts {} // kept\n")
    edits = client.ask("textDocument/formatting", {"textDocument": {"uri": URI}, "options": {}})
    told.expect("formatting", f"a comment: {edits}", all("// kept" in edit["newText"] for edit in edits))
    client.open(OTHER, "app a(bits = 3) interrupts {}")
    told.expect("formatting", "a refused text", client.ask(
        "textDocument/formatting", {"textDocument": {"uri": OTHER}, "options": {}}) == [])
    client.end()


def large():
    """An application of 1,000 lines: tasks with locks, loops, messages and handles."""
    head = "app large(bits = 4, dispatchers = [D]);\ninterrupts { D = 200, T = 201, "
    head += ", ".join(f"I{number} = {number}" for number in range(30))
    head += " }\nmonotonic(binds = T, priority = 5);\nshared { "
    head += ", ".join(f"r{number} = 0" for number in range(30)) + " }\nlocal { "
    head += ", ".join(f"n{number} = 0" for number in range(30)) + " }\n"
    text = head + "".join(task().replace("%", str(number)) for number in range(30))
    text += "task work(priority = 1, capacity = 4) with a, b {\n"
    return text + "    emit a + b;\n" * (LINES - 1 - text.count("\n")) + "}\n"


def task():
    """The text of one task, with `%` for its number: 32 lines."""
    lines = ["task t%(binds = I%, priority = 2, shared = [r%], local = [n%]) {",
             "    let h = spawn_after(%) work(n%, 1);"]
    for turn in range(4):
        lines += [f"    for i{turn} in 0..4 {{", f"        lock r% {{ r% = r% + i{turn} * (n% & 15); }}",
                  f"        let x{turn} = (n% + i{turn}) << 2;", f"        if x{turn} > 7 {{ emit x{turn}; }}",
                  "        n% = n% ^ 1;", "    }", f"    let y{turn} = n% * 3;"]
    return "\n".join(lines + ["    cancel work(h);", "}", ""])


def processor_seconds(number):
    """The processor time that a process has taken, without that of the programs that it ran."""
    with open(f"/proc/{number}/stat", encoding="ascii") as file:
        row = file.read().rpartition(")")[2].split()
    return sum(map(int, row[11:13])) / os.sysconf("SC_CLK_TCK")


def costs(client, turns=3):
    """The server's processor seconds of each request on a text of 1,000 lines, with the reading of a change: the least
    of some turns, because on a busy machine processor time counts for more, now and then much more."""
    text, version, found = large(), 1, {}
    client.open(URI, text)
    line, character = place_in(text, text.index("r7 = r7") + 1)
    blank = {"line": LINES // 2, "character": 0}
    client.diagnostics(URI, 1)
    for method in METHODS:
        for _ in range(turns):
            begun = processor_seconds(client.child.pid)
            version += 1
            client.change(URI, version, {"range": {"start": blank, "end": blank}, "text": " "})
            client.at(method, URI, line, character, newName="fresh", context={"includeDeclaration": True}, options={})
            seconds = processor_seconds(client.child.pid) - begun
            found[method] = min(seconds, found.get(method, seconds))
    client.end()
    return found


def times(client, count):
    """How long each request takes on a text of 1,000 lines, in seconds: half of them right after a change of it."""
    chosen, text = random.Random(SEED), large()
    names = [at for at in range(len(text)) if text[at] in "rnhxy" and text[at - 1] == " "]
    client.open(URI, text)
    client.times.clear()
    for version in range(2, 2 + count):
        line, character = place_in(text, chosen.choice(names))
        if version % 2:
            blank = {"line": LINES // 2, "character": 0}
            client.change(URI, version, {"range": {"start": blank, "end": blank}, "text": " "})
            character += line == LINES // 2
        for method in chosen.sample(METHODS, len(METHODS)):
            client.at(method, URI, line, character, newName="fresh", context={"includeDeclaration": True}, options={})
    found = {}
    for method, seconds in client.times:
        found.setdefault(method.rpartition("/")[2], []).append(seconds)
    client.end()
    return found


def try_all(told):
    for part in (try_errors, try_frames, try_end, try_cancel, try_encodings, try_changes, try_diagnostics,
                 try_formatting):
        part(told)
