"""Places with what is due there by hand, from docs/LANGUAGE.md and docs/BOUNDS.md. `¦` is the cursor."""
import pathlib

from reading import applied, place, tokens

ROOT = pathlib.Path(__file__).resolve().parents[3]
CURSOR = "¦"
KEYWORD = 14
HEAD = "app a(bits = 4, dispatchers = [D]);\ninterrupts { A = 1, B = 2, D = 3, T = 4 }\n"
TIMER = HEAD + "monotonic(binds = T, priority = 3);\n"
SHARED = "shared { r = 0, s = 0, lock_free f = 0 }\nlocal { n = 0, m = 0 }\n"
STATEMENTS = "emit for if let lock pend spawn"
TIMED = "cancel emit for if let lock pend reschedule_after spawn spawn_after"
RECEIVER = "task recv(priority = 1, capacity = 2, shared = [r]) with v, w { lock r { r = v; } }\n"
BODY = "task t(binds = A, priority = 2, shared = [r, s, f], local = [n]) { "

# a text, and what may stand at its cursor: names and words
COMPLETIONS = [
    ("¦", "app"),
    ("app a(¦", "bits"),
    ("app a(bits = 4, ¦", "dispatchers fpu"),
    ("app a(bits = 4, dispatchers = [D], ¦", "fpu"),
    ("app a(bits = 4, fpu = ¦", "on"),
    ("app a(bits = 4);\n¦", "interrupts"),
    (HEAD + "¦", "monotonic shared local init idle task"),
    (HEAD + "mono¦", "monotonic shared local init idle task"),
    (HEAD + "local {}\n¦", "init idle task"),
    (HEAD + "shared {}\n¦\nidle {}", "local init"),
    (HEAD + "task t {}\n¦", "task"),
    (HEAD + "monotonic(binds = ¦", "A B T"),
    (HEAD + "shared { ¦", "lock_free"),
    (HEAD + "init(¦) {}", "local"),
    (HEAD + "idle(¦) {}", "shared local"),
    (HEAD + "task t(¦) {}", "binds priority capacity shared local"),
    (HEAD + "task t(binds = A, ¦) {}", "priority shared local"),
    (HEAD + "task t(capacity = 2, pri¦) {}", "priority shared local"),
    (HEAD + "task t(binds = ¦) {}\ntask u(binds = B) {}", "A T"),
    (HEAD + "task t ¦", "with"),
    (HEAD + "task t(binds = A) ¦", ""),
    (HEAD + SHARED + "task t(binds = A, shared = [¦]) {}", "r s f"),
    (HEAD + SHARED + "task t(binds = A, shared = [r, ¦]) {}", "s f"),
    (HEAD + SHARED + "task t(binds = A, shared = [&¦]) {}", "r s"),
    (HEAD + SHARED + "task t(binds = A, shared = [¦]) {} idle(shared = [&r]) {}", "s f"),
    (HEAD + SHARED + "init(local = [m]) {} task t(binds = A, local = [¦]) {}", "n"),
    (HEAD + "init { ¦ }", "emit for if let pend spawn"),
    (HEAD + "idle { ¦ }", STATEMENTS),
    (HEAD + "idle { if 1 { emit 1; } ¦ }", "else " + STATEMENTS),
    (TIMER + "idle { ¦ }", TIMED),
    (TIMER + "idle { let x = ¦; }", "cancel now reschedule_after spawn spawn_after"),
    (HEAD + "idle { let x = ¦; }", "spawn"),
    (HEAD + SHARED + BODY + "emit ¦; }", "f n"),
    (HEAD + SHARED + BODY + "lock r { emit ¦; } }", "r f n"),
    (HEAD + SHARED + BODY + "lock ¦ { } }", "r s"),
    (HEAD + SHARED + BODY + "lock r { lock ¦ { } } }", "s"),
    (HEAD + SHARED + BODY + "lock r, ¦ { } }", "s"),
    (HEAD + SHARED + BODY + "let x = 1; if x { let y = 2; } emit ¦; }", "x f n"),
    (HEAD + SHARED + BODY + "let x = 1; for i in 0..3 { emit ¦; } }", "i x f n"),
    (HEAD + SHARED + BODY + "let x = 1; for i in 0..3 { ¦ } }", "x f n " + STATEMENTS),
    (HEAD + SHARED + BODY + "let x = 1; emit x ¦", ""),
    (HEAD + SHARED + BODY + "let x = 1;\n ¦\n emit 1", "x f n " + STATEMENTS),
    (HEAD + SHARED + BODY + "pend ¦; }", "A B D T"),
    (HEAD + SHARED + RECEIVER + BODY + "spawn ¦", "recv"),
    (TIMER + SHARED + RECEIVER + BODY + "let h = spawn_after(1) recv(1, 2); let k = 1; cancel recv(¦); }", "h k f n"),
    (TIMER + SHARED + RECEIVER + BODY + "reschedule_after(1) ¦; }", "recv"),
    (TIMER + SHARED + "task u with v, w { emit ¦; }", "v w"),
    (HEAD + SHARED + "idle(shared = [&r]) { emit ¦; }", "r"),
    (HEAD + SHARED + "idle(shared = [&r]) { ¦ }", STATEMENTS),
    (HEAD + SHARED + "init { emit ¦; }", "r s f"),
    (HEAD + "idle { emit 1; } // a comment ¦", ""),
    (HEAD + "idle { emit 1 }\ntask t(¦) {}", "binds priority capacity shared local"),
    (HEAD + "idle { lock r { emit 1;\ntask t { spawn ¦", "t"),
]

STATION = (ROOT / "examples" / "station.rtic").read_text(encoding="ascii")
# a word of examples/station.rtic, which of those, and what its hover has; the numbers are those of docs/BOUNDS.md
HOVERS = [
    ("index", 0, "shared resource `index`, first value 0", "ceiling 3", "`index` by `idle` (0), `index` by `rx` (3)"),
    ("led", 0, "shared resource `led`", "ceiling 2"),
    ("presses", 0, "local resource `presses`, first value 0", "of `button`"),
    ("init", 0, "Runs first", "cost 243 core steps", "frame 26 words"),
    ("idle", 0, "cost 10 core steps", "frame 4 words"),
    ("rx", 0, "hardware task `rx`, bound to `UART0`, priority 3", "cost 7 core", "frame 4 words", "fewer than 128"),
    ("button", 0, "cost 141 core steps", "frame 20 words"),
    ("blink", 0, "software task `blink`, priority 1, run by the dispatcher `QEI0`", "1 place for messages with `on`",
     "ceiling of its free places 1", "cost 249 core steps", "frame 28 words", "fewer than 9 core steps"),
    ("report", 1, "4 places for messages with `n`", "dispatcher `SSI0`", "frame 2 words"),
    ("station", 0, "the stack needs 600 bytes", "priorities are 1 to 16"),
    ("app", 0, "the stack needs 600 bytes"),
    ("SSI0", 0, "interrupt `SSI0`, number 7", "the dispatcher of priority 2, which runs `report`"),
    ("QEI0", 0, "the dispatcher of priority 1, which runs `blink`"),
    ("GPIOA", 0, "bound by the task `button`, priority 2"),
    ("TIMER0", 0, "the monotonic", "priority 4", "ceiling of the timer queue 4", "fewer than 128 core"),
    ("monotonic", 0, "ceiling of the timer queue 4"),
    ("priority", 0, "1 to 2^bits", "`wait 4`"),
    ("ok", 0, "variable `ok` of `button`: the answer of `spawn` of `report`"),
    ("on", 0, "argument `on` of the task `blink`"),
    ("n", 0, "argument `n` of the task `report`"),
    ("lock", 0, "A section of a resource"),
    ("spawn_after", 0, "Sends a message after a delay"),
]

# a text, the new name, and the text after the rename; or a part of why it is refused
RENAMES = [
    (HEAD + "idle { let ¦x = 1; if x { let y = x; } }", "z", HEAD + "idle { let z = 1; if z { let y = z; } }"),
    (HEAD + "idle { let ¦x = 1; if x { let y = x; } }", "y", "`y` is taken"),
    (HEAD + "idle { if 1 { let ¦x = 1; } let y = 2; }", "y", HEAD + "idle { if 1 { let y = 1; } let y = 2; }"),
    (HEAD + "idle { let y = 2; if 1 { let ¦x = 1; } }", "y", "`y` is taken"),
    (HEAD + "idle { for ¦i in 0..2 { emit i; } }", "fpu", HEAD + "idle { for fpu in 0..2 { emit fpu; } }"),
    (HEAD + "task ¦A(binds = A) {}", "B", HEAD + "task B(binds = A) {}"),
    (HEAD + "task t(binds = ¦A) { pend A; }", "B", "`B` is taken"),
    (HEAD + SHARED + "init { let ¦x = 1; }", "r", "`r` is taken"),
    (HEAD + SHARED + "init { ¦r = 1; } idle { let x = 2; }", "x", "`x` is taken"),
    (HEAD + SHARED + "init { ¦r = 1; } idle { emit 2; }", "n", "`n` is taken"),
    (HEAD + "idle { ¦emit 1; }", "z", "no name is here"),
    (HEAD + "idle { let ¦x = 1; }", "emit", "a word of the language"),
    (HEAD + "idle { let ¦x = 1; }", "1x", "no name"),
    (HEAD + "idle { let ¦x = 1; }", "x" * 33, "32 is the most"),
    (HEAD + "idle { let ¦x = 1 }", "z", "not in the grammar at line 3"),
    (HEAD + "idle { let ¦x = 1; emit z; }", "z", "would stand for something else"),
]

SYMBOLS = [
    ("clock", []), ("interrupts", ["TIMER", "BUTTON", "SSI0"]), ("monotonic", []),
    ("shared", ["count", "level", "last", "total"]), ("local", ["seen"]), ("init", []), ("idle", []), ("press", []),
    ("report", ["a", "b"]),
]


def marked(text):
    """A text without its cursor, and the place of that."""
    at = text.index(CURSOR)
    return text.replace(CURSOR, ""), place(text, at)


def opened(client, text, number):
    """Opens a text: its document, and the text and place."""
    plain, where = marked(text)
    uri = f"file:///hand{number}.rtic"
    client.open(uri, plain)
    return uri, plain, where


def try_completions(client, told):
    for number, (text, due) in enumerate(COMPLETIONS):
        uri, _, where = opened(client, text, number)
        found = {item["label"] for item in client.at("completion", uri, *where)}
        told.expect("completions by hand", f"{text[-50:]!r}: {sorted(found)}, and due is {due}",
                    found == set(due.split()))
        client.close(uri)


def try_hovers(client, told):
    """Hovers on words of an example: the given occurrence of each as a whole word."""
    uri = "file:///station.rtic"
    client.open(uri, STATION)
    for word, number, *due in HOVERS:
        at = [at for one, at in tokens(STATION) if one == word][number]
        shown = client.at("hover", uri, *place(STATION, at))
        told.expect("hovers by hand", f"{word}: {shown and shown['contents']['value']!r}, and due is {due}",
                    shown and all(one in shown["contents"]["value"] for one in due))
    told.expect("hovers by hand", "on a blank", client.at("hover", uri, 2, 12) is None)


def try_renames(client, told):
    for number, (text, new, due) in enumerate(RENAMES):
        uri, plain, (line, character) = opened(client, text, f"r{number}")
        answer = client.respond("textDocument/rename", {"textDocument": {"uri": uri}, "newName": new,
                                                        "position": {"line": line, "character": character}})
        if "error" in answer:
            result = answer["error"]["message"]
            told.expect("renames by hand", f"{text!r} to {new}: {result}", due in result)
        else:
            result = applied(plain, answer["result"]["changes"][uri])
            told.expect("renames by hand", f"{text!r} to {new}: {result!r}", result == due)
        client.close(uri)


def try_symbols(client, told):
    uri = "file:///forms.rtic"
    client.open(uri, (ROOT / "examples" / "forms.rtic").read_text(encoding="ascii"))
    found = client.ask("textDocument/documentSymbol", {"textDocument": {"uri": uri}})
    told.expect("symbols", f"{found}", [(one["name"], [child["name"] for child in one["children"]]) for one in found]
                == SYMBOLS)
    last = found[-1]
    told.expect("symbols", f"{last}", (last["range"], last["selectionRange"]["start"]) == (
        {"start": {"line": 18, "character": 0}, "end": {"line": 21, "character": 1}}, {"line": 18, "character": 5}))


def try_all(client, told):
    for part in (try_completions, try_hovers, try_renames, try_symbols):
        part(client, told)
