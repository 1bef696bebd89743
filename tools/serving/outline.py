"""The symbols of a document, as an editor lists them: the declarations, and what is declared inside them."""

# the kinds of the protocol
MODULE, EVENT, VARIABLE, CONSTANT, FUNCTION, OBJECT = 2, 24, 13, 14, 12, 19


def symbol(text, kind, detail, token, start=None, stop=None, children=()):
    """One symbol: its name, the whole of it, and the part to select."""
    start = token.at if start is None else start
    stop = token.end if stop is None else max(stop, token.end)
    return {
        "name": token.text, "detail": detail, "kind": kind, "range": text.range(start, stop),
        "selectionRange": text.range_of(token), "children": list(children),
    }


def rows(text, kind, declared):
    """The rows of a list: a name with its number."""
    for name, number, is_free in declared:
        if name.text:
            yield symbol(text, kind, f"{'lock_free ' * is_free}= {number.text}", name, None, number.end)


def body_detail(body):
    """What is written of a body beside its name."""
    if body.kind != "task":
        return ""
    binds = f"binds {body.binds.text}, " if body.binds else ""
    values = " with " + ", ".join(name.text for name in body.arguments) if body.arguments else ""
    return f"{binds}priority {body.level}{values}"


def lists(text):
    """The declarations that are lists, by their words: what is in them are their children."""
    app = text.app
    for word, kind, declared in (("interrupts", EVENT, app.interrupts), ("shared", VARIABLE, app.shared),
                                 ("local", VARIABLE, app.local)):
        children = list(rows(text, kind, declared))
        token = next((token for token in text.tokens if token.text == word and token.kind == "word"), None)
        if children and token:
            yield symbol(text, OBJECT, "", token, None, declared[-1][1].end, children)


def outline(text):
    """All symbols of a text."""
    app = text.app
    found = [symbol(text, MODULE, f"bits = {app.bits}", app.name)] if app.name.text else []
    found += lists(text)
    if app.monotonic:
        word, binds, priority = app.monotonic
        found.append(symbol(text, OBJECT, f"binds {binds.text}, priority {priority.text}", word, None, priority.end))
    for body in app.bodies:
        if body.name.text:
            values = [symbol(text, VARIABLE, "argument", name) for name in body.arguments if name.text]
            found.append(symbol(text, FUNCTION, body_detail(body), body.name, body.at, body.block.end, values))
    return sorted(found, key=lambda one: (one["range"]["start"]["line"], one["range"]["start"]["character"]))
