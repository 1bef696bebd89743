"""Applications at each limit and one past it; each is a call of a source of random numbers."""

HEAD = "app a(bits = {bits}{more});\ninterrupts {{ {irqs} }}\n"


def head(irqs=1, bits=4, more=""):
    return HEAD.format(bits=bits, more=more, irqs=", ".join(f"I{number} = {number}" for number in range(irqs)))


def handler(body):
    return f"task t(binds = I0) {{ {body} }}\n"


def sums(depth):
    return "1" + " + 1" * (depth - 1)


def counted(word, count, form):
    return f"{word} {{ {', '.join(form.format(number) for number in range(count))} }}\n"


def at(last, made):
    """A text at a limit, or one past it."""
    return lambda draw: made(last + draw.choice([-1, 0, 0, 1, 1])).encode()


LIMITS = [
    at(64, lambda n: head() + "".join(f"task t{number}() {{}}\n" for number in range(n))),
    at(64, lambda n: head(n) + "".join(f"task t{number}(binds = I{number}) {{}}\n" for number in range(n))),
    at(64, lambda n: head() + counted("shared", n, "s{0} = {0}")),
    at(64, lambda n: head() + counted("shared", n, "lock_free s{0} = {0}")),
    at(64, lambda n: head() + counted("local", n, "n{0} = {0}")),
    at(240, lambda n: head(n)),
    at(495, lambda n: f"app a(bits = 4); interrupts {{ A = {n} }}"),
    at(7, lambda n: f"app a(bits = {n}); interrupts {{}}"),
    at(3, lambda n: f"app a(bits = {n}); interrupts {{}}"),
    at(4, lambda n: head(more=", dispatchers = [I0]") + f"task t() with {', '.join('abcde'[:n])} {{ emit a; }}"),
    at(16, lambda n: head(more=", dispatchers = [I0]") + f"task t(capacity = {n}) {{}}"),
    at(1, lambda n: head(more=", dispatchers = [I0]") + f"task t(capacity = {n}) {{}}"),
    at(32, lambda n: f"app {'x' * n}(bits = 4); interrupts {{}}"),
    at(32, lambda n: head() + handler(f"let {'y' * n} = 1; emit {'y' * n};")),
    at(4294967295, lambda n: head() + handler(f"emit {n};")),
    at(16, lambda n: head() + handler(f"emit {hex(2**32 - 17 + n)};")),
    at(15, lambda n: head() + handler("if 1 { " * n + "}" * n)),
    at(14, lambda n: head() + counted("shared", 16, "s{0} = 0")
       + f"task t(binds = I0, shared = [{', '.join(f's{k}' for k in range(16))}]) {{ lock "
       + ", ".join(f"s{k}" for k in range(n + 1)) + " {} }"),
    at(64, lambda n: head() + handler(f"emit {'(' * n}1{')' * n};")),
    at(16, lambda n: head() + handler(f"emit {sums(n)};")),
    at(1000, lambda n: head() + handler("emit 1;" * n)),
    at(1000, lambda n: head() + handler(f"for i in 0..{n} {{}}")),
    at(1000, lambda n: head() + handler(f"for i in 7..{n + 7} {{}}")),
    at(16, lambda n: head() + f"task t(binds = I0, priority = {n}) {{}}"),
    at(1, lambda n: head() + f"task t(binds = I0, priority = {n}) {{}}"),
    # cost 1,000,000: a loop of 998 turns over 500 emits of two steps
    at(998, lambda n: head() + handler(f"for i in 0..{n} {{ {'emit 1;' * 500} }}")),
    at(60, lambda n: head(n) + "".join(f"task t{k}(binds = I{k}) {{ {'emit 1;' * 540} }}\n" for k in range(n))),
]

SMALL = (head() + handler("emit 1;")).encode()
MOST_SCRIPT, MOST_TRACE = 1_048_576, 268_435_456

# A command, and second texts at each limit and one past it.
SECONDS = [
    ("run", lambda: b"step 1\n" + b"\n" * (MOST_SCRIPT - 7)),
    ("run", lambda: b"step 1\n" + b"\n" * (MOST_SCRIPT - 6)),
    ("run", lambda: b"#" * (MOST_SCRIPT + 1)),
    ("run", lambda: b"step 1000000"),
    ("run", lambda: b"step 1000001"),
    ("run", lambda: b"pend I0 999999\nstep 1\n"),
    ("run", lambda: b"pend I0 999999\nstep 2\n"),
    ("run", lambda: b"device 15 pend I0"),
    ("run", lambda: b"device 16 pend I0"),
    ("run", lambda: b"pend I1"),
    ("run", lambda: b"step 4294967296"),
    ("times", lambda: b"every I0 100\n" + b"\n" * (MOST_SCRIPT - 13)),
    ("times", lambda: b"every I0 100\n" + b"\n" * (MOST_SCRIPT - 12)),
    ("times", lambda: b"every I0 999999999"),
    ("times", lambda: b"every I0 1000000000"),
    ("times", lambda: b"every I0 1"),
    ("times", lambda: b"every I0 0"),
    ("audit", lambda: b"2147483647 tick\n"),
    ("audit", lambda: b"2147483648 tick\n"),
    ("audit", lambda: b"4294967296 tick\n"),
    ("audit", lambda: b"0 end init\ntotal 2147483648\n"),
]
# What `audit` answers to a trace of NUL bytes alone: as long as it may be, and one byte longer.
LONG_TRACES = [(MOST_TRACE, b"trace:1 2 bad line\n"), (MOST_TRACE + 1, b"trace:1 1 too long\n")]
