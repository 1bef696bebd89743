"""Which line of the canonical text each token of a text is in. The text is in the grammar: the program has formatted
it. A line of the canonical text is a declaration, a statement, or a part of one that ends with a brace."""

BODIES = ("init", "idle", "task")
NESTED = ("if", "for", "lock")
LEFT_OUT_WHERE_EMPTY = ("shared", "local")


class Lines:
    """The line of each token; the tokens with which lines end, each with the last line that ends there; the tokens
    that begin a declaration; and how many lines there are. Tokens are named by their positions, lines from 0."""

    def __init__(self, tokens):
        self.texts = [token.text for token in tokens]
        self.lines, self.ends, self.begins, self.count = [], {}, set(), 0
        while self.next < len(self.texts):
            self.begins.add(self.next)
            self.declaration()

    @property
    def next(self):
        """The position of the token that comes next."""
        return len(self.lines)

    @property
    def front(self):
        return self.texts[self.next]

    def take(self, further=0):
        """The next token is in the open line, or further down."""
        self.lines.append(self.count + further)

    def take_to(self, *texts):
        """The tokens before one of these are in the open line."""
        while self.front not in texts:
            self.take()

    def end(self):
        """The open line ends with the last token."""
        self.ends[self.next - 1] = self.count
        self.count += 1

    def declaration(self):
        """The canonical text leaves an empty list of resources out: its tokens are in the line that comes next."""
        word, begun = self.front, self.next
        if word in BODIES:
            self.take_to("{")
            self.block()
        else:
            self.take_to(";", "}")
            self.take()
        is_empty = self.texts[begun + 1 : self.next] == ["{", "}"]
        if not (is_empty and word in LEFT_OUT_WHERE_EMPTY):
            self.end()

    def block(self, further=0):
        """A block, whose closing brace is in the open line."""
        self.take(further)
        if self.front != "}":
            self.end()
            while self.front != "}":
                self.statement()
        self.take()

    def statement(self):
        if self.front in NESTED:
            self.nested()
        else:
            self.take_to(";")
            self.take()
        self.end()

    def nested(self):
        """The canonical text has a lock for each name of a lock: a line for each, and one for each closing brace."""
        names = 1
        self.take_to("{", ",")
        while self.front == ",":
            self.take()
            self.end()
            names += 1
            self.take_to("{", ",")
        self.block()
        if self.front == "else":
            self.otherwise()
        for _ in range(names - 1):
            self.end()

    def otherwise(self):
        """The word and the brace that open the block of an `else` count for its first line, so that what is said
        before them comes to be inside it. Where it is empty there is no `else` in the canonical text."""
        is_empty = self.texts[self.next + 1 : self.next + 3] == ["{", "}"]
        self.take(int(not is_empty))
        self.block(int(not is_empty))
