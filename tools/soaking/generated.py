"""The scripts of `soak`, as docs/LANGUAGE.md says how they are generated: a run's number and its own give its lines.

The generator is PCG XSH RR 64/32 of O'Neill, 2014, whose reference code is public (pcg-random.org).
"""
MULTIPLIER = 6364136223846793005
STATES = 1 << 64
VALUES = 1 << 32
WORD_BITS = 32

LINES = 200
KINDS = 8
STEP_KINDS, TICK_KIND = 5, 5
MOST_STEPS, MOST_TICKS = 64, 16


class Generator:
    """The words of 32 bits of a sequence, from a state on."""

    def __init__(self, state, sequence):
        self.increment = (2 * sequence + 1) % STATES
        self.state = 0
        self.word()
        self.state = (self.state + state) % STATES
        self.word()

    def word(self):
        """The next word."""
        state = self.state
        self.state = (state * MULTIPLIER + self.increment) % STATES
        shifted = ((state >> 18 ^ state) >> 27) % VALUES
        turn = state >> 59
        return (shifted >> turn | shifted << (-turn % WORD_BITS)) % VALUES


def line(word, interrupts):
    """The line of a script that a word gives."""
    kind, number = word % KINDS, word // KINDS
    if kind < STEP_KINDS:
        return f"step {1 + number % MOST_STEPS}"
    if kind == TICK_KIND:
        return f"tick {1 + number % MOST_TICKS}"
    return f"pend {interrupts[number % len(interrupts)]}" if interrupts else "tick 1"


def script(interrupts, number, run):
    """The script of a run of `soak` for a number; the interrupts are all that are declared, in their order."""
    generator = Generator(number, run)
    return "".join(line(generator.word(), interrupts) + "\n" for _ in range(LINES))
