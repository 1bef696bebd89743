"""What is told on standard error in place of a picture, and the status that goes with it."""

DONE = 0
REFUSED = 1
USAGE = 2
BAD_LINE = 3
NOT_A_RUN = 4
NOT_READ = 5
NOT_WRITTEN = 6


class Told(Exception):
    """Nothing is shown: these words are told, and the view ends with this status.

    The statuses are those of `rtic`: 1 an application was refused, 2 wrong words, 3 a script or a trace was refused or
    a line is of no form, 4 the items are no run, 5 a file could not be read or is empty, 6 the output failed.
    """

    def __init__(self, status, words):
        super().__init__(words)
        self.status = status
        self.words = words
