"""Runs the tests of a folder side by side: see tools/test.

What a test writes is shown whole, and in the order of names, so that neither the lines nor the status depend on which
test ends first.
"""
import concurrent.futures
import os
import pathlib
import re
import subprocess
import sys
import time

TOOLS = pathlib.Path(__file__).resolve().parents[1]
# on one processor too, because tests also wait for the programs that they start
LEAST_AT_ONCE = 2
# what a shell adds to the number of the signal that ended a program
BY_SIGNAL = 128
INTERRUPTED = 130
SKIPPED = re.compile(r"(\w+): skipped(| in part): (.*)")


class Test:
    """A test: its name, what it wrote on both outputs, its status, and the seconds that it took."""

    def __init__(self, name):
        self.name, self.said, self.status, self.seconds = name, b"", 0, 0.0

    def run(self):
        """Runs the test to its end."""
        begun = time.monotonic()
        done = subprocess.run([sys.executable, f"tests/{self.name}.py"], cwd=TOOLS, stdin=subprocess.DEVNULL,
                              stdout=subprocess.PIPE, stderr=subprocess.STDOUT, check=False)
        self.said, self.seconds = done.stdout, time.monotonic() - begun
        self.status = done.returncode if done.returncode >= 0 else BY_SIGNAL - done.returncode
        return self

    def show(self):
        """Writes what the test wrote, and a line with its status and its seconds."""
        sys.stdout.buffer.write(self.said)
        sys.stdout.buffer.write(f"tools/tests/{self.name}.py: status {self.status}, {self.seconds:.0f} s\n".encode())
        sys.stdout.buffer.flush()

    def skipped(self):
        """What the test says that it skips: whether in part, and why."""
        rows = map(SKIPPED.fullmatch, self.said.decode("utf-8", "replace").split("\n"))
        return [(row[2], row[3]) for row in rows if row and row[1] == self.name]


def run_all(tests):
    """Runs the tests, as many at once as there are processors, and shows each when those before it have ended."""
    at_once = max(LEAST_AT_ONCE, len(os.sched_getaffinity(0)))
    with concurrent.futures.ThreadPoolExecutor(at_once) as pool:
        try:
            for test in pool.map(Test.run, tests):
                test.show()
        except KeyboardInterrupt:
            pool.shutdown(cancel_futures=True)
            raise


def last_line(tests):
    """How many tests passed and failed, and what was skipped."""
    skipped = [(test.name, part, why) for test in tests for part, why in test.skipped()]
    left_out = {name for name, part, _ in skipped if not part}
    failed = sum(test.status != 0 for test in tests)
    passed = sum(test.status == 0 and test.name not in left_out for test in tests)
    names = "; ".join(f"{name}{part}: {why}" for name, part, why in skipped)
    return f"{passed} passed, {failed} failed, {len(skipped)} skipped" + (f" ({names})" if names else "")


def main():
    """Ends with the status of the first test, by name, that fails."""
    tests = [Test(path.stem) for path in sorted(TOOLS.glob("tests/*.py"), key=lambda path: path.stem)]
    try:
        run_all(tests)
    except KeyboardInterrupt:
        return INTERRUPTED
    print(last_line(tests))
    return next((test.status for test in tests if test.status), 0)


if __name__ == "__main__":
    sys.exit(main())
