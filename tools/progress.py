"""progress.py: how far long work is, on a terminal. In a log or a pipe nothing is printed."""
import sys
import time


class Progress:
    """A line on standard error, written over a few times a second while work goes on."""

    def __init__(self, what, total):
        self.what, self.total, self.done = what, max(1, total), 0
        self.next = time.monotonic() + 0.5 if sys.stderr.isatty() else float("inf")

    def add(self, count):
        """So much more is done."""
        self.done += count
        if time.monotonic() >= self.next:
            self.next = time.monotonic() + 0.2
            print("\r%s: %d %%\033[K" % (self.what, 100 * self.done // self.total), end="", file=sys.stderr, flush=True)

    def end(self):
        """Takes the line away."""
        if sys.stderr.isatty():
            print("\r\033[K", end="", file=sys.stderr, flush=True)
