"""How far long work is, in one line that is written over on a terminal, and else in a line for each part that is done."""
import sys
import threading
import time

from clock import clock


class Progress:
    """Parts of some work, which threads may tell of."""

    def __init__(self, what):
        self.what, self.start, self.is_terminal, self.lock = what, time.monotonic(), sys.stderr.isatty(), threading.Lock()
        self.shown = 0

    def say(self, line):
        """Tells how far the work is."""
        text = f"tta: {self.what}: {line}, {clock(time.monotonic() - self.start)} so far"
        try:
            with self.lock:
                self.shown += 1
                print(f"\r{text}\033[K" if self.is_terminal else text, end="" if self.is_terminal else "\n", file=sys.stderr, flush=True)
        except OSError:
            pass

    def end(self):
        """Takes the line away."""
        if self.is_terminal and self.shown:
            print("\r\033[K", end="", file=sys.stderr, flush=True)
