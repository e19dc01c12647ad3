"""Proves and builds a program of the repository, and says how far it is: which crate of how many, and how long it took so far, in
one line that is written over on a terminal, and else in a line for each crate. Its word is the name of the program's crate."""
import os
import re
import subprocess
import sys
import time

sys.path.insert(0, os.path.join(os.path.dirname(os.path.abspath(__file__)), "plain"))
import ending
import units
from build import CannotBuild, alone, crates_of
from clock import clock

TOP = os.path.normpath(os.path.join(os.path.dirname(os.path.abspath(__file__)), ".."))
BEGUN = re.compile(r"^rt: chose --jobs \d+ for (\w+)|^rt: (\w+): begins with|^crate (\w+):", re.M)
# How the line begins that says that no source differs from what the program was built of.
UNCHANGED = "rt: nothing has changed since the last proved build"
LAST_LINES = 20
CANNOT_BUILD = 70


class Progress:
    """The crates that were seen in the log."""

    def __init__(self, crates):
        self.crates = crates
        self.seen = []
        self.start = time.monotonic()
        self.is_terminal = sys.stderr.isatty()

    def read(self, text):
        """Takes more of the log, and tells of each crate that it names first."""
        for found in BEGUN.finditer(text):
            name = found[1] or found[2] or found[3]
            if name in self.crates and name not in self.seen:
                self.seen.append(name)
                if not self.is_terminal:
                    print(self.line(), file=sys.stderr)
        if self.is_terminal and self.seen:
            print(f"\r{self.line()}\033[K", end="", file=sys.stderr, flush=True)

    def line(self):
        took = clock(time.monotonic() - self.start)
        return f"tta: proving {self.seen[-1]}, crate {len(self.seen)} of {len(self.crates)}, {took} so far"

    def end(self):
        if self.is_terminal:
            print("\r\033[K", end="", file=sys.stderr, flush=True)


def prove(program, log):
    """Runs the build to its end, with its words in a log. A program without words ends at once, after it is built."""
    progress = Progress(crates_of(program))
    with open(log, "wb") as out, open(log, encoding="utf-8", errors="replace") as said:
        folder = os.path.join(TOP, "crates", program)
        build = subprocess.Popen(["rt", "run"], cwd=folder, stdin=subprocess.DEVNULL, stdout=out, stderr=out)
        try:
            while build.poll() is None:
                progress.read(said.read())
                time.sleep(0.5)
            progress.read(said.read())
        except KeyboardInterrupt:
            build.terminate()
            build.wait()
            raise
        finally:
            progress.end()


def stands(built, begun, log):
    """Whether a program was built since a time, or stands as an earlier build left it: a source may be newer and yet the same. Then the
    program is given the time of now, so that it is not built again at each call."""
    if not os.path.exists(built):
        return False
    if os.stat(built).st_mtime_ns >= begun:
        return True
    with open(log, encoding="utf-8", errors="replace") as said:
        is_same = any(line.startswith(UNCHANGED) for line in said)
    if is_same:
        os.utime(built)
    return is_same


def main(words):
    program, = words
    try:
        units.check(program)
    except units.Faulty as error:
        ending.say(str(error))
        return CANNOT_BUILD
    log = os.path.join(TOP, "crates", f"{program}.log")
    ending.say("proving and building the proved program, from nothing in an hour or more; --plain before a command asks for the plain one, in half a minute")
    try:
        with alone(os.path.join(TOP, "out"), lambda: ending.say("another call proves it at this moment: waiting for its end")):
            # The time of a file that is written now, since such times lag the clock by some milliseconds.
            with open(log, "wb"):
                pass
            begun = os.stat(log).st_mtime_ns
            prove(program, log)
    except CannotBuild as error:
        ending.say(error)
        return CANNOT_BUILD
    if stands(os.path.join(TOP, "crates", program, "out", program), begun, log):
        return 0
    ending.say(f"the build failed; the last lines of crates/{program}.log are")
    with open(log, encoding="utf-8", errors="replace") as said:
        for line in said.read().splitlines()[-LAST_LINES:]:
            print(f"  {line}", file=sys.stderr)
    return CANNOT_BUILD
