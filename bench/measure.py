"""What a command of a program takes: seconds of the processor, which other work on the machine touches less than those of the
clock, and memory. The program is the built one, where no other is named."""
import os
import subprocess
import sys
import time

sys.path.insert(0, os.path.join(os.path.dirname(os.path.abspath(__file__)), "..", "checks"))
from built import PROGRAM

FEWEST, MOST, ENOUGH = 6, 30, 1.5
# By so many bytes the stack begins lower in each run than in the one before it, up to a page: a loop can take a fifth more time
# where it begins at a bad place.
LOWER, PAGE = 272, 4096


class Failed(Exception):
    """A command ended with another status than the one that is right."""


class Folder:
    """A folder with the files that commands of a program are measured on."""

    def __init__(self, path, program=PROGRAM):
        self.path = path
        self.program = program

    def write(self, name, text):
        with open(os.path.join(self.path, name), "w") as f:
            f.write(text)

    def start(self, words, pad=0):
        """Starts a command, whose stack begins so many bytes lower."""
        environment = {**os.environ, "PADDING": pad * "x"}
        return subprocess.Popen(
            [self.program, *words], cwd=self.path, env=environment, stdout=subprocess.DEVNULL, stderr=subprocess.PIPE
        )

    def run(self, words, status=0, pad=0):
        """The seconds of the processor that a command takes, which ends with this status."""
        return end(self.start(words, pad), words, status)

    def seconds(self, words, status):
        """The least of some runs: six at least, and more of a command that is short."""
        taken = []
        while len(taken) < FEWEST or (len(taken) < MOST and sum(taken) < ENOUGH):
            taken.append(self.run(words, status, padding(len(taken))))
        return min(taken)

    def memory(self, words, status):
        """The most bytes that three runs were seen to hold, which is looked at a few thousand times a second."""
        return max(self.memory_of_run(words, status) for _ in range(3))

    def memory_of_run(self, words, status):
        """The most memory that a command was seen to hold."""
        process, most, now = self.start(words), 0, 1
        while now:
            now = held(process)
            most = max(most, now)
            time.sleep(0.0001)
        end(process, words, status)
        return most


def padding(run):
    """By how many bytes the stack begins lower in a run."""
    return LOWER * run % PAGE


def end(process, words, status):
    """Waits for the end of a process, looks at its status, and gives the seconds of the processor that it took."""
    said = process.stderr.read().decode().strip()
    _, ended, used = os.wait4(process.pid, 0)
    process.returncode = os.waitstatus_to_exitcode(ended)
    process.stderr.close()
    if process.returncode != status:
        raise Failed(f"tta {' '.join(words)} ended with {process.returncode} and not with {status}: {said}")
    return used.ru_utime + used.ru_stime


def held(process):
    """The most bytes that a process has held up to now; 0 once it has ended."""
    try:
        with open(f"/proc/{process.pid}/status") as lines:
            peaks = [line.split()[1] for line in lines if line.startswith("VmHWM")]
    except OSError:
        return 0
    return 1024 * int(peaks[0]) if peaks else 0
