"""Runs commands of the program side by side, each in constant memory however much it outputs, and stops them all at once."""
import contextlib
import hashlib
import os
import re
import signal
import subprocess
import threading

CHUNK = 1 << 20
# The last line of a run, and those of its memory, begin with a letter; the words of the output do not.
LETTER = re.compile(rb"[a-z]")
STOPPED = -1


def processors():
    """How many commands may run side by side."""
    return len(os.sched_getaffinity(0)) if hasattr(os, "sched_getaffinity") else os.cpu_count() or 1


class Run:
    """How a command ended: its status, what it said on standard error, the digest of the words that it output, and the lines below them."""

    def __init__(self, status, error, output, rest):
        self.status, self.error, self.output, self.rest = status, error, output, rest

    def number_after(self, word):
        """The number on the line that begins with a word, or None."""
        found = re.search(rf"^{word} (\d+)$", self.rest, re.M)
        return int(found[1]) if found else None


class Runs:
    """The commands that run at this moment."""

    def __init__(self):
        self.lock, self.running, self.is_stopped = threading.Lock(), set(), False

    def begin(self, words, folder):
        """Starts a command, or gives None where all were stopped. It has a session of its own, so that a key at the terminal stops this one
        alone, which then stops it."""
        with self.lock:
            if self.is_stopped:
                return None
            begun = subprocess.Popen(words, cwd=folder, stdin=subprocess.DEVNULL, stdout=subprocess.PIPE, stderr=subprocess.PIPE, start_new_session=True)
            self.running.add(begun)
            return begun

    def run(self, words, folder=None, read=None):
        """Runs a command to its end, in a folder. What it prints is read by a function, which gives the output and the rest."""
        begun = self.begin(words, folder)
        if begun is None:
            return Run(STOPPED, "stopped", None, "")
        with begun:
            output, rest = (read or split)(begun.stdout)
            error = begun.stderr.read().decode("utf-8", "replace")
        with self.lock:
            self.running.discard(begun)
        return Run(begun.returncode, error, output, rest)

    def text(self, words):
        """Runs a command to its end, and gives all that it prints as its output, which is bytes."""
        return self.run(words, read=lambda pipe: (pipe.read(), ""))

    def stop(self):
        """Ends all commands with what they have begun, and lets none begin."""
        with self.lock:
            self.is_stopped = True
            for begun in self.running:
                if begun.poll() is None:
                    with contextlib.suppress(ProcessLookupError):
                        os.killpg(begun.pid, signal.SIGKILL)


def split(pipe):
    """The digest of the words that come first, and the lines below them."""
    digest, rest = hashlib.sha256(), b""
    while chunk := pipe.read(CHUNK):
        if rest:
            rest += chunk
            continue
        found = LETTER.search(chunk)
        at = found.start() if found else len(chunk)
        digest.update(chunk[:at])
        rest = chunk[at:]
    return digest.hexdigest(), rest.decode("utf-8", "replace")
