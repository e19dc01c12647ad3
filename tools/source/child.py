"""The proved prompt of an image, of which each line is asked by itself."""
import contextlib
import subprocess

# Commands whose reply goes on to a last line, and how that begins; all others are answered by one line.
LISTS = ("flight", "regs", "help")
MOST_CYCLES = 2**32 - 1


class Gone(Exception):
    """The prompt has ended, with a status."""


class Child:
    """A session of `prompt`. `words` are the words of the command, with the script before them."""

    def __init__(self, words):
        self.words, self.process = words, None
        self.begin()

    def begin(self):
        """Begins a run. It has a session of its own, so that a key at the terminal stops the script, which then ends it."""
        self.process = subprocess.Popen(self.words, stdin=subprocess.PIPE, stdout=subprocess.PIPE, start_new_session=True)

    def end(self):
        """Ends the session, and gives its status."""
        with contextlib.suppress(OSError):
            self.process.stdin.close()
        self.process.stdout.close()
        return self.process.wait()

    def again(self):
        """Begins a run anew: what it has output before is not told again."""
        self.end()
        self.begin()

    def ask(self, line):
        """The lines of the reply to a line that is not blank."""
        try:
            self.process.stdin.write(line.encode("utf-8", "surrogateescape") + b"\n")
            self.process.stdin.flush()
        except BrokenPipeError:
            pass
        word, reply = line.split()[0], []
        while True:
            found = self.process.stdout.readline()
            if not found:
                raise Gone(self.process.wait())
            reply.append(found.decode("utf-8", "surrogateescape").rstrip("\n"))
            if reply[-1].startswith("refused "):
                return reply
            if word in LISTS and reply[-1] != "ok" or word in ("step", "go") and reply[-1].startswith("out "):
                continue
            return reply
