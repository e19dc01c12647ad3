"""Gives a page a title, and what is on it the names of the program's text: it copies a page of `play` or of `stages` that comes in, and puts what
it is of before its title. Variables that are live get their names in the place of their numbers, and each step its own text beside it. Its words
are what the page is of, the file that `./tta c -g` writes, whose lines of C are then shown as well, or nothing, and the file of the program
whose names are to be shown, or nothing."""
import html
import os
import re
import sys

import c_lines
from source.stages import names_of
from texts import program as reader

TITLE = re.compile(rb"(?<=<title>)(?=.*</title>)")
# What stands between a line and what is shown beside it.
BESIDE = b"  ; "
# A step of the program, a block of code with its procedure, and a variable that is live in it with its home.
STEP = re.compile(rb" line (\d+) : ")
BLOCK = re.compile(rb"block b\d+ (?:steps of|entry of|return to) (\S+) ")
LIVE = re.compile(rb"live v(\d+) (\S+)")


def procs_of(path):
    """The procedures of a program, by what a page calls them: `main`, and all others by their numbers in the text."""
    with open(path, "rb") as f:
        procs = reader.read(f.read(c_lines.READ).decode("latin-1").split("\n")).procs
    return {b"main" if proc.name == "main" else b"p%d" % k: proc for k, proc in enumerate(procs)}


class Names:
    """Names what is in the lines of a page, block by block. A page that has steps is of a program that was accepted, which is read then."""

    def __init__(self, path):
        self.path, self.read, self.texts, self.names, self.own = path, False, {}, {}, []

    def take(self):
        """Reads the program, once."""
        self.read = True
        for called, proc in procs_of(self.path).items():
            self.names[called] = [name.encode("latin-1") for name in names_of(proc)]
            self.texts.update((step.number, " ".join(token.text for token in step.tokens).encode("latin-1")) for step in proc.steps)

    def named(self, line):
        """A line of a page with its variable by its name."""
        block, live = BLOCK.match(line), LIVE.fullmatch(line)
        if block:
            self.own = self.names.get(block[1], [])
        elif live and int(live[1]) < len(self.own):
            return b"live %s %s" % (self.own[int(live[1])], live[2])
        elif not live and not line.startswith(b"lines"):
            self.own = []
        return line

    def beside(self, line, place):
        """What stands beside a line of a page: of a step its own text, where that is another, and the place that is known of it."""
        step = STEP.match(line)
        if step and not self.read:
            self.take()
        text = self.texts.get(int(step[1])) if step else None
        return b", ".join(part for part in (None if step and text == line[step.end():] else text, place) if part)

    def shown(self, known, line):
        """A line with all that is to be shown of it."""
        line = line if self.path is None else self.named(line)
        with_place = c_lines.shown(known, line)
        beside = with_place[len(line) + len(BESIDE):]
        if self.path is not None:
            beside = self.beside(line, beside)
        return line + BESIDE + beside if beside else line


def main(words):
    of = os.fsencode(html.escape(words[0])) + b": "
    known = c_lines.places(words[1]) if words[1] else {}
    names = Names(words[2] or None)
    titled = False
    for line in sys.stdin.buffer:
        shown = names.shown(known, line.rstrip(b"\n")) + b"\n"
        if not titled:
            shown, titled = TITLE.subn(lambda found: of, shown, 1)
        sys.stdout.buffer.write(shown)
    sys.stdout.buffer.flush()
    return 0
