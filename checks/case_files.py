"""Reads worked cases: a file each, checks/cases/KIND/NAME.case.

    # What the case shows
    file M: case printer.machine      a file of checks/cases/files
    file P                            a text, a line after each bar; one after > has no newline
    | proc main
    > halt
    $ tta build M P OUT               a command, started in the folder of the files
    = 7                               its status, where that is not 0
    ! tta: code full                  a line of standard error
    | 36                              a line of standard output; a * in it stands for a number
    writes OUT: as M                  a file that it writes

A file can also be `empty`, `hex BYTES`, `example NAME` of examples/, or `fill BYTES COUNT`; one that is named again goes on. After a command
`ends` has the lines below it that its output ends with, and `input` the lines of standard input. What is written can be `hex BYTES`, a `text` with
lines below it, `as FILE`, `image BEGIN of FILE END`, where the digest of FILE stands between the bytes, `without WORDS`, whole lines in
which these do not stand, or anything."""
import os
import shlex
from dataclasses import dataclass, field

HERE = os.path.dirname(os.path.abspath(__file__))
CASES = os.path.join(HERE, "cases")
EXAMPLES = os.path.join(HERE, "..", "examples")


@dataclass
class Step:
    """A command, and what it does."""
    program: str
    words: list
    status: int = 0
    stderr: str = ""
    stdout: str = ""
    ends: str = ""
    input: str = ""
    writes: dict = field(default_factory=dict)


@dataclass
class Case:
    """A case: its files with their bytes, and its commands."""
    name: str
    files: dict = field(default_factory=dict)
    steps: list = field(default_factory=list)


class Reader:
    """Reads the lines of a case; a text goes to what the line before it has named."""

    def __init__(self, name):
        self.case = Case(name)
        self.put = None

    def read(self, line):
        """Takes a line: what it says by its first word."""
        mark, _, rest = line.partition(" ")
        if mark in ("|", ">"):
            self.put(rest + ("\n" if mark == "|" else ""))
        elif mark == "file":
            self.file(*split(rest))
        elif mark == "$":
            program, *words = shlex.split(rest)
            self.case.steps.append(Step(program, [word_of(word) for word in words]))
            self.put = self.adding("stdout")
        elif mark in ("input", "ends"):
            self.put = self.adding(mark)
        elif mark == "writes":
            self.written(*split(rest))
        elif mark == "=":
            self.case.steps[-1].status = int(rest)
        elif mark == "!":
            self.case.steps[-1].stderr += rest + "\n"
        elif mark != "#":
            raise ValueError(f"{self.case.name}: {line}")

    def adding(self, name):
        step = self.case.steps[-1]
        return lambda text: setattr(step, name, getattr(step, name) + text)

    def file(self, name, kind, words):
        files = self.case.files
        files[name] = files.get(name, b"") + (content(kind, words) if kind else b"")
        self.put = lambda text: files.update({name: files[name] + text.encode()})

    def written(self, name, kind, words):
        step, texts = self.case.steps[-1], []
        step.writes[name] = (kind, texts if kind == "text" else words)
        self.put = texts.append


def split(rest):
    """The name, the kind and the words of a line on a file."""
    name, _, what = rest.partition(": ")
    kind, *words = shlex.split(what) if what else [""]
    return name, kind, words


def word_of(word):
    return bytes.fromhex(word[4:]) if word.startswith("hex:") else word


def content(kind, words):
    """The bytes of a file that a line tells."""
    if kind in ("case", "example"):
        with open(os.path.join(os.path.join(CASES, "files") if kind == "case" else EXAMPLES, words[0]), "rb") as f:
            return f.read()
    return {"empty": lambda: b"", "hex": lambda: bytes.fromhex(words[0]), "fill": lambda: bytes.fromhex(words[0]) * int(words[1])}[kind]()


def all_cases():
    """All cases, by kind and name."""
    for kind in sorted(entry.name for entry in os.scandir(CASES) if entry.is_dir()):
        for name in sorted(os.listdir(os.path.join(CASES, kind))):
            if name.endswith(".case"):
                reader = Reader(f"{kind}/{name[:-5]}")
                with open(os.path.join(CASES, kind, name), encoding="utf-8") as f:
                    for line in f.read().split("\n")[:-1]:
                        reader.read(line)
                yield reader.case
