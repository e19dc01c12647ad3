"""The words of `tta c`.

  -O1 -O2 -O3 -Os -Oz   how far LLVM goes; -O2 where nothing is said, and -Os where a machine's addresses do not hold that
  -I DIR  -D NAME=WORD  as for any compiler, as are options that begin with -f, -W or -std
  -g OUT.lines          writes which line of C each line of the program is of
  --machine M           keeps to what M has: its operations, those of `--with bits` too, its data, its frame and its addresses
  --frame N             at most N words of the frame space: values share variables until that holds
  --stack N             the words of a stack, which functions that call one another in a circle have; 1024 where nothing is said, or what the
                        machine's data space has left
  --unchecked-stack     leaves out the check at each such call that the stack has room for it
  --heap N              the bytes that malloc gives in all, 65536 where nothing is said
  --base N              the first word of the data space that data may take, 16 where nothing is said
  --inline N            how large a function may be that is put in the place of a call, in LLVM's measure; 1000 where nothing is said, or what
                        the machine's addresses hold
  --unroll N            repeats the bodies of loops whose number of turns is not known, up to N in LLVM's measure; 60 at -O3, else 0
  --layout              tells of each kind of data how it stands in the data space
  --keep FILE           writes LLVM's representation to FILE, from which the program is made
  --run [IN N [STREAM]] builds and runs the program on M, and prints what the run prints; OUT.program may be left out

The program's main takes no arguments, and its result is not kept."""
import os
import re

USAGE_LINE = "usage: tta c [OPTION ..] FILE.c .. OUT.program"
NUMBERS = ("--frame", "--base", "--inline", "--unroll", "--cell", "--stack", "--heap")


class Faulty(Exception):
    """Words that are no command."""


class Options:
    def __init__(self, words):
        # No level is -O2, and less where a machine's addresses do not hold that.
        self.level, self.flags, self.files, self.out, self.lines = None, [], [], None, None
        self.machine, self.frame, self.base, self.inline, self.cell, self.stack, self.heap = None, None, 16, None, None, None, None
        self.layout, self.keep, self.unroll, self.run, self.stack_checked = False, None, None, None, True
        words = list(words)
        try:
            while words:
                self.word(words.pop(0), words)
        except IndexError:
            raise Faulty(USAGE_LINE)
        if self.run is None or self.files and not is_source(self.files[-1]):
            self.out = self.files.pop() if len(self.files) > 1 else None
        if not self.files or self.run is None and self.out is None:
            raise Faulty(USAGE_LINE)
        if self.out and is_source(self.out):
            raise Faulty(f"OUT.program comes last, and {self.out} is a source")
        if self.run is not None and self.machine is None:
            raise Faulty("--run needs --machine M")
        self.check()

    def word(self, a, words):
        if re.fullmatch(r"-O[0-3sz]", a):
            self.level = a
        elif a in ("-I", "-D"):
            self.flags += [a, words.pop(0)]
        elif a == "-g":
            self.lines = words.pop(0)
        elif a[:2] in ("-I", "-D", "-w", "-W", "-f") or a.startswith("-std"):
            self.flags.append(a)
        elif a in ("--machine", "--keep"):
            setattr(self, a[2:], words.pop(0))
        elif a in NUMBERS:
            setattr(self, a[2:], number(a, words.pop(0)))
        elif a == "--layout":
            self.layout = True
        elif a == "--unchecked-stack":
            self.stack_checked = False
        elif a == "--run":
            self.run = []
            while words and len(self.run) < 3 and not words[0].startswith("-") and not is_source(words[0]) and (len(self.run) != 1 or words[0].isdecimal()):
                self.run.append(words.pop(0))
            if len(self.run) == 1:
                raise Faulty("--run takes IN N [STREAM], or nothing")
        elif a.startswith("-"):
            raise Faulty(f"no such option: {a}")
        else:
            self.files.append(a)

    def check(self):
        if self.base < 1:
            raise Faulty("--base: the first word that data may take is 1, since word 0 is the null place")
        if self.cell not in (None, 1, 2, 4):
            raise Faulty("--cell: a word holds 1, 2 or 4 bytes")
        for path in [*self.files, *([self.machine] if self.machine else [])]:
            if not os.path.isfile(path):
                raise Faulty(f"there is no file {path}")


def is_source(word):
    return word.endswith((".c", ".i", ".ll"))


def number(option, word):
    try:
        found = int(word, 0)
    except ValueError:
        raise Faulty(f"{option} takes a number, and not {word}")
    if found < 0 or found >= 1 << 32:
        raise Faulty(f"{option}: {word} is out of range")
    return found
