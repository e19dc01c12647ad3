"""Shows the lines of C beside what `stages`, `profile` and the pages of `stages` and `play` tell of a program that came of C: it copies what comes in, and adds to each line
that names a line of the program, or a range of such lines, where that is in C. Its word is the file that `./tta c -g` writes."""
import re
import sys

ONE = re.compile(rb" line (\d+) : ")
RANGE = re.compile(rb" lines (\d+) (\d+) ")
READ = 1 << 24


def places(path):
    """The place in C of each line of the program that has one."""
    found = {}
    with open(path, "rb") as f:
        for line in f.read(READ).split(b"\n"):
            number, _, place = line.partition(b" ")
            file, colon, at = place.rpartition(b":")
            if colon and number.isdigit() and at.isdigit():
                found[int(number)] = (file, int(at))
    return found


def of_range(known, first, last):
    """The files that a range of the program's lines is of, each with its first and its last line of C."""
    files = {}
    for number in range(first, last + 1):
        if number in known:
            file, at = known[number]
            files.setdefault(file, []).append(at)
    return [b"%s:%d" % (file, min(ats)) + (b" to %d" % max(ats) if min(ats) < max(ats) else b"") for file, ats in files.items()]


def shown(known, line):
    """A line with the lines of C that it is about."""
    one, several = ONE.search(line), RANGE.search(line + b" ")
    if one and int(one[1]) in known:
        return line + b"  ; %s:%d" % known[int(one[1])]
    told = of_range(known, int(several[1]), int(several[2])) if several else []
    return line + (b"  ; " + b", ".join(told) if told else b"")


def main(words):
    known = places(words[0])
    for line in sys.stdin.buffer:
        sys.stdout.buffer.write(shown(known, line.rstrip(b"\n")) + b"\n")
    sys.stdout.buffer.flush()
    return 0
