"""`./tta lint P` and `./tta lint M P`: what is legal in a program and most likely wrong, a line each as FILE:LINE: what. Of a program that is
refused it tells all that is. It ends with 0 where there is nothing to say, and with 1 else."""
import sys

import files
import units
from lints import flow, names, places, refusals
from texts import machine as machine_reader
from texts import program as reader
from texts.tokens import BLANKS, mark_of_order, split

FOUND, USAGE, READ_FAULT, TOO_LONG = 1, 1, 13, 15
# How many bytes of a file are read at most, which is less than the program reads: this takes more time.
MOST_BYTES = 1 << 22


def findings(lines, machine):
    """All that is found in the lines of a program; the machine may be None."""
    if mark_of_order(lines, 1):
        return [(1, mark_of_order(lines, 1))]
    count = sum(1 for line in lines if line.split("#")[0].strip(BLANKS))
    if count > reader.MOST_LINES:
        return [(None, f"a program has at most {reader.MOST_LINES} lines that are not blank, and this one has {count}")]
    program = reader.read(lines)
    found = refusals.of_program(lines, program)
    if not found:
        found = names.findings(program) + flow.findings(program) + (places.findings(program, machine) if machine else [])
    return sorted(set(found), key=lambda one: (one[0] or 0, one[1]))


def told(path, found):
    """The lines of what is found in a file."""
    return [f"{path}:{line}: {text}" if line else f"{path}: {text}" for line, text in found]


def own_units(tta):
    """The operations of the units that --with chooses."""
    return units.own_operations(f"tta_with_{tta[tta.index('--with') + 1]}") if "--with" in tta else []


def lint(tta, words):
    """The command: the status, once all that is found is told."""
    if len(words) not in (1, 2):
        print("tta: usage\n  its words are: lint P\n  its words are: lint M P", file=sys.stderr)
        return USAGE
    texts = []
    for at, path in enumerate(words, 1):
        why = files.why_not_read(path)
        if why:
            print(f"tta: read fault: word {at}\n  word {at}, {path!r}, cannot be read: {why}", file=sys.stderr)
            return READ_FAULT
        with open(path, "rb") as f:
            data = f.read(MOST_BYTES + 1)
            if len(data) > MOST_BYTES:
                print(f"tta: too long: word {at}\n  word {at}, {path!r}, has more than 4 MiB, the most that lint reads", file=sys.stderr)
                return TOO_LONG
        texts.append(split(data))
    reader.ARITY.update(own_units(tta))
    machine, lines = None, []
    if len(words) == 2:
        lines += told(words[0], refusals.of_machine(texts[0]))
        machine = machine_reader.read(texts[0])
    lines += told(words[-1], findings(texts[-1], machine))
    for line in lines:
        print(line)
    return FOUND if lines else 0
