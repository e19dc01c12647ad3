"""What `./tta help` and `./tta explain` print, from the tables of the pages."""
import sys
import textwrap

import formats
import own

ABOVE = """Barthwyfa: a compiler, an assembler and simulators for transport-triggered processors.

Commands, as words after ./tta:
"""
BETWEEN = """
M, P, A, IMG, IN, SCRIPT, STREAM and LINKS name files that are read: the texts of a machine, a program and an assembly, an image, words
of eight hexadecimal digits, a line each, commands of the debugger, and which core feeds which. OUT is written. N is the greatest number
of steps, cycles or rounds. SEED and LINES say which sample program is made, and how long it is; DEPTHS says how many words queues
have.

Commands of the script, and what may stand before a command:
"""
ABOVE_STATUSES = """
A command ends with one of these statuses, and says why on standard error:
"""
BELOW = "\nREADME.md has a tour, and docs/FORMATS.md, COMMANDS.md, OUTPUT.md and ENDINGS.md\nhave every text and number."


def print_form(form, what):
    """A form with what it does below it."""
    print(f"  {form}")
    print(textwrap.fill(f"{what}", 130, initial_indent=" " * 6, subsequent_indent=" " * 6))


def page(_tta, _words):
    """Prints all commands and statuses."""
    print(ABOVE)
    for words, what in formats.commands():
        print(f"  {' '.join(words)}\n      {what}")
    print(BETWEEN)
    for row in own.OWN:
        print_form(", ".join(row.forms), row.what)
    for forms, what in own.OPTIONS:
        print_form(", ".join(forms), what)
    print(ABOVE_STATUSES)
    seen = set()
    for number, cause, *_ in formats.rows("Endings", "Status"):
        if number not in seen:
            print(f"  {number:>2}  {cause}")
            seen.add(number)
    print(BELOW)
    return 0


def explain(_tta, words):
    """Prints what a number means, and gives the status."""
    found = formats.meanings(*words) if len(words) == 2 and words[0] in formats.TABLES and words[1].isdecimal() else []
    for line in found:
        print(line)
    if not found:
        *kinds, last = formats.TABLES
        print(f"tta: explain takes {', '.join(kinds)} or {last}, and a number that is one of its own", file=sys.stderr)
    return 0 if found else 1
