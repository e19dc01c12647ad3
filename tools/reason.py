"""Says in words why a command was refused, below the program's own line: the line of the text that it is about, as compilers show it, and
the one cause that tools/causes finds there. Where that finds none, it says what the table of the pages has for the number. Its words are
the status, the line that the program printed, and the words of the command."""
import os
import re
import sys

import files
import formats
import units
import words as command_words
from causes import assembly, coverage, fault, image, machine, near, program, rtl_words, walks
from causes import words as input_words
from texts import machine as machine_reader
from texts import program as program_reader
from texts.tokens import lines_of, tokens_of

LONGEST = 120
# No cause is looked for in a longer text, which takes memory and time.
LONGEST_TEXT = 1 << 22
# The code of `check` that has two causes.
UNCERTAIN = 80
# A token that is longer than any name may be.
LONG_NAME = re.compile("`([^` ]{64})[^` ]+`")
# How a word that is a number has to be.
RANGES = {"N": "a number of steps, cycles or rounds of at most 15 digits, below 2^48", "K": "a number of cycles of at most 15 digits, below 2^48", "SEED": "a number below 2^32", "LINES": "a number from 1 to 20000"}
ROUNDS = "a number of rounds of at most 7 digits, at most 1048576"
DEPTHS = "one power of two from 2 to 65536 for all queues, or one for each core with commas between them"


class Said:
    """What the program printed, and the words of the command that it is about."""

    def __init__(self, status, line, words):
        self.status, self.line, self.words = status, line, words
        self.counted = command_words.counted(words)
        self.kind = line.split(":")[0]

    def number(self, word):
        """The number after a word of the line, or None."""
        found = re.search(rf"\b{word} (\d+)", self.line)
        return int(found[1]) if found else None

    def path(self, name):
        """The file that the command names in the place of this word of one of its forms, or None."""
        forms = [command_words.whole(form, self.words) for form, _ in formats.commands() if self.words and form[0] == self.words[0]]
        found = [form for form in forms if len(form) == len(self.words) and name in form]
        return self.words[found[0].index(name)] if found else None

    def lines(self, name):
        return lines_of(self.path(name))

    def machine(self):
        return machine_reader.read(self.lines("M"))


def shown_line(path, number):
    """A line of a file as compilers show it, or nothing where there is no such line."""
    try:
        with open(path, "rb") as f:
            lines = f.read(1 << 24).split(b"\n")
    except OSError:
        return []
    if not 1 <= number <= len(lines):
        return []
    text = lines[number - 1].decode("utf-8", "replace").rstrip()
    text = "".join(c if c.isprintable() else " " for c in text)
    return [f"{os.path.basename(path)}:{number}: {text[:LONGEST]}{'..' if len(text) > LONGEST else ''}"]


def line_of_c(path, number):
    """The line of C that a program's line is of, where the file that `./tta c -g` writes stands beside the program."""
    try:
        with open(os.path.splitext(path)[0] + ".lines", encoding="utf-8", errors="replace") as f:
            place = re.search(rf"^{number} (.*):(\d+)$", f.read(1 << 24), re.M)
    except OSError:
        return []
    return (shown_line(place[1], int(place[2])) or [f"{place[1]}:{place[2]}"]) if place else []


def codes(table, number):
    return [f"code {number}: {line}" for line in formats.meanings(table, number)]


def of_status(said):
    return formats.meanings("status", said.status)[:1]


# ---- refused texts: the name of the word, and the cause of a refusal in its lines

def machine_cause(said):
    return machine.cause(said.lines("M"), said.number("line"), said.number("code"))


def program_cause(said):
    return program.cause(said.lines("P"), said.number("line"), said.number("code"))


def assembly_cause(said):
    return assembly.cause(said.lines("A"), said.number("line"), said.number("code"), said.machine())


def input_cause(said):
    return input_words.cause(said.lines("IN"), said.number("line"), said.machine().words("data"))


def stream_cause(said):
    return input_words.cause(said.lines("STREAM"), said.number("line"))


def links_cause(said):
    return input_words.links(said.lines("LINKS"), said.number("line"), said.number("code"), (len(said.counted) - 3) // 3)


def step_at(said):
    number = said.number("line")
    return program_reader.step_of(number, tokens_of(said.lines("P")[number - 1]))


def unit_cause(said):
    text = coverage.no_unit(said.machine(), step_at(said))
    return machine.Cause(said.number("line"), text) if text else None


def data_cause(said):
    address = step_at(said).operands[0].value
    return machine.Cause(said.number("line"), f"the data space has {near.count(said.number('have'), 'word')}, so the address {address} lies outside it: `space data` of the machine gives its size")


TEXTS = {
    "machine": ("M", "machine", machine_cause), "program": ("P", "program", program_cause), "assembly": ("A", "assembly", assembly_cause),
    "input": ("IN", None, input_cause), "stream": ("STREAM", None, stream_cause), "links": ("LINKS", "links", links_cause),
    "no unit": ("P", None, unit_cause), "data": ("P", None, data_cause),
}


def found(work, *given):
    """What a finder of causes gives; nothing where it meets a text that is not as it expects. A reason is never worth a traceback."""
    try:
        return work(*given)
    except (OSError, ValueError, IndexError, KeyError, AttributeError, TypeError, StopIteration):
        return None


def of_text(said):
    """The lines on a text that is refused: the line that is to be mended, and the cause."""
    name, table, finder = TEXTS[said.kind]
    path = said.path(name)
    is_short = path and os.path.isfile(path) and os.path.getsize(path) <= LONGEST_TEXT
    cause = found(finder, said) if is_short else None
    line = cause.line if cause else said.number("line")
    below = [cause.text] if cause else codes(table, said.number("code")) if table else of_status(said)
    shown = shown_line(path, line) if path and line else []
    shown += line_of_c(path, line) if shown and name == "P" else []
    return shown + [LONG_NAME.sub(r"`\1..`", text) for text in below]


# ---- other refusals

def of_coverage(said):
    lines = found(coverage.rule, found(said.machine), said.number("rule"))
    return lines or of_status(said)


def of_frame(said):
    return [f"the program needs {near.count(said.number('need'), 'word')} of the frame space, and the machine has {said.number('have')}: `space frame` gives their number"]


def of_code(said):
    have = said.number("have")
    return [f"the code has {said.number('words')} instructions, and the machine has {have} addresses: `address {have.bit_length() - 1}` of its line `control` gives their bits"]


def of_image(said, image_path=None, machine_path=None, code=None):
    code = code or said.number("code")
    place = () if image_path else (said.number("word"), said.number("bus"))
    text = found(image.cause, image_path or said.path("IMG"), machine_path or said.path("M"), code, *place)
    return [text] if text else codes("image", code)


def of_core(said):
    """A file of a core: a machine, an image for it, or the words of its data space."""
    at, code = said.number("word"), said.number("code")
    path, core, what = said.counted[at], (at - 3) // 3, (at - 3) % 3
    head = f"word {at} is {path!r}, the {('machine', 'image', 'data words')[what]} of core {core}"
    if what == 1:
        return [head, *of_image(said, path, said.counted[at - 1], code)]
    if what == 0:
        return [head, *codes("machine", code), f"`./tta info {path}` says where"]
    return [head, *codes("links", code)]


def named(at, words):
    """A word of the command that names a file, as it is told."""
    return f"word {at}, {words[at]!r}," if at else "standard input"


def of_reading(said):
    at = said.number("word")
    if said.kind == "too long":
        return [f"{named(at, said.counted)} has more than 16 MiB"]
    why = files.why_not_read(said.counted[at]) if at else None
    lines = [f"{named(at, said.counted)} cannot be read{f': {why}' if why else ''}"]
    return lines + rtl_words.of(said.words) if said.words[:2] == ["rtl", "net"] and said.counted is said.words else lines


def of_writing(said):
    """Which file could not be written, and why."""
    path = said.path("OUT")
    why = files.why_output_failed() if path is None else files.why_write_failed(path)
    what = "standard output" if path is None else repr(path)
    return [f"{what} cannot be written{f': {why}' if why else ''}"]


def of_usage(said):
    """What is wrong with the words of a command, and its forms."""
    words = said.words
    forms = [form for form, _ in formats.commands() if words and form[0] == words[0]]
    lines = []
    for form in (command_words.whole(form, words) for form in forms):
        at = form.index("DEPTHS") if "DEPTHS" in form and len(form) == len(words) else None
        if at and not command_words.are_depths(words[at], form.count("IMG")):
            lines = [f"{words[at][:LONGEST]!r} stands where DEPTHS has to be {DEPTHS}"]
        wrong = [(name, word) for name, word in zip(form, words) if name in RANGES and not command_words.takes([form[0], name], [form[0], word])]
        if len(form) == len(words) and wrong:
            name, word = wrong[0]
            lines = [f"{word[:LONGEST]!r} stands where {name} has to be {ROUNDS if form[0] == 'net' else RANGES[name]}"]
    if words[:1] == ["rtl"] and not lines:
        lines = rtl_words.of(words)
    if words[:1] == ["circuit"] and len(words) == 2:
        lines = [f"the unit hands in no circuit of an operation {words[1][:LONGEST]!r}"]
    if not all(map(command_words.is_text, words)):
        lines = ["a word has bytes that are no UTF-8"]
    return lines + ([f"its words are: {' '.join(form)}" for form in forms] or ["./tta help lists the commands"])


def of_fault(said):
    """The instruction at the fault, where it can be found, and what the number means."""
    program, lines = os.environ.get("TTA_RUNS"), []
    if program and said.kind == "machine fault" and said.words[0] == "run":
        lines = found(fault.of_run, program, said.words, said.number("cycle")) or []
    elif program and said.kind == "unsafe":
        lines = found(fault.instruction, program, said.path("M"), said.path("IMG"), said.number("word")) or []
    if program and lines and said.number("code") == UNCERTAIN:
        of_walks = found(walks.cause, said.machine(), found(fault.code_of, program, said.path("M"), said.path("IMG")), said.number("word"))
        if of_walks:
            return [*lines, of_walks]
    return lines + codes("fault", said.number("code")) or of_status(said)


OTHERS = {
    "usage": of_usage, "not covered": of_coverage, "frame full": of_frame, "code full": of_code, "image": of_image, "core file": of_core,
    "read fault": of_reading, "too long": of_reading, "write fault": of_writing, "machine fault": of_fault, "unsafe": of_fault,
}


def reason(status, line, words):
    """Lines that say why."""
    said = Said(status, line, words)
    if said.kind in TEXTS:
        return of_text(said)
    return found(OTHERS.get(said.kind, of_status), said) or of_status(said)


def main(words):
    status, said, *words = words
    program_reader.ARITY.update(units.own_operations(os.environ.get("TTA_CRATE", "tta")))
    if said.startswith("tta: ") and "\n" not in said:
        for line in reason(int(status), said.removeprefix("tta: "), words):
            print(f"  {line}", file=sys.stderr)
    return 0
