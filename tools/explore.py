"""Compiles each of some programs for each of some machines, runs the images, and prints a table of designs: words, bits of an
instruction, bits of the code, steps, cycles, cycles a step, how many accesses are outside the data space, and how the run ends, also where its
output is not that of `exec` on the first machine, or why there is no image. Pairs are worked at side by side, on all processors.

Its words are machines, `--` and programs, and among them options: `--csv` asks for values with commas, `--bound N` for at most N steps and
cycles, `--vary 'LINE {A,B}'` for a machine with each of these values (sweep.py), and `--synth FLOW` for what each core costs in hardware
(designs/columns.py). With `--search` it is another command (designs/search.py). A program in C is compiled for each machine first. A
program's data words stand in a file of the same name that ends in .input, its input in one that ends in .stream; without them it has none."""
import csv
import importlib
import os
import subprocess
import sys
import tempfile
from collections import namedtuple
from concurrent.futures import ThreadPoolExecutor, as_completed

import ending
import from_c
import runs
import sweep
import words as command_words
from designs import columns, synth

HEADS = ["machine", "program", "words", "bits", "code bits", "steps", "cycles", "cycles/step", "outside", "ends"]
# Where the cycles stand among the cells of a row, after the names.
CYCLES = HEADS.index("cycles") - 2
# The cells of a pair that has no image.
NOTHING = [""] * (len(HEADS) - 3)
BOUND = "1000000000"
DIFFERS = ", with another output"
USAGE, FAILED = 1, 1
WIDTH_AT, COUNT_AT, FIELD = 8, 12, 4

Asked = namedtuple("Asked", "machines programs as_csv bound changes flow")
# What a pair came to: the cells of its row up to the output, the outputs of the image and of the program, if they ran, how the image's run
# ended, and whether that is as it should be.
Row = namedtuple("Row", "cells output wanted ends is_well")


def beside(program, kind):
    """The file beside a program that has another ending, or none."""
    path = os.path.splitext(program)[0] + kind
    return path if os.path.exists(path) else None


def why(error):
    """The reason of a refusal, without the name of the program."""
    return error.split("\n")[0].removeprefix("tta: ")


def header(image):
    """Two numbers of an image's header: the bits of an instruction, and how many instructions there are."""
    with open(image, "rb") as f:
        data = f.read(COUNT_AT + FIELD)
    return (int.from_bytes(data[at:at + FIELD], "big") for at in (WIDTH_AT, COUNT_AT))


def names_of(paths):
    """A name for each of some files: the end of its path that no other of them has, without what comes after the last dot."""
    found = []
    for path in paths:
        others = [os.path.abspath(other) for other in paths if os.path.abspath(other) != os.path.abspath(path)]
        parts = os.path.splitext(os.path.abspath(path))[0].split("/")
        ends = ("/".join(parts[-count:]) for count in range(1, len(parts)))
        found.append(next((end for end in ends if not any(os.path.splitext(other)[0].endswith("/" + end) for other in others)), path))
    return found


class Explorer:
    """Works at pairs with one program, in a folder of its own."""

    def __init__(self, tta, programs, asked, folder, count):
        self.tta, self.asked, self.folder = tta, asked, folder
        self.program, self.view = programs
        self.runs = runs.Runs()
        self.columns = columns.Columns(asked.flow, self.runs, count) if asked.flow else None

    def run(self, *words):
        return self.runs.run([self.program, *words])

    def exec(self, machine, text, program):
        """What `exec` prints of a pair, where this file has the program's text."""
        return self.run("exec", machine, text, *self.given(program))

    def outside(self, machine, image, program):
        """How many accesses of an image's run are outside the data space."""
        told = self.runs.run([self.view, "profile", machine, image, *self.given(program)], read=lambda pipe: (None, pipe.read().decode("utf-8", "replace")))
        found = told.number_after("outside data")
        return "" if found is None else found

    def given(self, program):
        """The words of a command that say what a program is given, and for how long it runs."""
        return [beside(program, ".input") or os.devnull, self.asked.bound, *self.stream(program)]

    def stream(self, program):
        return [path for path in [beside(program, ".stream")] if path]

    def row(self, machine, program, number):
        """What a pair comes to."""
        if not program.endswith(".c"):
            return self.row_of(machine, program, program, number)
        text = os.path.join(self.folder, f"{number}.program")
        made = self.runs.run(from_c.command(self.tta, ["--machine", machine, program, text]))
        if made.status:
            return Row(NOTHING, None, None, why(made.error).removeprefix(f"{program}:"), False)
        return self.row_of(machine, text, program, number)

    def measure(self, machine, image, number):
        """Takes what the core of an image costs."""
        if self.columns and self.columns.synthesis:
            core = self.runs.text([self.view, "rtl", machine, image])
            if core.status == 0:
                self.columns.measure(number, core.output)

    def row_of(self, machine, text, program, number):
        """The same of a text, where the program's words stand beside this file."""
        image = os.path.join(self.folder, f"{number}.image")
        stepped = self.exec(machine, text, program)
        steps = stepped.number_after("steps")
        wanted = None if steps is None else stepped.output
        built = self.run("build", machine, text, image)
        if built.status:
            return Row(NOTHING, None, wanted, why(built.error), False)
        bits, count = header(image)
        sizes = [count, bits, count * bits]
        ran = self.run("run", machine, image, *self.given(program))
        cycles = ran.number_after("cycles")
        self.measure(machine, image, number)
        if cycles is None:
            return Row([*sizes, *NOTHING[len(sizes):]], None, wanted, why(ran.error), False)
        ends = "halted" if ran.status == 0 else why(ran.error)
        if ends == "waiting" and not self.stream(program):
            ends = f"waiting, and there is no {os.path.basename(os.path.splitext(program)[0])}.stream"
        cells = [*sizes, "" if steps is None else steps, cycles, f"{cycles / steps:.2f}" if steps else "", self.outside(machine, image, program)]
        return Row(cells, ran.output, wanted, ends, ends.split(",")[0] in ("halted", "waiting"))


def compared(pairs, rows, extra):
    """The rows with their names, and whether each is as it should be. An output is compared with that of `exec` on the first machine on which
    `exec` takes the program. What comes before the ending is added by the columns, if there are any."""
    table, is_well, wanted = [], True, {}
    for at, (machine, program) in enumerate(pairs):
        if at in rows:
            row = rows[at]
            first = wanted[program] = wanted.get(program) or row.wanted
            differs = None not in (row.output, first) and row.output != first
            more = extra.cells(at, row.cells[CYCLES]) if extra else []
            table.append([machine, program, *row.cells, *more, row.ends + (DIFFERS if differs else "")])
            is_well = is_well and row.is_well and not differs
    return table, is_well


def print_rows(rows, as_csv, left):
    """Rows in columns, or with commas: those of these numbers stand to the left, and all others to the right."""
    if as_csv:
        csv.writer(sys.stdout, lineterminator="\n").writerows(rows)
        return
    texts = [[str(cell) for cell in cells] for cells in rows]
    widths = [max(map(len, column)) for column in zip(*texts)]
    for cells in texts:
        print("  ".join(cell.ljust(width) if at in left else cell.rjust(width) for at, (cell, width) in enumerate(zip(cells, widths))).rstrip())


def print_table(rows, as_csv, extra=None):
    """The table with its head: names and endings to the left, numbers to the right."""
    heads = [*HEADS[:-1], *(extra.heads() if extra else []), HEADS[-1]]
    print_rows([heads, *rows], as_csv, (0, 1, len(heads) - 1))


class Faulty(Exception):
    """What is wrong with the words of the command."""


def value_of(word, value):
    """The value after an option, which is refused where it is none."""
    if value is None:
        raise Faulty(f"{word} takes a word after it")
    if word == "--bound" and not command_words.is_number(value, command_words.BOUND):
        raise Faulty("--bound takes a number of steps and cycles, below 2^48")
    if word == "--synth" and value not in synth.FLOWS:
        raise Faulty(f"--synth takes {' or '.join(synth.FLOWS)}, and not {value!r}")
    return value


def parts_of(words):
    """The names among words, and the values of each option, in their order."""
    names, values = [], {"--csv": [], "--bound": [], "--vary": [], "--synth": []}
    words = iter(words)
    for word in words:
        if word == "--csv":
            values[word].append(True)
        elif word in values:
            values[word].append(value_of(word, next(words, None)))
        elif word.startswith("--") and word != "--":
            raise Faulty(f"explore has no option {word}")
        else:
            names.append(word)
    return names, values


def asked_by(words):
    """What the words ask for."""
    names, values = parts_of(words)
    at = names.index("--") if "--" in names else 0
    machines, programs = (list(dict.fromkeys(part)) for part in (names[:at], names[at + 1:]))
    if not machines or not programs:
        raise Faulty("explore takes machines, then --, then programs")
    for path in machines + programs:
        if not os.path.isfile(path):
            raise Faulty(f"explore: there is no file {path}")
    last = {option: given[-1] if given else None for option, given in values.items()}
    return Asked(machines, programs, bool(last["--csv"]), last["--bound"] or BOUND, values["--vary"], last["--synth"])


def work_at(explorer, pairs, rows):
    """Fills the table of rows, by the number of each pair. Where it is stopped, that holds what is done."""
    with ThreadPoolExecutor(runs.processors()) as workers:
        begun = {workers.submit(explorer.row, *pair, at): at for at, pair in enumerate(pairs)}
        try:
            for done in as_completed(begun):
                rows[begun[done]] = done.result()
        except BaseException:
            explorer.runs.stop()
            workers.shutdown(wait=True, cancel_futures=True)
            raise


def built(tta, commands):
    """Where the programs of some commands stand, so that each is built once, and not by each of those that run side by side; or a status."""
    found = subprocess.run([*tta, "--which", *commands], stdin=subprocess.DEVNULL, stdout=subprocess.PIPE)
    return found.returncode or os.fsdecode(found.stdout).splitlines()


def say_what_lacks(extra, pairs):
    """Says why columns are empty."""
    if extra:
        extra.progress.end()
    if extra and not extra.synthesis:
        ending.say("explore: there is no yosys on the path, so the columns of --synth stay empty")
    for at, why_not in sorted(extra.failed.items()) if extra else []:
        ending.say(f"explore: no synthesis of {' and '.join(pairs[at])}: {why_not}")


def explore(tta, words):
    """The command: the status, once the table is told."""
    if "--search" in words:
        return importlib.import_module("designs.search").search(tta, words)
    try:
        asked = asked_by(words)
        changed = sweep.machines(asked.machines, names_of(asked.machines), asked.changes)
    except (Faulty, sweep.Faulty) as error:
        ending.say(str(error))
        return USAGE
    programs = built(tta, ["build", "profile"])
    if isinstance(programs, int):
        return programs
    pairs = [(name, program) for program in names_of(asked.programs) for name, _ in changed]
    rows, stopped = {}, False
    with tempfile.TemporaryDirectory() as folder:
        machines = sweep.written(changed, folder)
        explorer = Explorer(tta, programs, asked, folder, len(pairs))
        try:
            work_at(explorer, [(machine, program) for program in asked.programs for machine in machines], rows)
        except KeyboardInterrupt:
            stopped = True
    say_what_lacks(explorer.columns, pairs)
    table, is_well = compared(pairs, rows, explorer.columns)
    print_table(table, asked.as_csv, explorer.columns)
    if stopped:
        ending.say(f"stopped; {len(rows)} of {len(pairs)} rows are done")
        return ending.STOPPED
    return 0 if is_well else FAILED
