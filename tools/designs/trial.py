"""Tries machines: builds each program for one, runs the images, and compares what they output with `exec` on the first machine. A program in C is
compiled once, for the first machine, so that all machines run the same text."""
import os
from collections import namedtuple
from concurrent.futures import ThreadPoolExecutor

import explore
import from_c
import reason
import runs
from designs import model
from texts import program as program_reader
from texts.tokens import lines_of

# A program: its name, the text that is built, the files of its data and input, and the digest of what it outputs.
Program = namedtuple("Program", "name text data stream wanted")
# What a machine came to: cycles of each program, words of each code, bits of an instruction.
Trial = namedtuple("Trial", "cycles words bits")
FLAGS = {"load": "ldw", "store": "stw", "out": "out", "in": "in"}
RELATIONS = {"eq": "eq", "ne": "eq", "lt": "lt", "ge": "lt", "ltu": "ltu", "geu": "ltu"}
FRAME = {"ldf", "stf"}
ENDS = ("halted", "waiting")
# So many machines are given to many processors at a time.
WIDTH = 16


class Refused(Exception):
    """Why a program cannot be tried at all, and the lines that stand below it."""

    def __init__(self, text, below=()):
        super().__init__(text)
        self.more = "".join(f"\n  {line}" for line in below)


def refused_by(ran, words, head):
    """A refusal by a command, told as the script tells it: which line of which file, and its cause."""
    line = explore.why(ran.error)
    return Refused(f"{head}: {line}", reason.reason(ran.status, line, words[1:]))


def operations_of(text):
    """The operations that a machine must have for a program."""
    found = set(FRAME)
    for proc in program_reader.read(lines_of(text)).procs:
        for step in proc.steps:
            found |= {step.name} if step.kind == "operation" else {FLAGS[step.kind]} if step.kind in FLAGS else set()
            found |= {RELATIONS[step.relation]} if step.relation else set()
    return found


class Trier:
    """Tries machines with the programs of tta: those of `build` and of `info`. Files stand in a folder of its own."""

    def __init__(self, tta, programs, folder, bound):
        self.tta, (self.program, self.view) = tta, (programs[0], programs[-1])
        self.folder, self.bound, self.runs = folder, bound, runs.Runs()
        self.programs = []

    def take(self, machine, paths):
        """Takes the programs, with what they output on the first machine."""
        for at, (path, name) in enumerate(zip(paths, explore.names_of(paths))):
            text = path
            if path.endswith(".c"):
                text = os.path.join(self.folder, f"{at}.program")
                made = self.runs.run(from_c.command(self.tta, ["--machine", machine, path, text]))
                if made.status:
                    raise Refused(explore.why(made.error), ["tta c --machine takes the programs that may be tried; docs/C.md says what it takes"])
            data, stream = explore.beside(path, ".input") or os.devnull, explore.beside(path, ".stream")
            words = [self.program, "exec", machine, text, data, self.bound, *([stream] if stream else [])]
            ran = self.runs.run(words)
            if explore.why(ran.error) == "running":
                more = f"the program does not end within {self.bound} steps; --bound N takes more, and machines are compared by runs that end"
                raise Refused(f"{path}: running", [more])
            if ran.number_after("steps") is None or ran.status and explore.why(ran.error) not in ENDS:
                raise refused_by(ran, words, path)
            self.programs.append(Program(name, text, data, stream, ran.output))

    def refusal(self, path):
        """Why a machine is not tried."""
        words = [self.view, "info", path]
        told = self.runs.text(words)
        if told.status:
            return refused_by(told, words, path)
        broken = [line for line in told.output.decode("latin-1").split("\n") if line.startswith("rule ")]
        if broken:
            more = "`build` compiles for covered machines alone; docs/COMMANDS.md, Coverage, has the rules"
            return Refused(f"{path} is not covered: {broken[0]}", [more])
        for program in self.programs:
            words = [self.program, "build", path, program.text, os.path.join(self.folder, "refused.image")]
            built = self.runs.run(words)
            if built.status:
                return refused_by(built, words, f"{path} and {program.name}")
        more = f"its run may take more than {self.bound} cycles; --bound N takes more"
        return Refused(f"{path} does not output what exec does, within the bound", [more])

    def operations(self):
        """The operations that the programs use."""
        return set().union(*(operations_of(program.text) for program in self.programs))

    def write(self, machine, number):
        path = os.path.join(self.folder, f"{number}.machine")
        with open(path, "w", encoding="latin-1") as f:
            f.write("\n".join(model.lines_of(machine)) + "\n")
        return path

    def is_covered(self, path):
        """Whether `build` compiles every program for a machine."""
        told = self.runs.text([self.view, "info", path])
        return told.status == 0 and b"\nrule " not in told.output

    def one(self, machine, number):
        """What a machine comes to, or None where it is refused, is not covered, or outputs anything else."""
        path, cycles, words, bits = self.write(machine, number), [], [], 0
        image = os.path.join(self.folder, f"{number}.image")
        try:
            if not self.is_covered(path):
                return None
            for program in self.programs:
                if self.runs.run([self.program, "build", path, program.text, image]).status:
                    return None
                ran = self.runs.run([self.program, "run", path, image, program.data, self.bound, *([program.stream] if program.stream else [])])
                if ran.output != program.wanted or ran.status and explore.why(ran.error) not in ENDS:
                    return None
                cycles.append(ran.number_after("cycles"))
                bits, count = explore.header(image)
                words.append(count)
            return Trial(tuple(cycles), tuple(words), bits)
        finally:
            for left in (path, image):
                if os.path.exists(left):
                    os.remove(left)

    def many(self, machines, first):
        """The same of many, side by side, numbered from the first on."""
        with ThreadPoolExecutor(runs.processors()) as workers:
            try:
                return list(workers.map(self.one, machines, range(first, first + len(machines))))
            except BaseException:
                self.runs.stop()
                workers.shutdown(wait=True, cancel_futures=True)
                raise
