"""What checks/random/c and checks/outside/csmith share: a program of C on the host, its three-address code by `exec`, and images of it by `run`."""
import os
import platform
import shutil
import subprocess
import sys
import tempfile

HERE = os.path.dirname(os.path.abspath(__file__))
TOP = os.path.normpath(os.path.join(HERE, ".."))
PROGRAMS = os.path.join(HERE, "c_programs")
TOOL = os.path.join(TOP, "tools", "c")
sys.path[:0] = [TOOL]
import clang
import llvm
import translate
from ir import Refused
from machine import Machine
from built import PROGRAM, paths_of

MACHINES = [os.path.join(PROGRAMS, "one_bus.machine"), os.path.join(PROGRAMS, "three_buses.machine"), os.path.join(TOP, "examples", "large.machine")]
# A machine with few operations, one with operations beyond the standard ones, and the program that knows these.
FEW, BITS = (os.path.join(PROGRAMS, name + ".machine") for name in ("few_operations", "bits"))
WITH_BITS = paths_of("build", options=["--with", "bits"])[0]
BOUND = "200000000"
# The words of the frame space of each of the machines, which a text that is made for none has to do with.
FRAME = 4096
TIMEOUT = 200


class Wrong(Exception):
    """What differs, or does not work, in words."""


def lacking():
    """Why no program can be tried, or nothing."""
    if llvm.missing():
        return llvm.missing()
    return None if any(map(shutil.which, ("gcc", "clang"))) else "neither gcc nor clang on the path"


class Slow(Wrong):
    """A command that takes too long."""


def answer(words, timeout=TIMEOUT, **more):
    """The status and both outputs of a command."""
    try:
        r = subprocess.run(words, capture_output=True, text=True, timeout=timeout, **{"stdin": subprocess.DEVNULL, **more})
    except subprocess.TimeoutExpired:
        raise Slow(f"{os.path.basename(words[0])} takes more than {timeout} seconds")
    return r.returncode, r.stdout, r.stderr


def words_of_32_bits():
    """The option for a host's compiler that makes programs with words of 32 bits, where it can."""
    compiler = shutil.which("gcc") or shutil.which("clang")
    with tempfile.TemporaryDirectory() as folder:
        source = os.path.join(folder, "s.c")
        with open(source, "w") as f:
            f.write("#include <stdio.h>\nint main(void) { puts(\"\"); return sizeof(void *) != 4; }\n")
        made = answer([compiler, "-m32", source, "-o", os.path.join(folder, "s")])[0] == 0
        return ["-m32"] if made and answer([os.path.join(folder, "s")])[0] == 0 else []


class Host:
    """The compiler of the host, which is not the one that is tried where there is gcc."""

    def __init__(self):
        self.compiler = shutil.which("gcc") or shutil.which("clang")
        # Floating point of 32-bit processors by the units of 64-bit ones: others round twice.
        self.narrow = [*words_of_32_bits(), *(["-msse2", "-mfpmath=sse"] if platform.machine() in ("x86_64", "i686") else [])]

    def output(self, source, stream, folder, timeout=TIMEOUT):
        """The words that a program outputs on the host."""
        program = os.path.join(folder, "host")
        own = ["-I", os.path.join(TOOL, "include"), "-w", "-fwrapv", "-fno-strict-aliasing", "-ffp-contract=off", *self.narrow, *source.flags]
        status, _, error = answer([self.compiler, "-O1", *own, *source.files, "-o", program, "-lm"])
        if status:
            raise Wrong(f"the host's compiler refuses it: {error.splitlines()[0]}")
        with open(stream or os.devnull) as given:
            status, printed, _ = answer([program], timeout, stdin=given)
        if status:
            raise Wrong(f"on the host it ends with {status}")
        return printed.split()

    def undefined(self, source, folder, timeout=TIMEOUT):
        """What the host's compiler finds undefined as the program runs, or nothing: csmith takes places of packed fields, which need not be aligned."""
        program = os.path.join(folder, "checked")
        own = ["-fsanitize=undefined", "-O1", "-w", "-I", os.path.join(TOOL, "include"), *self.narrow, *source.flags]
        if answer([self.compiler, *own, *source.files, "-o", program, "-lm"])[0]:
            return None
        return next((line for line in answer([program], timeout)[2].split("\n") if "runtime error" in line), None)


def texts(source, level, cells, folder, machine=None, version=None):
    """The program's text at a level of LLVM, for each number of bytes that words are to hold (nothing: as the tool chooses)."""
    unroll, machine = 60 if level == "-O3" else 0, Machine(machine)
    machine.frame = FRAME if machine.path is None else machine.frame
    try:
        text = clang.Compiler(source._replace(flags=["-w", *source.flags]), level, folder, machine.lacks, version).text(1000, unroll)
        for cell in cells:
            path = os.path.join(folder, f"text{cell or 0}")
            program, _ = translate.Program(text, machine, cell=cell).text()
            with open(path, "w") as f:
                f.write(program)
            yield cell, path
    except clang.BadSource as e:
        raise Wrong(f"clang refuses it: {str(e).splitlines()[0]}")
    except Refused as e:
        raise Wrong(f"refused: {e.where}: {e.text}")


def stepped(text, stream, program=PROGRAM, machine=MACHINES[-1]):
    """What `exec` prints."""
    status, printed, error = answer([program, "exec", machine, text, os.devnull, BOUND, *([stream] if stream else [])])
    if status not in (0, 19):
        raise Wrong(f"exec ends with {status}: {error.strip()}")
    return printed.split("\n")


def compiled(machine, text, stream, folder, wanted, program=PROGRAM):
    """Compares an image's run with the lines of `exec`, and gives its words and cycles."""
    name, image = os.path.splitext(os.path.basename(machine))[0], os.path.join(folder, "image")
    status, _, error = answer([program, "build", machine, text, image])
    if status:
        raise Wrong(f"build for {name}: {error.strip()}")
    _, printed, error = answer([program, "run", machine, image, os.devnull, BOUND, *([stream] if stream else [])])
    lines = printed.split("\n")
    if lines[:-2] != wanted[:-2]:
        raise Wrong(f"run on {name} is not as exec: {error.strip()}")
    with open(image, "rb") as f:
        return int.from_bytes(f.read(16)[12:], "big"), int(lines[-2].split()[1])


def compare(outputs, wanted, what):
    """Compares lines of `exec` with the words of the host."""
    found = [line for line in outputs if line.isdigit()]
    if found != wanted:
        at = next((k for k, (a, b) in enumerate(zip(found, wanted)) if a != b), min(len(found), len(wanted)))
        pair = [x[at] if at < len(x) else "nothing" for x in (found, wanted)]
        raise Wrong(f"{what}: word {at} is {pair[0]}, and on the host {pair[1]}")
