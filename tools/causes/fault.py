"""The instruction at which a run is at a fault, or a walk of code has one, as `dis` shows it. The program that ran is asked."""
import os
import re
import stat
import subprocess

from causes import near

# Where a fault comes later, it is not looked for: the run would have to be made again.
MOST_CYCLES = 1_000_000
SECONDS = 20


def answer(program, words, given=""):
    """What a command prints, or None where it fails otherwise than at a fault."""
    try:
        r = subprocess.run([program, *words], input=given, capture_output=True, text=True, timeout=SECONDS, errors="replace")
    except (OSError, subprocess.TimeoutExpired):
        return None
    return r.stdout


def is_lasting(path):
    """Whether a file can be read once more: a pipe cannot."""
    mode = os.stat(path).st_mode
    return stat.S_ISREG(mode) or os.path.samefile(path, os.devnull)


def code_of(program, machine, image):
    """The lines of an image's instructions, or none."""
    if not is_lasting(machine) or not is_lasting(image):
        return []
    shown = answer(program, ["dis", machine, image, "/dev/stdout"])
    return [line for line in (shown or "").split("\n")[:-1] if not line.startswith("data ")]


def instruction(program, machine, image, address):
    """The line for an instruction, or nothing."""
    lines = code_of(program, machine, image)
    if address >= len(lines):
        return [f"the address {address} lies outside the code, which has {near.count(len(lines), 'instruction')}"] if lines else []
    return [f"address {address}: {lines[address]}"]


def of_run(program, words, cycle):
    """The instruction before which a run stands after so many cycles."""
    _, machine, image, data, _, *stream = words
    if cycle > MOST_CYCLES or not all(map(is_lasting, [machine, image, data, *stream])):
        return []
    replies = answer(program, ["debug", machine, image, data, "/dev/stdin", *stream], f"step {cycle}\nwhere\n" if cycle else "where\n")
    places = re.findall(r"^at (\d+) cycle (\d+)$", replies or "", re.M)
    if not places or int(places[-1][1]) != cycle:
        return []
    return instruction(program, machine, image, int(places[-1][0]))
