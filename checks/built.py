"""The built programs, over which the checks and the benchmark run: those that ./tta runs, which it builds where they are not there. That is
the proved one where it is there and no source is newer, and else the plain one. The variable TTA_PROGRAM, which is proved or plain, asks
for one of the two, as the gate does. Which it is, is told first. Nothing else is built beside the checks."""
import os
import subprocess
import sys

TOP = os.path.normpath(os.path.join(os.path.dirname(os.path.abspath(__file__)), ".."))
SCRIPT = os.path.join(TOP, "tta")

os.environ["TTA_FAST"] = "no"


def paths_of(*commands, options=()):
    """Where the programs of some commands stand, which are built first; with options that stand before a command."""
    found = subprocess.run([SCRIPT, *options, "--which", *commands], stdin=subprocess.DEVNULL, stdout=subprocess.PIPE)
    if found.returncode:
        sys.exit("the program is not there, and cannot be built")
    return os.fsdecode(found.stdout).splitlines()


PROGRAM, VIEW = paths_of("build", "info")
IS_PROVED = PROGRAM == os.path.join(TOP, "crates", "tta", "out", "tta")
print(f"over the {'proved' if IS_PROVED else 'plain'} program", flush=True)
