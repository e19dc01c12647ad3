"""The command `c`: it is a tool of its own, which takes the place of this one."""
import os
import sys

TOOL = os.path.join(os.path.dirname(os.path.abspath(__file__)), "c", "compile.py")


def command(tta, words):
    """The words that start the tool, where tta is how the script is started."""
    script, *options = tta
    return [sys.executable, TOOL, str(len(options)), script, *options, *words]


def compile_c(tta, words):
    sys.stdout.flush()
    words = command(tta, words)
    os.execv(words[0], words)
