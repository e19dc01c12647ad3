"""Commands that a check starts in a folder of its own, files there, and the cases that it compares there."""
import os
import subprocess
import tempfile

EXAMPLES = os.path.realpath(os.path.join(os.path.dirname(os.path.abspath(__file__)), "..", "examples"))


def run(folder, *words):
    """The status and both outputs of a command."""
    r = subprocess.run(words, cwd=folder, capture_output=True, timeout=120, stdin=subprocess.DEVNULL)
    return r.returncode, r.stdout.decode(), r.stderr.decode()


def read(folder, name):
    """The bytes of a file."""
    with open(os.path.join(folder, name), "rb") as f:
        return f.read()


def files(folder):
    """The bytes of every file of a folder by its name."""
    return {name: read(folder, name) for name in os.listdir(folder)}


def compared(cases):
    """Compares what the cases in a folder find with what they want, each with its name, tells those that differ, and gives the status of the check.
    The folder has a link to the examples."""
    count, failed = 0, 0
    with tempfile.TemporaryDirectory() as folder:
        os.symlink(EXAMPLES, os.path.join(folder, "examples"))
        for name, found, wanted in cases(folder):
            count += 1
            if found != wanted:
                failed += 1
                print(f"FAIL {name}: found {found}, wanted {wanted}")
    print(f"{count} cases, {failed} failed")
    return 1 if failed else 0
