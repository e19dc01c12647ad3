"""What `./tta --version` prints: the version, the prover that it is proved with, and which program would run."""
import os
import re
import subprocess

import formats

PROVER = re.compile(r"kit rattle-kit-[^)]*")
OTHER = {"proved": "--plain", "plain": "--proved"}


def commit():
    """The short name of the commit that is checked out, or None."""
    if not os.path.exists(os.path.join(formats.TOP, ".git")):
        return None
    try:
        words = ["git", "-C", formats.TOP, "rev-parse", "--short", "HEAD"]
        found = subprocess.run(words, stdin=subprocess.DEVNULL, capture_output=True, text=True)
    except OSError:
        return None
    return found.stdout.strip() if found.returncode == 0 else None


def main(words):
    kind, is_there, path = words
    print(f"Barthwyfa {commit() or 'without its history'}")
    with open(os.path.join(formats.TOP, "README.md"), encoding="utf-8") as page:
        print(PROVER.search(page.read())[0])
    where = path if is_there else "not built yet"
    other = "plain" if kind == "proved" else "proved"
    print(f"the {kind} program, {where}; {OTHER[kind]} before a command asks for the {other} one")
    return 0
