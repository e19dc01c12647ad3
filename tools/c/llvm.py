"""Which clang and LLVM are used: the newest version that is there and is taken, or the one that TTA_LLVM asks for.

Debian names the programs of a version with its number (clang-16); programs without a number are asked for theirs, where no numbered ones
are there. The versions from OLDEST to NEWEST are taken; `checks/random/c --versions` tries each of them that is there (14, 15, 16, 19 and 22 of Debian were).
Others are refused, since their text may have what the reader does not know."""
import os
import re
import shutil
import subprocess

OLDEST, NEWEST = 14, 22
NEEDED = ("clang", "llvm-link", "opt")
HOW = "`tools/setup`, or `apt-get install clang llvm`"


class Lacking(Exception):
    """No version that can be used, in a line."""


class Version:
    """The programs of one version."""

    def __init__(self, number, suffix):
        self.number = number
        self.clang, self.link, self.opt = (name + suffix for name in NEEDED)


def lacks(suffix):
    """Which of the programs are not on the path."""
    return [name + suffix for name in NEEDED if not shutil.which(name + suffix)]


def number_of(clang):
    """The version of a clang, or nothing where it does not tell."""
    try:
        told = subprocess.run([clang, "--version"], capture_output=True, text=True, stdin=subprocess.DEVNULL).stdout
    except OSError:
        return None
    got = re.search(r"version (\d+)\.", told)
    return int(got[1]) if got else None


def found():
    """The programs that are used, or the reason why there are none."""
    asked = os.environ.get("TTA_LLVM")
    if asked:
        if not asked.isdecimal() or not OLDEST <= int(asked) <= NEWEST:
            raise Lacking(f"TTA_LLVM is {asked}: the versions {OLDEST} to {NEWEST} of LLVM are taken")
        if not lacks(f"-{asked}"):
            return Version(int(asked), f"-{asked}")
    else:
        for number in range(NEWEST, OLDEST - 1, -1):
            if not lacks(f"-{number}"):
                return Version(number, f"-{number}")
    missing = lacks("")
    number = None if missing else number_of("clang")
    if number and not asked and OLDEST <= number <= NEWEST or number and asked == str(number):
        return Version(number, "")
    if asked:
        raise Lacking(f"TTA_LLVM is {asked}, and {', '.join(lacks(f'-{asked}'))} not found")
    if missing:
        raise Lacking(f"{', '.join(missing)} not found: C needs clang and LLVM, of version {OLDEST} to {NEWEST} ({HOW})")
    age = "of no version that it tells" if number is None else f"of version {number}, which is too {'old' if number < OLDEST else 'new'}"
    raise Lacking(f"clang is {age}: C needs clang and LLVM of version {OLDEST} to {NEWEST} ({HOW})")


def missing():
    """Why no version can be used, or nothing."""
    try:
        found()
    except Lacking as e:
        return str(e)
    return None
