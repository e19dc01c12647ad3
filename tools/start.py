"""Starts a tool of the script: its first word is the tool's name, the others are the tool's. A tool has a function `main`, which takes
its words and gives a status. How tools end is said here once: one line and no traceback, whatever fails.

These lines are such as every Python reads, so that one that is too old says so."""
import sys

OLDEST = (3, 9)
if sys.version_info < OLDEST:
    sys.stderr.write("tta: needs Python %d.%d or newer, and python3 is %d.%d\n" % (OLDEST + sys.version_info[:2]))
    sys.exit(70)

sys.dont_write_bytecode = True
import ending

if __name__ == "__main__":
    ending.start(sys.argv[1], sys.argv[2:])
