"""Copies of the script ./tta in which nothing is built, beside stand-ins for cargo and rt that only say what they are asked for."""
import os
import shutil
import signal
import subprocess
import time

TOP = os.path.realpath(os.path.join(os.path.dirname(os.path.abspath(__file__)), ".."))
# What stands for cargo: it leaves a program that says its words, once it has waited as long as it is told.
CARGO = """#!/bin/sh
[ "$1" = --version ] && { echo "cargo ${CARGO_SAYS:-1.95.0}"; exit 0; }
echo "$@" >> "$NOTES"
[ -n "$CARGO_FAILS" ] && { echo 'error: broken' >&2; exit 101; }
while [ "$1" != --profile ]; do shift; done
sleep "${CARGO_TAKES:-0}"
mkdir -p "target/$2" && printf '#!/bin/sh\\necho plain "$@"\\n' > "target/$2/$6" && chmod +x "target/$2/$6"
"""
# What stands for rt.
PROVER = """#!/bin/sh
echo 'rt: chose --jobs 2 for tta_list'
sleep "${RT_TAKES:-0}"
name=$(basename "$PWD")
mkdir -p out && printf '#!/bin/sh\\necho proved "$@"\\n' > "out/$name" && chmod +x "out/$name"
"""


class Copy:
    """A copy of the script in which nothing is built, beside stand-ins for its tools, and with a folder for temporary files."""

    def __init__(self, folder, name="copy", cargo=CARGO, prover=PROVER):
        self.folder, self.top, self.bin = folder, os.path.join(folder, name), os.path.join(folder, "bin")
        self.notes, self.temporary = os.path.join(folder, "notes"), os.path.join(folder, "temporary")
        for path in (self.bin, self.temporary):
            os.mkdir(path)
        for name in ("tools", "docs", "crates"):
            shutil.copytree(os.path.join(TOP, name), os.path.join(self.top, name), ignore=shutil.ignore_patterns("out", "must-fail", "proofs", "specs", "pictures", "*.log"))
        for name in ("tta", "crates.txt", "README.md"):
            shutil.copy(os.path.join(TOP, name), self.top)
        self.script = os.path.join(self.top, "tta")
        for name, text in (("cargo", cargo), ("rt", prover)):
            if text:
                with open(os.path.join(self.bin, name), "w") as f:
                    f.write(text)
                os.chmod(os.path.join(self.bin, name), 0o755)

    def environment(self, **given):
        kept = {name: value for name, value in os.environ.items() if not name.startswith("TTA_")}
        return {**kept, "PATH": f"{self.bin}:{os.environ['PATH']}", "NOTES": self.notes, "TMPDIR": self.temporary, "TTA_FAST": "no", **given}

    def begin(self, *words, script=None, **given):
        return subprocess.Popen(
            [script or self.script, *words], cwd=self.folder, env=self.environment(**given), stdin=subprocess.DEVNULL,
            stdout=subprocess.PIPE, stderr=subprocess.PIPE, text=True, errors="surrogateescape", start_new_session=True)

    def call(self, *words, **given):
        """The status and both outputs of a command."""
        begun = self.begin(*words, **given)
        output, said = begun.communicate(timeout=120)
        return begun.returncode, output, said

    def builds(self):
        """How often cargo built something."""
        if not os.path.exists(self.notes):
            return 0
        with open(self.notes) as f:
            return len(f.readlines())


def waited(comes):
    """Whether something comes that is not there yet."""
    for _ in range(600):
        if comes():
            return True
        time.sleep(0.1)
    return False


def stopped(begun, until):
    """How a command ends that is stopped by one press of a key, once it has said something."""
    said = ""
    while until not in said:
        line = begun.stderr.readline()
        if not line:
            return begun.wait(), f"it ended before: {said}"
        said += line
    time.sleep(0.3)
    os.killpg(begun.pid, signal.SIGINT)
    output, more = begun.communicate(timeout=60)
    return begun.returncode, output, more
