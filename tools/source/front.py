"""`./tta prompt M P IN [STREAM]`, and `prompt` of an image at a terminal: a session by the source over the proved prompt of the image."""
import os
import subprocess
import sys
import tempfile

from source.child import Child, Gone
from source.program import Source
from source.session import Session

MAGIC = b"TTAI"


def is_image(path):
    try:
        with open(path, "rb") as f:
            return f.read(4) == MAGIC
    except OSError:
        return False


def lines_of_input(is_terminal):
    """The lines that are asked, one after another."""
    if not is_terminal:
        yield from (line.rstrip("\n") for line in sys.stdin)
        return
    try:
        import readline  # noqa: F401  (it gives history and editing to `input`)
    except ImportError:
        pass
    while True:
        try:
            yield input("tta> ")
        except EOFError:
            print()
            return


def conversation(session, is_terminal):
    """Answers each line, and ends with the prompt's status."""
    for line in lines_of_input(is_terminal):
        if not line.strip():
            continue
        try:
            reply = session.answer(line)
        except Gone as gone:
            return gone.args[0]
        print("\n".join(reply), flush=True)
        if reply == ["bye"]:
            break
    return session.child.end()


def compiled(tta, machine, path, folder):
    """The image of a program and its source, or the status with which it is refused."""
    image = os.path.join(folder, "image")
    status = subprocess.run([*tta, "build", machine, path, image], stdin=subprocess.DEVNULL).returncode
    if status:
        return status, None, None
    stages = subprocess.run([*tta, "stages", machine, path], stdin=subprocess.DEVNULL, stdout=subprocess.PIPE)
    with open(path, encoding="utf-8", errors="surrogateescape") as f:
        text = f.read()
    return stages.returncode, image, Source(text, stages.stdout.decode("utf-8", "surrogateescape"))


def prompt(tta, words):
    """The command: the status of the prompt behind it."""
    machine, path, given = words[0], words[1], words[2:]
    sys.stdin.reconfigure(errors="surrogateescape")
    with tempfile.TemporaryDirectory() as folder:
        status, image, source = (0, path, None) if is_image(path) else compiled(tta, machine, path, folder)
        if status:
            return status
        child = Child([*tta, "prompt", machine, image, *given])
        try:
            return conversation(Session(child, source), sys.stdin.isatty())
        finally:
            child.process.kill()
            child.process.wait()
