"""Commands over small files, for the checks that let the host fail: at least one of each command of the two programs, with the files that they
take, and how one is started in their folder."""
import os
import subprocess
import sys

# So that no compiled copy is left beside the file that is imported.
sys.dont_write_bytecode = True
HERE = os.path.dirname(os.path.abspath(__file__))
sys.path.insert(0, os.path.join(HERE, ".."))
from built import PROGRAM, TOP, VIEW

EXAMPLES = {"ONE": "one_bus.machine", "THREE": "three_buses.machine", "SEVEN": "seven.program", "DOT": "dot_product.program",
            "WORDS": "dot_product.input", "SORT": "sort.program", "SORTED": "sort.input", "GREATEST": "greatest.program", "OVERLAP": "overlap.assembly",
            "STEPS": "overlap.script"}
TEXTS = {"NONE": b"", "LINES": b"go 9\nregs\nquit\n"}
COMMANDS = ["build ONE SEVEN OUT", "build THREE DOT OUT", "build THREE GREATEST OUT convert", "ifconv GREATEST OUT", "asm THREE OVERLAP OUT", "dis THREE IMG OUT",
            "exec THREE DOT WORDS 1000", "exec THREE SORT SORTED 1000", "run THREE IMG NONE 100", "run THREE IMG NONE 100 NONE", "check THREE IMG",
            "debug THREE IMG NONE STEPS", "sample 0 3 THREE", "net 20 NONE THREE IMG NONE THREE IMG NONE", "picture THREE", "picture THREE IMG", "picture THREE DOT", "info THREE", "info THREE IMG",
            "profile THREE IMG NONE 100", "profile THREE DOT WORDS 100", "play THREE IMG NONE 20", "prompt THREE IMG NONE", "stages THREE DOT", "stages THREE DOT --html", "play THREE DOT WORDS 20", "play THREE DOT WORDS 20 from 5", "rtl THREE IMG",
            "rtl THREE DOT", "cost THREE", "cost THREE IMG", "cost THREE DOT", "rtl net 4 NONE THREE IMG NONE THREE IMG NONE"]
# The words that are commands of the second program.
VIEWS = {"picture", "info", "profile", "play", "prompt", "stages", "rtl", "cost"}


def put(path, name, data):
    """Makes a file hold these bytes, or takes it away where there are none to hold."""
    place = os.path.join(path, name)
    if data is not None:
        with open(place, "wb") as f:
            f.write(data)
    elif os.path.exists(place):
        os.remove(place)


def start(path, words, before=(), **more):
    """The status of a command, and what it prints on both outputs. Other words may stand before the program, and more variables are set."""
    program = VIEW if words[0] in VIEWS else PROGRAM
    with open(os.path.join(path, "LINES") if words[0] == "prompt" else os.devnull, "rb") as stdin:
        r = subprocess.run([*before, program, *words], cwd=path, capture_output=True, timeout=120, stdin=stdin, env={**os.environ, **more})
    return r.returncode, r.stdout, r.stderr


def prepare(path, **more):
    """Makes the folder with all files that the commands read, and more."""
    os.mkdir(path)
    for name, example in EXAMPLES.items():
        with open(os.path.join(TOP, "examples", example), "rb") as f:
            put(path, name, f.read())
    for name, data in {**TEXTS, **more}.items():
        put(path, name, data)
    start(path, "asm THREE OVERLAP IMG".split())


def library(place, source):
    """Compiles a library of this folder that stands in front of the C library, and says where it is."""
    made = os.path.join(place, source.replace(".c", ".so"))
    subprocess.run(["gcc", "-shared", "-fPIC", "-O1", "-o", made, os.path.join(HERE, source), "-ldl"], check=True)
    return made
