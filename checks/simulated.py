"""A machine and an image as a circuit that is simulated: what `run` prints of the pair, what the text of `rtl` prints by iverilog with
examples/hardware/bench.v and by the evaluator (readers/verilog.py, circuit.py, bench.py), and pairs that are made by chance."""
import hashlib
import os
import random
import re
import shutil
import subprocess

import by_chance
from built import PROGRAM, VIEW
from by_chance import write
from readers.bench import ran as evaluated
from readers.circuit import Circuit
from readers.machine import machine
from readers.own_operations import ARITY, MADE
from readers.tokens import answer
from readers.verilog import Refused, modules
from shapes import machine_text
EXAMPLES = os.path.join(os.path.dirname(os.path.dirname(os.path.abspath(__file__))), "examples")
BENCH, OPERATIONS = (os.path.join(EXAMPLES, "hardware", name) for name in ("bench.v", "operations"))
COMPILED_BOUND = 1500
BOX = """module box_NAME #(parameter STAGES = 1) (input clk, input [0:0] enable, input [31:0] a, input [31:0] b, output [31:0] word);
`include "NAME.v"
reg [63:0] kept [1:STAGES];
integer k;
always @(posedge clk) if (enable) begin
  kept[1] <= {a, b};
  for (k = 2; k <= STAGES; k = k + 1) kept[k] <= kept[k - 1];
end
assign word = own_NAME(kept[STAGES][63:32], kept[STAGES][31:0]);
endmodule
"""
IVERILOG = shutil.which("iverilog")


def read(path):
    with open(path, "rb") as f:
        return f.read()


def call(program, *words):
    """The status, the output and what is said of a command."""
    r = subprocess.run([program, *words], capture_output=True, timeout=120, stdin=subprocess.DEVNULL)
    return r.returncode, r.stdout, r.stderr.decode()


def words_in(path):
    return [int(line, 16) for line in read(path).split()]


def laid(image, words, size):
    """The words of a data space with the data of an image laid over them."""
    memory = words + [0] * (size - len(words))
    if int.from_bytes(image[4:8], "big") == 2:
        for k in range(int.from_bytes(image[48:52], "big")):
            at = 52 + 8 * k
            memory[int.from_bytes(image[at:at + 4], "big")] = int.from_bytes(image[at + 4:at + 8], "big")
    return memory


def told_above(text, filed):
    """The lines that stand above the text of a core of the machine M and the image IMG, by these files and by its first line; above the file
    of its code where there is no such line."""
    machine, image = read("M"), read("IMG")
    width, words = (int.from_bytes(image[at:at + 4], "big") for at in (8, 12))
    lines = [f"// machine: sha256 {hashlib.sha256(machine).hexdigest()}"]
    if filed and text:
        highest = int(re.search(r"^output .(\d+):0. pc;", text, re.M)[1])
        lines.append(f"// code: {2 ** (highest + 1)} words of {width} bits in code.hex")
        if re.search(r"^output \[6:0\] fault;$", text, re.M):
            lines.append(f"// code: {words} instructions of {width} bits")
    else:
        lines += [f"// image: sha256 {hashlib.sha256(image).hexdigest()}", f"// code: {words} instructions of {width} bits"]
    named = re.search(r"^module tta_core \((.*)\);$", text, re.M)
    return [*lines, *([f"// ports: {named[1]}"] if named else [])]


def first_difference(found, wanted):
    wrong = next((k for k, (one, other) in enumerate(zip(found, wanted)) if one != other), min(len(found), len(wanted)))
    return f"line {wrong}: {found[wrong:wrong + 2]} and not {wanted[wrong:wrong + 2]}"


def boxes(text):
    """The files of the modules of operations of one's own that a text has instances of: those of the examples, and one for each other, whose
    module keeps the words of an operation and makes it at the end."""
    wanted, files = set(re.findall(r"^box_(\w+) #", text, re.M)), []
    if wanted & {"divs", "rems"}:
        files.append(os.path.join(EXAMPLES, "hardware", "modules", "signed_division.v"))
    for name in sorted(wanted - {"divs", "rems"}):
        write(f"box_{name}.v", BOX.replace("NAME", name).encode())
        files.append(f"box_{name}.v")
    return files


def simulated(data, bound, stream, pauses):
    """What the bench prints of the core, line by line."""
    text = read("core.v").decode()
    size = len(data)
    ports = [f"-D{name}" for name, port in (("HAS_OUT", "out_valid"), ("HAS_IN", "in_valid"), ("HAS_FAULT", "fault")) if re.search(rf"^module .*\b{port}\b", text, re.M)]
    files = [BENCH, "core.v", *boxes(text)]
    made = subprocess.run(["iverilog", "-g2001", "-Wall", "-Wno-timescale", f"-I{OPERATIONS}", f"-DDATA={size}", *ports, "-s", "bench", "-o", "core", *files],
                          capture_output=True, text=True, timeout=120)
    if made.returncode or made.stderr:
        return [f"iverilog: {made.stdout}{made.stderr}"[:600]]
    write("DATA", "".join(f"{word:08x}\n" for word in data).encode())
    words = ["vvp", "-n", "core", f"+bound={bound}", "+data=DATA", *([f"+stream={stream}"] if stream else []), *([f"+pauses={pauses}"] if pauses else [])]
    return subprocess.run(words, capture_output=True, text=True, timeout=600).stdout.splitlines()


def space_of(text):
    found = re.search(rb"^space data (\S+)", text, re.M)
    return int(found[1], 0) if found else 0


class Pair:
    """A machine and an image, which stand in the folder as M and IMG, with the words that they are given, and the two programs for them.
    The image may be compiled from the program P."""
    marks, programs = (), (PROGRAM, VIEW)

    def __init__(self, size, given, stream, bound, is_compiled=False):
        self.size, self.given, self.stream, self.bound, self.is_compiled = size, given, stream, bound, is_compiled

    def by(self, programs):
        """The pair, for two other programs."""
        self.programs = programs
        return self

    def ran(self, given, bound):
        """What `run` prints within the bound, and the bound; where the run faults, within as many cycles as come before the fault."""
        words = ["run", "M", "IMG", given, str(bound), *([self.stream] if self.stream else [])]
        status, printed, said = call(self.programs[0], *words)
        fault = re.fullmatch(r"tta: machine fault: code \d+, cycle (\d+)\n", said)
        if fault:
            words[4] = fault[1]
            status, printed, said = call(self.programs[0], *words)
        if status not in (0, 12, 19):
            raise AssertionError(f"run: {status} {said}")
        return printed.decode().splitlines(), int(words[4])

    def printed(self, *mark):
        """The text that `rtl` prints."""
        status, text, said = call(self.programs[1], "rtl", "M", "IMG", *mark)
        if status:
            raise AssertionError(f"rtl: {status} {said}")
        if self.is_compiled and call(self.programs[1], "rtl", "M", "P", *mark) != (status, text, said):
            raise AssertionError("rtl: the program gives another text than its image")
        return text

    def difference(self, pauses, seen, filed):
        """What is wrong, or None. Where it is filed, the words of the code stand in a file, too."""
        wanted, self.bound = self.ran(self.given, self.bound)
        wrong = self.unlike(wanted, pauses, seen)
        if not wrong and filed:
            wrong = self.unlike(wanted, pauses, seen, self.printed("rom=words"))
            seen["filed"] += 1
        if not wrong:
            seen["cycles"] += int(wanted[-1].split()[1])
            seen[next(line.split()[0] for line in wanted if line.split()[0] in ("halted", "running", "waiting", "fault"))] += 1
        return wrong

    def unlike(self, wanted, pauses, seen, words=None):
        """What differs from the lines of `run`, or None. Where words of the code are given, the text takes them from a file."""
        text = self.printed(*self.marks, *(["rom=file"] if words else []))
        write("core.v", text)
        write("code.hex", words or b"")
        for it, module in ((text, text.decode()), *([(words, "")] if words else [])):
            heading = [line for line in it.decode().splitlines()[:8] if line.startswith("//")]
            if heading != told_above(module, words is not None):
                return f"above the text: {first_difference(heading, told_above(module, words is not None))}"
        data = laid(read("IMG"), words_in(self.given), self.size)
        stream = words_in(self.stream) if self.stream else []
        try:
            told = modules(text.decode())
            circuit = Circuit(told["tta_core"], random.Random(pauses), MADE, {"code.hex": (words or b"").decode()}, told)
            found, clocks = evaluated(circuit, data, self.bound, stream, pauses)
        except Refused as refusal:
            return f"the text: {refusal}"
        if found != wanted:
            return f"evaluator, {first_difference(found, wanted)}"
        seen["evaluated"] += clocks
        wrong = self.unlike_again(circuit, pauses, seen)
        if wrong:
            return wrong
        if IVERILOG:
            found = simulated(data, self.bound, self.stream, pauses)
            if found[:-1] != wanted:
                return f"iverilog, {first_difference(found, wanted)}"
            seen["clocks"] += int(found[-1].split()[1])
        return None

    def unlike_again(self, circuit, pauses, seen):
        """What differs from `run` after a reset of a core that has run, or None. `run` begins with a frame of zeros, and lays the data of an
        image over the words that it is given: so this looks only where both are as the core has them."""
        data = circuit.memories["data"][:self.size]
        if int.from_bytes(read("IMG")[4:8], "big") == 2 or any(circuit.memories.get("frame", [])):
            return None
        write("AGAIN", "".join(f"{word:08x}\n" for word in data).encode())
        wanted, bound = self.ran("AGAIN", self.bound)
        found, clocks = evaluated(circuit, data, bound, words_in(self.stream) if self.stream else [], pauses)
        seen["again"] += 1
        seen["evaluated"] += clocks
        return f"after a reset, {first_difference(found, wanted)}" if found != wanted else None


class FaultPair(Pair):
    """A pair whose core tells faults. Without one it runs up to the bound; at a fault it stands where `run` stands before that cycle."""
    marks = ("faults",)

    def ran(self, given, bound):
        words = ["run", "M", "IMG", given, str(bound), *([self.stream] if self.stream else [])]
        fault = re.fullmatch(r"tta: machine fault: code (\d+), cycle (\d+)\n", call(self.programs[0], *words)[2])
        if not fault:
            return super().ran(given, bound)
        lines, _ = super().ran(given, int(fault[2]))
        return [f"fault {fault[1]}" if line == "running" else line for line in lines], bound


def own_program(by):
    """A program that puts out what each operation of examples/bits.machine makes of some words."""
    lines, edges = ["proc main"], [0, 1, 2, 31, 32, 127, 128, 32767, 32768, 2**31 - 1, 2**31, 2**32 - 2, 2**32 - 1]
    for k in range(24):
        name = sorted(MADE)[k % len(MADE)]
        words = [by.choice(edges) if by.randrange(3) else by.getrandbits(by.randrange(1, 33)) for _ in range(2)]
        lines += [f"x = {name} {' '.join(map(str, words[:ARITY.get(name, 1)]))}", "out x"]
    return "\n".join([*lines, "halt", "end", ""])


def compiled_pair(by, kind=Pair):
    """A pair, of some kind, of a machine and a compiled program that are made by chance, or None."""
    text = machine_text(by).encode()
    size = space_of(text)
    write("M", text)
    write("P", by_chance.program_text(by, size).encode())
    if call(PROGRAM, "build", "M", "P", "IMG")[0]:
        return None
    by_chance.given_words(by, size)
    return kind(size, "IN", "STREAM", COMPILED_BOUND, True)


def code_pair(by, kind=Pair):
    """A pair, of some kind, of a machine and code that are made by chance, or None."""
    text = by_chance.machine_text(by).encode()
    write("M", text)
    m = answer(machine, text)
    if isinstance(m, tuple):
        return None
    write("A", by_chance.code(by, m).encode())
    if call(PROGRAM, "asm", "M", "A", "IMG")[0]:
        return None
    by_chance.given_words(by, m.spaces["data"])
    return kind(m.spaces["data"], "IN", "STREAM", by.choice(by_chance.BOUNDS), False)
