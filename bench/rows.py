"""The rows of the benchmark: for each the files and words of its command, and how much work it is."""
from collections.abc import Callable
from dataclasses import dataclass

import inputs

NOTHING = [], 1

# Each of these writes the files of a command for so much work, and gives the command's words and the status that is right.


def build_constants(folder, work):
    folder.write("M", inputs.ONE_BUS.replace("address 8", "address 16"))
    folder.write("P", inputs.constants(work))
    return ["build", "M", "P", "IMAGE"], 0


def build_block(folder, work):
    folder.write("M", inputs.three_buses())
    folder.write("P", inputs.arithmetic(work))
    return ["build", "M", "P", "IMAGE"], 0


def build_backward(folder, work):
    folder.write("M", inputs.three_buses().replace("space frame 64", "space frame 128"))
    folder.write("P", inputs.backward(work))
    return ["build", "M", "P", "IMAGE"], 0


def build_tangled(folder, work):
    """The code has no room, which is seen once all of it is placed."""
    folder.write("M", inputs.buses(3).replace("space frame 64", "space frame 8192"))
    folder.write("P", inputs.tangled(work))
    return ["build", "M", "P", "IMAGE"], 7


def build_on(buses, program):
    """Builds a program of the work's size, whose code has room, for a machine of so many buses."""
    def command(folder, work):
        folder.write("M", inputs.buses(buses))
        folder.write("P", program(work))
        return ["build", "M", "P", "IMAGE"], 0
    return command


def ifconv_triangles(folder, work):
    folder.write("P", inputs.triangles(work))
    return ["ifconv", "P", "OUT"], 0


def exec_steps(folder, work):
    folder.write("M", inputs.ONE_BUS)
    folder.write("P", inputs.STEPS)
    return ["exec", "M", "P", "/dev/null", str(work)], 12


def run_cycles(folder, work):
    folder.write("M", inputs.three_buses())
    folder.write("A", inputs.CYCLES)
    folder.run(["asm", "M", "A", "IMAGE"])
    return ["run", "M", "IMAGE", "/dev/null", str(work)], 12


def net_cycles(folder, work):
    """The same loop on each of eight cores, in rounds, where the words of each would go to the next."""
    words, status = run_cycles(folder, work // 8)
    folder.write("LINKS", "".join(f"link {core} {core + 1}\n" for core in range(7)))
    return ["net", words[-1], "LINKS", *words[1:4] * 8], status


def asm(folder, machine, text):
    folder.write("M", machine)
    folder.write("A", text)
    return ["asm", "M", "A", "IMAGE"]


def asm_instructions(folder, work):
    return asm(folder, inputs.three_buses(), inputs.assembly(work)), 0


def asm_labels(folder, work):
    return asm(folder, inputs.three_buses(), inputs.labels(work)), 0


def asm_wide(folder, work):
    return asm(folder, inputs.largest_machine(), inputs.wide_assembly(work)), 0


def asm_wide_refused(folder, work):
    """The same with a mistake at the text's end: all of it is read, and no image is made."""
    return asm(folder, inputs.largest_machine(), inputs.wide_assembly(work) + ";\n"), 9


def dis_instructions(folder, work):
    folder.run(asm(folder, inputs.three_buses(), inputs.assembly(work)))
    return ["dis", "M", "IMAGE", "OUT"], 0


def dis_wide(folder, work):
    folder.run(asm(folder, inputs.largest_machine(), inputs.wide_assembly(work)))
    return ["dis", "M", "IMAGE", "OUT"], 0


def check_products(folder, work):
    folder.run(asm(folder, inputs.three_buses(), inputs.products(work)))
    return ["check", "M", "IMAGE"], 0


def exec_nothing(folder, machine, program):
    """Both texts are read, and no step is made."""
    folder.write("M", machine)
    folder.write("P", program)
    return ["exec", "M", "P", "/dev/null", "0"], 12


def read_comments(folder, work):
    return exec_nothing(folder, inputs.comments(work), inputs.SMALL_PROGRAM)


def read_machine(folder, work):
    return exec_nothing(folder, inputs.largest_machine(), inputs.SMALL_PROGRAM)


def read_program(folder, work):
    return exec_nothing(folder, inputs.ONE_BUS, inputs.procedures(work))


@dataclass
class Row:
    """A row of the table: what is measured, over how much work."""
    name: str
    work: int
    unit: str
    command: Callable
    # A command whose time is taken off, where it is not the one that does nothing.
    less: Callable = lambda folder, work: NOTHING
    # Whether a tenth of the work can be measured.
    grows: bool = True


ROWS = [
    Row("exec: a loop of arithmetic", 40_000_000, "steps", exec_steps),
    Row("run: a loop on three buses", 15_000_000, "cycles", run_cycles),
    Row("net: the same on eight cores", 8_000_000, "cycles", net_cycles),
    Row("asm: three buses", 65_536, "instructions", asm_instructions),
    Row("asm: labels alone", 2**24, "bytes", asm_labels),
    Row("dis: three buses", 65_536, "instructions", dis_instructions),
    Row("dis: 16 buses, all in use", 16_384, "instructions", dis_wide),
    Row("check: three buses", 65_536, "instructions", check_products),
    Row("build: words that are output", 65_536, "lines", build_constants),
    Row("build: a block of arithmetic", 12_000, "lines", build_block),
    Row("build: jumps backward", 12_000, "lines", build_backward),
    Row("build: tangled loops", 56_000, "lines", build_tangled, grows=False),
    Row("build: a chain on one bus", 32_000, "lines", build_on(1, inputs.chain)),
    Row("build: a chain on 16 buses", 60_000, "lines", build_on(16, inputs.chain)),
    Row("build: a fan on one bus", 21_000, "lines", build_on(1, inputs.fan)),
    Row("build: a fan on 16 buses", 60_000, "lines", build_on(16, inputs.fan)),
    Row("ifconv: branches over copies", 65_536, "lines", ifconv_triangles),
    Row("write an image of 16 buses", 16_384, "instructions", asm_wide, less=asm_wide_refused),
    Row("read a machine: comments", 2**24, "bytes", read_comments),
    Row("read a machine near all limits", inputs.largest_machine().count("\n"), "lines", read_machine, grows=False),
    Row("read a program", 65_536, "lines", read_program),
]
