"""What a netlist of yosys is made of, and the longest path of it. A path begins and ends at a flip-flop, a block RAM or a port. It is measured
in LUTs, of which a step of a carry chain is an eighth: that is what it takes on an FPGA."""
import json
from collections import namedtuple
from graphlib import TopologicalSorter

Counts = namedtuple("Counts", "luts flops blocks path")
LUT, CARRY = 8, 1


def kind_of(name):
    """What a cell counts as: lut, carry, flop or block, or None."""
    if name in ("$lut", "SB_LUT4"):
        return "lut"
    if name == "SB_CARRY":
        return "carry"
    if name.startswith(("SB_DFF", "$_DFF", "$_SDFF", "$_ALDFF")):
        return "flop"
    return "block" if name.startswith(("SB_RAM", "$__BLOCK_")) else None


def ends_of(cell):
    """The bits that a cell reads, and those that it makes. Bits that are constant are none."""
    ends = {"input": [], "output": []}
    for port, bits in cell["connections"].items():
        ends[cell["port_directions"][port]] += [bit for bit in bits if isinstance(bit, int)]
    return ends["input"], ends["output"]


def longest(cells):
    """The longest path over the cells that no clock stands in, in eighths of a LUT."""
    maker, reads, takes = {}, {}, {}
    for name, cell in cells.items():
        kind = kind_of(cell["type"])
        if kind in ("lut", "carry"):
            inside, made = ends_of(cell)
            reads[name], takes[name] = inside, LUT if kind == "lut" else CARRY
            maker.update((bit, name) for bit in made)
    before = {name: {maker[bit] for bit in bits if bit in maker} for name, bits in reads.items()}
    until = {}
    for name in TopologicalSorter(before).static_order():
        until[name] = takes[name] + max((until[other] for other in before[name]), default=0)
    return max(until.values(), default=0)


def counts(path, top):
    """The counts of a netlist that yosys has written."""
    with open(path, encoding="utf-8") as f:
        cells = json.load(f)["modules"][top]["cells"]
    kinds = [kind_of(cell["type"]) for cell in cells.values()]
    return Counts(kinds.count("lut"), kinds.count("flop"), kinds.count("block"), round(longest(cells) / LUT, 1))
