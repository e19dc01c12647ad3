"""An estimate of the area of a core from its machine's text: LUTs and flip-flops together. It counts what the circuit of `rtl` is made of, and
takes each at what yosys makes of it on LUTs of six inputs; docs/DESIGN.md compares the two."""
from texts import machine as reader

WORD = 32
# What a 2:1 choice of a bit costs in LUTs, where a bus reads and where a place takes a word from buses; a code of a source or destination; a bit
# of a code, which is 64 bits a LUT in a memory; and what each core has: the control unit, and the ports of memories.
READ, WRITE, CODE, BIT, REST = 0.42, 0.42, 4, 1 / 64, 100
# LUTs of the operations of the standard units. Any other counts as a sum.
OPERATIONS = {
    "add": 60, "sub": 60, "neg": 40, "mul": 800, "mulhu": 1200, "divu": 3000, "remu": 3000, "and": 16, "or": 16, "xor": 16, "not": 16,
    "shl": 320, "shr": 330, "shru": 320, "eq": 15, "ne": 15, "lt": 40, "gt": 40, "ltu": 40, "gtu": 40,
    "ldw": 20, "stw": 20, "ldf": 20, "stf": 20, "out": 10, "in": 10,
}
OTHER = 60


def choices(machine):
    """The 2:1 choices of bits: those of buses that read, and those of places that take a word from buses."""
    reads = sum(WORD * (reader.sources_on(machine, bus) + 1) for bus in machine.buses)
    on = lambda socket: len(machine.sockets[socket].buses)
    writes = sum(file.width * file.size * on(file.into) for file in machine.files.values())
    writes += sum(WORD * on(port) for unit in machine.units.values() for port in (unit.o, unit.t) if port)
    return reads, writes + WORD * on(machine.control.t)


def codes(machine):
    """How many codes of sources and destinations there are to be told apart."""
    return sum(reader.sources_on(machine, bus) + reader.dests_on(machine, bus) for bus in machine.buses)


def instruction(machine):
    """The bits of an instruction."""
    fields = reader.bits(1 + len(machine.templates))
    return fields + sum(reader.slot_bits(machine, bus) for bus in machine.buses)


def flops(machine):
    """The flip-flops: registers, ports with their words on the way, and those of the control unit."""
    found = sum(file.width * file.size for file in machine.files.values()) + sum(WORD * imm.size for imm in machine.imms.values())
    for unit in machine.units.values():
        longest = max((latency for _, latency in unit.ops.values() if latency), default=1)
        found += WORD * bool(unit.o) + (WORD + (WORD + 1) * (longest - 1)) * bool(unit.r)
    return found + 3 * WORD + machine.control.address + instruction(machine)


def operations(machine):
    """The LUTs of all operations of all units."""
    return sum(OPERATIONS.get(operation, OTHER) for unit in machine.units.values() for operation in unit.ops)


def luts(machine, code_bits):
    reads, writes = choices(machine)
    return READ * reads + WRITE * writes + CODE * codes(machine) + BIT * code_bits + operations(machine) + REST


def estimate(machine, code_bits):
    """The area of a core whose code has so many bits."""
    return round(luts(machine, code_bits) + flops(machine))
