"""What the texts of circuits are made of, as `verilog.py` reads them."""
from collections import namedtuple

# Expressions. `low` and `width` are numbers; the other fields are names and expressions.
Constant = namedtuple("Constant", "width word")
Name = namedtuple("Name", "name")
Part = namedtuple("Part", "name low width")
Read = namedtuple("Read", "memory address")
Call = namedtuple("Call", "function given")
Join = namedtuple("Join", "parts")
Repeat = namedtuple("Repeat", "times part")
Not = namedtuple("Not", "word")
Invert = namedtuple("Invert", "word")
Binary = namedtuple("Binary", "sign left right")
Select = namedtuple("Select", "test on off")

# Functions: a table of an address; an expression over inputs and variables, which are widths with names and words; and one of another file.
Table = namedtuple("Table", "width inputs words default")
Function = namedtuple("Function", "width inputs variables word")
Outside = namedtuple("Outside", "width inputs")
# A memory with the first words that are not 0, or with the name of the file that has all of them; what is taken at a clock (`address` is None where it is a register), and an instance of
# another module, with the name that is joined to each of its ports, and the number of its stages where it is told one.
Memory = namedtuple("Memory", "width size first file")
Taken = namedtuple("Taken", "enable name address word")
Instance = namedtuple("Instance", "module name joined stages")


class Refused(Exception):
    """What is wrong with a text, with the line."""


class Module:
    """What a module declares, each in its order."""

    def __init__(self, name):
        self.name, self.ports, self.wires, self.registers, self.memories = name, {}, {}, {}, {}
        self.functions, self.taken, self.shown, self.instances = {}, [], {}, []
