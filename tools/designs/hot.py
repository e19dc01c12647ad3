"""Where the cycles of a run go, as `profile` tells it of an image and of its program: instructions, buses, units and blocks."""
import re
from collections import namedtuple

AT = re.compile(r"^at (\d+) times (\d+) share \d+(?: passed \S+ \d+)*(?: outside \d+)? : (.*)$", re.M)
BUS = re.compile(r"^bus (\S+) moves (\d+) ", re.M)
UNIT = re.compile(r"^unit (\S+) starts (\d+) ", re.M)
BLOCK = re.compile(r"^block \S+ steps of (\S+) lines (\d+) (\d+) address \d+ cycles (\d+) spent (\d+) ", re.M)
LONG = re.compile(r"\[(\w+)=(\d+)\]")
STARTED = re.compile(r"-> (\w+)\.t\.(\w+)")
JUMPS = ("jump", "call")
WORDS = 2**32

# A block of steps: its procedure, the lines of its first and last step, how often it was carried out, and the cycles that were spent there.
Block = namedtuple("Block", "proc first last times spent")


class Hot:
    """What a run has carried out, and how often."""

    def __init__(self, of_image, of_program):
        self.instructions = [(int(times), text) for _, times, text in AT.findall(of_image)]
        self.buses = {name: int(count) for name, count in BUS.findall(of_image)}
        self.units = {name: int(count) for name, count in UNIT.findall(of_image)}
        self.blocks = [Block(proc, int(first), int(last), int(spent) // max(1, int(cycles)), int(spent))
                       for proc, first, last, cycles, spent in BLOCK.findall(of_program)]

    def started(self):
        """How often each operation of a unit was started, jumps among them."""
        found = {}
        for times, text in self.instructions:
            for pair in STARTED.findall(text):
                found[pair] = found.get(pair, 0) + times
        return found

    def longs(self):
        """How often each long immediate was carried, as a word, the most often first."""
        found = {}
        for times, text in self.instructions:
            for _, value in LONG.findall(text):
                found[int(value)] = found.get(int(value), 0) + times
        return sorted(found.items(), key=lambda one: -one[1])


def width_of(word, sign):
    """How many bits a short field needs for a word."""
    if sign == "unsigned":
        return max(1, word.bit_length())
    number = word - WORDS if word >= WORDS // 2 else word
    return (number if number >= 0 else ~number).bit_length() + 1
