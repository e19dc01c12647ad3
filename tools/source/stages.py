"""What the text of `stages` tells of a program's code: its blocks with their addresses and lines, and the homes of its variables. The
form of the text is that of docs/OUTPUT.md, section Stages."""
import re
from collections import namedtuple

BLOCK = re.compile(r"block \d+ proc (\S+) steps \d+ \d+ lines (\d+) (\d+)")
CODE = re.compile(r"code b(\d+) (?:steps of (\S+) lines (\d+) (\d+)|entry of (\S+)|return to (\S+) line (\d+)) address (\d+) cycles (\d+)")
VARIABLE = re.compile(r" v(\d+) (\S+) (?:no interval|from (?:entry|line (\d+)) to (?:entry|line (\d+)))")

# A block of code: its number and procedure, the lines of the program that it is of (none where it enters a procedure), its first address, how many
# instructions it has, and the variables that are live before it, where that is known.
Block = namedtuple("Block", "number proc first last address cycles live")
# A variable: the place of its word, and the lines from which and to which it counts (0 for the entry of its procedure), or None.
Home = namedtuple("Home", "place first last")


class Stages:
    """The blocks of the code in their order, and the homes of each procedure's variables in the order of their numbers."""

    def __init__(self, text):
        self.blocks, self.homes, live, of = [], {}, {}, None
        for line in text.split("\n"):
            if line and not line.startswith(" "):
                block, code, of = BLOCK.match(line), CODE.match(line), None
                if block:
                    of = block[1], int(block[2]), int(block[3])
                elif line.startswith("variables proc "):
                    of = self.homes.setdefault(line.split()[2], [])
                elif code:
                    self.blocks.append(self.block(code, live))
            elif isinstance(of, tuple) and line.startswith(" live before :"):
                live[of] = [int(name[1:]) for name in line.split()[3:]]
            elif isinstance(of, list) and line:
                found = VARIABLE.match(line)
                of.append(Home(found[2], *(None if "no interval" in line else int(at or 0) for at in (found[3], found[4]))))

    def block(self, code, live):
        proc = code[2] or code[5] or code[6]
        first, last = (int(code[3]), int(code[4])) if code[3] else (int(code[7]),) * 2 if code[7] else (None, None)
        return Block(int(code[1]), proc, first, last, int(code[8]), int(code[9]), live.get((proc, first, last)) if code[3] else None)

    def block_at(self, address):
        """The block in which an address stands, or None."""
        return next((block for block in self.blocks if block.address <= address < block.address + block.cycles), None)

    def blocks_of(self, line):
        """The blocks that are of a line of the program."""
        return [block for block in self.blocks if block.first and block.first <= line <= block.last]


def names_of(proc):
    """The variables of a procedure, by their numbers: parameters first, and then in the order in which they appear."""
    names = list(proc.parameters)
    for step in proc.steps:
        own = [step.dest, *step.operands]
        names += [token.text for token in step.tokens if token.kind == "name" and any(token is it for it in own)]
    return list(dict.fromkeys(names))
