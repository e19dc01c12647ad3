"""What a machine's text says of room and operations, as far as C needs it; the text itself is checked by the commands that take it."""
from ir import Refused

# The operations of the standard units.
STANDARD = {"add", "sub", "mul", "mulhu", "neg", "and", "or", "xor", "not", "shl", "shr", "shru", "eq", "ne", "lt", "gt", "ltu", "gtu", "divu",
            "remu"}
# Operations beyond them, those of `tta --with bits`, that steps are made of where the machine has them.
KNOWN = {"rotl", "clz", "popcount", "bitrev", "sext8", "sext16", "divs", "rems", "min", "max"}


class Machine:
    """A machine, or none: then all standard operations are there, and room for all."""

    def __init__(self, path=None):
        self.path, self.operations, self.frame, self.data, self.address, self.shorts, self.homes = path, set(), None, None, None, [], 0
        if path:
            self.frame = self.data = 0
            with open(path, encoding="latin1") as f:
                for line in f:
                    self.line(line.split("#")[0].split())
            for need in ("ldw", "stw"):
                if need not in self.operations:
                    raise Refused(f"the machine lacks {need}, which data need", path)
        self.extra = self.operations & KNOWN
        self.lacks = STANDARD - self.operations if path else frozenset()

    def line(self, w):
        try:
            if w[:1] == ["op"]:
                self.operations.add(w[2])
            elif w[:1] == ["space"]:
                setattr(self, {"frame": "frame", "data": "data"}[w[1]], int(w[2], 0))
            elif w[:1] == ["bus"]:
                self.shorts.append((int(w[3], 0), w[4] == "signed"))
            elif w[:1] == ["file"] and int(w[3], 0) == 32:
                self.homes += int(w[5], 0)
            elif w[:1] == ["control"]:
                self.address = int(w[4], 0)
        except (IndexError, KeyError, ValueError):
            raise Refused(f"the line `{' '.join(w)}` of the machine's text is not of its form", self.path)

    def has(self, operation):
        return self.path is None or operation in self.operations

    def holds_code(self, steps):
        """Whether the code of so many steps has room among the machine's addresses, by what programs need on machines of as many buses."""
        words = steps * max(0.9, 6.4 / (1 + len(self.shorts)))
        return self.address is None or words <= 1 << self.address

    def holds(self, word):
        """Whether some bus has a short field for the word."""
        s = word - (1 << 32) if word >> 31 else word
        return any(-(1 << n - 1) <= s < 1 << n - 1 if is_signed else word < 1 << n for n, is_signed in self.shorts)
