"""Constants of LLVM's text as words: numbers, places of data, and what is computed of them before a run.

A place is a number in what pointers of its class count, and bytes that are added to it; as a number it is counted in bytes."""
import re
import struct

from ir import Refused
from sizes import offset
from ssa import M


def quotient(a, b):
    """A signed quotient, rounded towards zero as C asks; that by 0, which C leaves open, is 0."""
    whole = abs(a) // abs(b) if b else 0
    return whole if (a < 0) == (b < 0) else -whole


class Constants:
    """The part of Layout that works constants out."""

    def float_bits(self, v, ty):
        """The bits of a floating-point constant: LLVM writes both kinds as the bits of a double, or in decimal."""
        if v[0] != "float":
            return 0
        if v[1][:2] == "0x" and not re.fullmatch("0x[0-9A-Fa-f]{1,16}", v[1]) or ty[1] not in ("float", "double"):
            raise Refused(f"floating point of the type {ty[1]}")
        double = struct.pack(">Q", int(v[1], 16)) if v[1][:2] == "0x" else struct.pack(">d", float(v[1]))
        if ty[1] == "double":
            return int.from_bytes(double, "big")
        x = int.from_bytes(double, "big")
        if x >> 52 & 0x7FF == 0x7FF:
            # Not by a conversion, which would make a quiet one of each number that is none.
            return x >> 63 << 31 | 0xFF << 23 | x >> 29 & 0x7FFFFF
        return int.from_bytes(struct.pack(">f", struct.unpack(">d", double)[0]), "big")

    def constant(self, f, v):
        """A constant place or number as a word."""
        return self.number(f, v, 32)

    def number(self, f, v, n):
        """A constant of n bits as a number."""
        if v[0] == "int":
            return v[1] & (1 << n) - 1
        if v[0] in ("zero", "null", "undef"):
            return 0
        if v[0] == "float":
            return self.float_bits(v, ("float", "float" if n == 32 else "double"))
        if v[0] == "expr" and v[1] == "cast" and v[2] in ("trunc", "zext", "sext"):
            k = self.m.real(v[3])[1]
            x = self.number(f, v[4], k)
            if v[2] == "sext" and x >> k - 1:
                x -= 1 << k
            return x & (1 << n) - 1
        if v[0] == "expr" and v[1] == "op":
            ty = self.m.real(v[4][-1][0])
            k = ty[1] if ty[0] == "int" else 32
            words = [self.number(f, x, 1 if v[2] == "select" and p == 0 else k) for p, (_, x) in enumerate(v[4])]
            return self.computed(v[2], v[3], words, k) & (1 << n) - 1
        base, off, c = self.place(f, v)
        return base + (off // c.unit if c else off) & M & (1 << n) - 1

    def computed(self, op, rel, words, n):
        """What an operation makes of constants of n bits."""
        if op == "select":
            return words[1] if words[0] else words[2]
        a, b = words
        sa, sb = (x - (1 << n) if x >> n - 1 else x for x in words)
        if op == "icmp":
            x, y = (sa, sb) if rel[0] == "s" else (a, b)
            return int({"eq": x == y, "ne": x != y, "lt": x < y, "le": x <= y, "gt": x > y, "ge": x >= y}[rel if rel in ("eq", "ne") else rel[1:]])
        made = {"add": lambda: a + b, "sub": lambda: a - b, "mul": lambda: a * b, "and": lambda: a & b, "or": lambda: a | b,
                "xor": lambda: a ^ b, "shl": lambda: a << b % n, "lshr": lambda: a >> b % n, "ashr": lambda: sa >> b % n,
                "udiv": lambda: a // b if b else 0, "urem": lambda: a % b if b else 0,
                "sdiv": lambda: quotient(sa, sb), "srem": lambda: sa - sb * quotient(sa, sb) if b else 0}.get(op)
        if made is None:
            raise Refused(f"the constant expression {op} of LLVM")
        return made()

    def place(self, f, v):
        """A constant place: a word, bytes to add, and its class."""
        v = self.memory.alias(v)
        if v[0] == "global":
            if v[1] in self.m.functions:
                return self.ids.get(v[1], 0), 0, None
            if v[1] not in self.at:
                raise Refused(f"{v[1][1:]} is declared, but no file defines it")
            return self.address(v[1]), 0, self.memory.of_key(("g", v[1]))
        if v[0] in ("null", "zero", "undef"):
            return 0, 0, None
        if v[0] == "int":
            return v[1] & M, 0, None
        if v[0] == "expr":
            if v[1] == "gep":
                const, more = offset(self.m, v[2], v[4])
                if more:
                    raise Refused("a constant place with an index that is no number")
                base, off, c = self.place(f, v[3])
                return base, off + const, c
            if v[1] == "cast":
                if v[2] in ("bitcast", "addrspacecast"):
                    return self.place(f, v[4])
                base, off, c = self.place(f, v[4])
                if v[2] == "ptrtoint":
                    return base * (c.unit if c else 1) + off, 0, None
                if v[2] == "inttoptr":
                    k = self.memory.of(f, v[4])
                    return (base + off) // (k.unit if k else 1), 0, k
            if v[1] == "op" or v[1] == "cast" and v[2] in ("trunc", "zext", "sext"):
                return self.number(f, v, 32), 0, None
        raise Refused("a constant expression of a kind that is not supported")
