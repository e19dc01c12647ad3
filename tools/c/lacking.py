"""Standard operations that a machine lacks, by others that it has.

Each is the operation itself for all words. It is asked for only where an operation is written, so what folds away asks for nothing. An
operation may come down to another that is lacking too; each way down is to operations that do not lead back, and what has no way is
refused. Products, quotients and shifts by words come down to functions of library.c in the end."""
from bounds import M
from ir import Refused

SIGN = 1 << 31
# Functions of library.c, by the operation that they are.
LIBRARY = {"mul": "mul32", "divu": "div32", "remu": "rem32", "shl": "shl32", "shru": "shru32"}


class Lacking:
    """The part of Builder that does without. `lacks` has the operations that the machine lacks, `library` calls a function."""

    lacks, library = frozenset(), None

    def has(self, *ops):
        return not any(op in self.lacks for op in ops)

    def instead(self, op, a, b):
        """A word that is that of an operation which the machine lacks."""
        way = getattr(self, "without_" + op, None)
        if way is None:
            raise Refused(f"the machine lacks {op}")
        return way(a, b)

    def without_neg(self, a, _):
        return self.op("sub", 0, a) if self.has("sub") else self.op("add", self.op("xor", a, M), 1)

    def without_not(self, a, _):
        return self.op("xor", a, M)

    def without_sub(self, a, b):
        if self.has("neg"):
            return self.op("add", a, self.one("neg", b))
        # a - b is the inverse of (the inverse of a) + b.
        return self.op("xor", self.op("add", self.op("xor", a, M), b), M)

    def without_add(self, a, b):
        if not self.has("sub"):
            raise Refused("the machine lacks add and sub")
        return self.written("sub", a, -b & M if isinstance(b, int) else self.written("sub", 0, b))

    def without_xor(self, a, b):
        if not self.has("or", "and", "sub"):
            raise Refused("the machine lacks xor, and or, and or sub")
        return self.written("sub", self.op("or", a, b), self.op("and", a, b))

    def without_and(self, a, b):
        if not self.has("or", "xor"):
            raise Refused("the machine lacks and, and or or xor")
        return self.op("xor", self.op("xor", a, b), self.op("or", a, b))

    def without_or(self, a, b):
        if not self.has("and", "xor"):
            raise Refused("the machine lacks or, and and or xor")
        return self.op("xor", self.op("xor", a, b), self.op("and", a, b))

    # Comparisons.

    def without_ne(self, a, b):
        if not self.has("eq"):
            return self.op("ltu", 0, self.op("xor", a, b))
        same = self.op("eq", a, b)
        if isinstance(same, int):
            return same ^ 1
        # Written as it stands: what is simpler than this is `ne`.
        return self.written("xor", same, 1) if self.has("xor") else self.op("sub", 1, same)

    def without_eq(self, a, b):
        return self.op("ltu", self.op("xor", a, b), 1)

    def without_gt(self, a, b):
        return self.op("lt", b, a)

    def without_gtu(self, a, b):
        return self.op("ltu", b, a)

    def without_lt(self, a, b):
        if not self.has("ltu"):
            raise Refused("the machine lacks lt and ltu")
        return self.written("ltu", self.op("xor", a, SIGN), self.op("xor", b, SIGN))

    def without_ltu(self, a, b):
        if not self.has("lt"):
            raise Refused("the machine lacks lt and ltu")
        return self.written("lt", self.op("xor", a, SIGN), self.op("xor", b, SIGN))

    def relation_here(self, rel, a, b):
        """A relation of a branch or a choice as one of those that the machine can decide."""
        if rel in ("eq", "ne") and not self.has("eq"):
            rel, a, b = ("ltu" if rel == "eq" else "geu"), self.op("xor", a, b), 1
        for one, other in (("lt", "ltu"), ("ltu", "lt")):
            if rel in (one, {"lt": "ge", "ltu": "geu"}[one]) and not self.has(one):
                if not self.has(other):
                    raise Refused("the machine lacks lt and ltu")
                rel = {"lt": "ltu", "ge": "geu", "ltu": "lt", "geu": "ge"}[rel]
                return rel, self.op("xor", a, SIGN), self.op("xor", b, SIGN)
        return rel, a, b

    # Shifts, products, quotients.

    def without_shl(self, a, b):
        if isinstance(b, int) and self.has("mul"):
            return self.written("mul", a, 1 << (b & 31))
        if isinstance(b, int):
            for _ in range(b & 31):
                a = self.op("add", a, a)
            return a
        return self.library(LIBRARY["shl"], [a, b])

    def without_shr(self, a, b):
        sign = self.one("neg", self.op("shru", a, 31))
        return self.op("xor", self.op("shru", self.op("xor", a, sign), b), sign)

    def without_shru(self, a, b):
        if b == 31:
            return self.truth("lt", a, 0)
        if self.has("shr"):
            above = self.op("shl", self.written("shr", SIGN, b) if not isinstance(b, int) else M << 31 - (b & 31) & M, 1)
            return self.op("and", self.written("shr", a, b), self.one("not", above))
        return self.library(LIBRARY["shru"], [a, b])

    def without_mul(self, a, b):
        if isinstance(b, int) and bin(b).count("1") <= 4:
            found = 0
            for k in range(32):
                if b >> k & 1:
                    found = self.op("add", found, self.op("shl", a, k)) if found != 0 else self.op("shl", a, k)
            return found
        return self.library(LIBRARY["mul"], [a, b])

    def without_mulhu(self, a, b):
        """By halves of the words, as by hand."""
        low = lambda w: self.op("and", w, 0xFFFF)
        high = lambda w: self.op("shru", w, 16)
        x, y = self.op("mul", low(a), low(b)), self.op("mul", high(a), low(b))
        z, top = self.op("mul", low(a), high(b)), self.op("mul", high(a), high(b))
        middle = self.op("add", self.op("add", high(x), low(y)), low(z))
        return self.op("add", self.op("add", top, high(y)), self.op("add", high(z), high(middle)))

    def without_divu(self, a, b):
        return self.library(LIBRARY["divu"], [a, b])

    def without_remu(self, a, b):
        if self.has("divu", "mul"):
            return self.op("sub", a, self.op("mul", self.op("divu", a, b), b))
        return self.library(LIBRARY["remu"], [a, b])
