"""Operations that need no step, or another one, by what is known of their words: one of them is a number, or they are the same.

Each gives the word of the operation itself for all words, and nothing where it has no better way."""
from bounds import M


def is_power(b):
    """Whether the number is a power of two."""
    return b and b & (b - 1) == 0


class Simple:
    """The part of Builder that sees how an operation is done without itself."""

    def simple(self, op, a, b):
        """What an operation is without a step, or by another step."""
        if isinstance(b, int):
            way = getattr(self, op + "_number", None)
            found = way(a, b) if way else None
            if found is not None:
                return found
        if isinstance(a, int):
            if op in ("shl", "shr", "shru", "divu", "remu") and a == 0:
                return 0
            if op == "sub" and a == 0 and self.has("neg"):
                return self.one("neg", b)
        return self.of_same(op, a) if a == b else None

    def of_same(self, op, a):
        """The operation of a word and itself."""
        if op in ("and", "or"):
            return a
        return {"sub": 0, "xor": 0, "eq": 1, "ne": 0, "lt": 0, "gt": 0, "ltu": 0, "gtu": 0}.get(op)

    def how(self, a):
        """The operation that made a, and its two words; or nothing of all."""
        return isinstance(a, str) and self.made.get(a) or (None, None, None)

    def inner(self, op, a):
        """The word and the number that the operation made a of, or nothing of both."""
        made, x, k = self.how(a)
        return (x, k) if made == op and isinstance(k, int) else (None, None)

    # The operation of a word a and a number b.

    def sub_number(self, a, b):
        return self.op("add", a, -b & M)

    def add_number(self, a, b):
        if b == 0:
            return a
        x, k = self.inner("add", a)
        return None if k is None else self.op("add", x, k + b & M)

    def mul_number(self, a, b):
        if b == 0:
            return 0
        return self.op("shl", a, b.bit_length() - 1) if is_power(b) and self.has("shl") else None

    def and_number(self, a, b):
        if b == 0:
            return 0
        lo, hi = self.bounds(a)
        if lo >= 0 and b & (b + 1) == 0 and hi <= b:
            return a
        x, k = self.inner("and", a)
        return None if k is None else self.op("and", x, k & b)

    def or_number(self, a, b):
        return {0: a, M: M}.get(b)

    def xor_number(self, a, b):
        if b == 0:
            return a
        x, k = self.inner("xor", a)
        if k is not None:
            return self.op("xor", x, k ^ b)
        made, x, y = self.how(a)
        return self.op("ne" if made == "eq" else "eq", x, y) if b == 1 and made in ("eq", "ne") else None

    def shl_number(self, a, b):
        return a if b == 0 else self.shifts("shl", a, b)

    def shru_number(self, a, b):
        if b == 0:
            return a
        found = self.shifts("shru", a, b)
        if found is None and b == 31 and self.how(a)[0] == "shr":
            return self.op("shru", self.how(a)[1], 31)
        return found

    def shifts(self, op, a, b):
        """Two shifts the same way, which bring zeros, are one."""
        x, k = self.inner(op, a)
        if k is None:
            return None
        return self.op(op, x, k + b) if k + b < 32 else 0

    def shr_number(self, a, b):
        if b == 0:
            return a
        x, k = self.inner("shr", a)
        if k is not None:
            return self.op("shr", x, min(k + b, 31))
        lo, hi = self.bounds(a)
        if lo >= 0 and hi < 1 << 31:
            return self.op("shru", a, b) if b < 32 else 0
        return None

    def divu_number(self, a, b):
        if b == 1:
            return a
        return self.op("shru", a, b.bit_length() - 1) if is_power(b) else None

    def remu_number(self, a, b):
        return self.op("and", a, b - 1) if is_power(b) else None

    def ne_number(self, a, b):
        return a if b == 0 and self.bounds(a) in ((0, 1), (0, 0)) else None
