"""Bounds of words, from which it is seen that a mask or an extension changes nothing.

A value's bounds (low, high) say: its word is congruent, modulo 2^32, to a number from low to high. They are at most 2^32 apart. They may be
those of the number with its sign or without; `plain` and `with_sign` give the one that is asked for, and all words where it does not follow.
Bounds of a result are those of the operation on numbers, which holds modulo 2^32 for sums, differences, products and shifts to the left, and
are asked of `plain` or `with_sign` where the operation is not one modulo 2^32."""
M = 0xFFFFFFFF
FULL = (0, M)
OPPOSITE = {"eq": "ne", "ne": "eq", "lt": "ge", "ge": "lt", "ltu": "geu", "geu": "ltu"}

# The bounds of results, whatever the words are.
KNOWN = {**dict.fromkeys(("eq", "ne", "lt", "gt", "ltu", "gtu"), (0, 1)), **dict.fromkeys(("clz", "popcount"), (0, 32)),
         "sext8": (-128, 127), "sext16": (-32768, 32767)}


def signed(w):
    return w - (1 << 32) if w >> 31 else w


class Bounds:
    """The part of Builder that keeps bounds."""

    def bounds(self, a):
        if isinstance(a, int):
            return (a, a) if a < 1 << 31 else (a - (1 << 32), a - (1 << 32))
        return self.range.get(a, FULL)

    def plain(self, a):
        lo, hi = self.bounds(a)
        if lo >= 0 and hi <= M:
            return lo, hi
        if hi < 0 and lo >= -(1 << 31):
            return lo + M + 1, hi + M + 1
        return FULL

    def with_sign(self, a):
        lo, hi = self.bounds(a)
        if lo >= -(1 << 31) and hi < 1 << 31:
            return lo, hi
        return -(1 << 31), (1 << 31) - 1

    def reach(self, op, a, b):
        """The bounds of a result."""
        way = getattr(self, "reach_" + op, None)
        r = way(a, b) if way else KNOWN.get(op)
        return r if r and r[1] - r[0] <= M and abs(r[0]) <= 1 << 33 and abs(r[1]) <= 1 << 33 else FULL

    def reach_add(self, a, b):
        x, y = self.bounds(a), self.bounds(b)
        return x[0] + y[0], x[1] + y[1]

    def reach_sub(self, a, b):
        x, y = self.bounds(a), self.bounds(b)
        return x[0] - y[1], x[1] - y[0]

    def reach_mul(self, a, b):
        x, y = self.bounds(a), self.bounds(b)
        all4 = [p * q for p in x for q in y]
        return min(all4), max(all4)

    def reach_mulhu(self, a, b):
        return 0, self.plain(a)[1] * self.plain(b)[1] >> 32

    def reach_and(self, a, b):
        return 0, min(self.plain(a)[1], self.plain(b)[1])

    def reach_or(self, a, b):
        x, y = self.plain(a), self.plain(b)
        r = 0, (1 << max(x[1].bit_length(), y[1].bit_length())) - 1
        if r != FULL:
            return r
        n = max((~v if v < 0 else v).bit_length() for v in self.with_sign(a) + self.with_sign(b))
        return -(1 << n), (1 << n) - 1

    reach_xor = reach_or

    def reach_shl(self, a, b):
        x = self.bounds(a)
        return (x[0] << (b & 31), x[1] << (b & 31)) if isinstance(b, int) else None

    def reach_shru(self, a, b):
        x = self.plain(a)
        return (x[0] >> (b & 31), x[1] >> (b & 31)) if isinstance(b, int) else (0, x[1])

    def reach_shr(self, a, b):
        x = self.with_sign(a)
        return (x[0] >> (b & 31), x[1] >> (b & 31)) if isinstance(b, int) else (min(x[0], 0), max(x[1], 0))

    def reach_divu(self, a, b):
        x = self.plain(a)
        return (x[0] // b, x[1] // b) if isinstance(b, int) and b else None

    def reach_remu(self, a, b):
        x, y = self.plain(a), self.plain(b)
        return 0, min(x[1], y[1] - 1) if y[0] > 0 else x[1]

    def fits(self, a, k):
        """Whether a word that is shifted to the left by k bits loses none, its sign among them."""
        lo, hi = self.with_sign(a)
        return -(1 << 31) <= lo << k and hi << k < 1 << 31

    def of_choice(self, condition, a, b):
        """The bounds of one of two words, chosen by a relation of two others: tighter where it compares one of the two with a number."""
        rel, x, y = condition
        p, q = self.bounds(a), self.bounds(b)
        r = min(p[0], q[0]), max(p[1], q[1])
        if not isinstance(y, int) or x not in (a, b) or rel not in ("lt", "ge", "ltu", "geu"):
            return r
        chosen = rel if x == a else OPPOSITE[rel]
        other = b if x == a else a
        lo, hi = self.with_sign(x) if rel in ("lt", "ge") else self.plain(x)
        k = signed(y) if rel in ("lt", "ge") else y
        if chosen in ("lt", "ltu"):
            hi = min(hi, k - 1)
        else:
            lo = max(lo, k)
        p = self.bounds(other)
        if lo > hi:
            return r
        return min(lo, p[0]), max(hi, p[1])
