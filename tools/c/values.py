"""Values of LLVM as words, with zeros or their sign above them where that is asked for, and bounds that are seen before a run.

`narrow` says of a value, without its steps, between which bounds its word is. A phi takes such bounds before what it chooses from is
written; they are true of each of those words by the way in which its instruction is written. Within a circle of phis each may rest
on the others: what is assumed of a narrow number is no more than that it has zeros above, and it is given up for the whole circle
where one way in does not have them."""
from ssa import FULL, M


class Values:
    """The part of Lowering that gives words of values."""

    def pieces(self, ty):
        ty = self.m.real(ty)
        if ty[0] in ("ptr",):
            return 1
        if ty[0] == "int":
            return -(-ty[1] // 32)
        if ty[0] == "struct":
            return sum(self.pieces(x) for x in ty[1])
        if ty[0] == "arr":
            return ty[1] * self.pieces(ty[2])
        if ty[0] == "void":
            return 0
        if ty[0] == "float" and ty[1] in ("float", "double"):
            return 1 if ty[1] == "float" else 2
        self.refuse(f"floating point of the type {ty[1]}" if ty[0] == "float" else "vectors" if ty[0] == "vec" else f"values of the type {ty[0]}")

    def bits(self, ty):
        ty = self.m.real(ty)
        return 32 if ty[0] == "ptr" else {"float": 32, "double": 64}[ty[1]] if ty[0] == "float" else ty[1]

    def value(self, v, ty):
        """The words of a value."""
        ty = self.m.real(ty)
        if v[0] == "local":
            if v[1] not in self.values:
                if v[1] in self.places:
                    return [self.whole(v)]
                self.refuse(f"a value {v[1]} before it is made")
            return self.values[v[1]]
        if v[0] in ("undef", "zero", "null"):
            return [0] * self.pieces(ty)
        if v[0] == "int":
            k = v[1] & (1 << self.bits(ty)) - 1
            return [k >> 32 * p & M for p in range(self.pieces(ty))]
        if v[0] == "agg":
            return [w for t, x in v[1] for w in self.value(x, t)]
        if v[0] == "float":
            k = self.layout.float_bits(v, ty)
            return [k >> 32 * p & M for p in range(self.pieces(ty))]
        if ty[0] == "int":
            x = self.layout.number(self.f.name, v, ty[1])
            return [x >> 32 * p & M for p in range(self.pieces(ty))]
        return [self.layout.constant(self.f.name, v)]

    def word(self, v, ty=("int", 32)):
        return self.value(v, ty)[0]

    def plain(self, v, ty):
        """A narrow number with zeros above it."""
        n = self.bits(ty)
        w = self.word(v, ty)
        return w if n == 32 else self.o.op("and", w, (1 << n) - 1)

    def with_sign(self, v, ty):
        n = self.bits(ty)
        return self.extend(self.word(v, ty), n)

    def extend(self, w, n):
        if n == 32:
            return w
        if isinstance(w, int):
            w &= (1 << n) - 1
            return w - (1 << n) & M if w >> n - 1 else w
        lo, hi = self.o.bounds(w)
        if lo >= -(1 << n - 1) and hi < 1 << n - 1:
            return w
        if n in (8, 16) and f"sext{n}" in self.o.extra:
            return self.o.one(f"sext{n}", w)
        if n == 1:
            return self.o.one("neg", self.o.op("and", w, 1))
        return self.o.op("shr", self.o.op("shl", w, 32 - n), 32 - n)

    def phi_range(self, i):
        ty = self.m.real(i.ty)
        if ty[0] == "int" and ty[1] <= 32:
            known = self.narrow(("local", i.name), ty, {})
            if known:
                return known
        return FULL

    def narrow(self, v, ty, busy):
        """Bounds of a value that are seen without its steps: a word of few bits that surely has zeros above."""
        n = self.bits(ty)
        if v[0] == "int":
            k = v[1] & (1 << n) - 1
            return (k, k)
        if v[0] in ("zero", "undef"):
            return 0, 0
        if v[0] != "local":
            return None
        if v in busy:
            return busy[v]
        d = self.memory.defs.get((self.f.name, v[1]))
        if d is None:
            has_zeros = any(pn == v[1] and "zeroext" in attrs for pn, _, attrs in self.f.params)
            return (0, (1 << n) - 1) if has_zeros else None
        if len(busy) > 40:
            return None
        if d.op in ("phi", "select"):
            return self.narrow_choice(v, d, ty, busy) if n < 32 or len(busy) < 12 else None
        way = getattr(self, "narrow_" + d.op, None)
        return way(d, n) if way else None

    def narrow_choice(self, v, d, ty, busy):
        """The bounds of a phi or a select are those of all that it chooses from."""
        n = self.bits(ty)
        busy[v] = None if n == 32 else (0, (1 << n) - 1)
        found = [self.narrow(x, ty, busy) for x in ([x for _, x in d.pairs] if d.op == "phi" else [d.a, d.b])]
        if all(found):
            return min(x[0] for x in found), max(x[1] for x in found)
        busy[v] = None
        return None

    def narrow_icmp(self, d, n):
        return 0, 1

    def narrow_load(self, d, n):
        c = self.memory.of(self.f.name, d.p) if n < 32 else None
        return (0, (1 << n) - 1) if c and (not c.signed or c.cell * 8 != n) else None

    def narrow_cast(self, d, n):
        k = self.bits(d.frm) if d.kind == "zext" else 32
        return (0, (1 << k) - 1) if k < 32 else None

    def narrow_bin(self, d, n):
        if d.kind == "and":
            for x in (d.a, d.b):
                if x[0] == "int" and 0 <= x[1]:
                    return 0, x[1]
        if d.kind == "lshr" and d.b[0] == "int" and 0 < d.b[1] < n:
            return 0, (1 << n - d.b[1]) - 1
        return (0, (1 << n) - 1) if d.kind in ("udiv", "urem", "lshr") and n < 32 else None
