"""Arithmetic, comparisons, choices and casts of integers.

Sums, differences, products and shifts to the left of narrow numbers leave bits above them, which have no meaning; what looks at these bits
(shifts to the right, divisions, comparisons, casts to wider types) asks for them. Numbers of 33 to 64 bits are pairs (wide.py), wider ones
are taken as far as copies of structures need them. A shift by as many bits as a number has, or more, is undefined in C, and so is what a
processor makes of it."""
import wide
from ir import Any
from ssa import M, OPPOSITE

# Relations of LLVM and of steps, and operations that have one step.
REL = {"eq": "eq", "ne": "ne", "ult": "ltu", "ule": "leu", "ugt": "gtu", "uge": "geu", "slt": "lt", "sle": "le", "sgt": "gt", "sge": "ge"}
BIN = {"add": "add", "sub": "sub", "mul": "mul", "and": "and", "or": "or", "xor": "xor"}


class Arithmetic:
    """The part of Lowering that calculates with integers."""

    def do_bin(self, i):
        o, k = self.o, i.kind
        n = self.bits(i.ty)
        if self.m.real(i.ty)[0] != "int":
            self.refuse("vectors")
        if n > 64:
            return self.many(i, n)
        if n > 32:
            return self.pair(i, n)
        if k in BIN:
            a, b = self.word(i.a, i.ty), self.word(i.b, i.ty)
            r = o.op(BIN[k], a, b)
            if n < 32 and isinstance(r, int):
                r &= (1 << n) - 1
            return [o.op("and", r, 1)] if n == 1 else [r]
        if k == "shl":
            r = o.op("shl", self.word(i.a, i.ty), self.word(i.b, i.ty))
            return [o.op("and", r, 1)] if n == 1 else [r]
        if k == "lshr":
            return [o.op("shru", self.plain(i.a, i.ty), self.word(i.b, i.ty))]
        if k == "ashr":
            return [o.op("shr", self.with_sign(i.a, i.ty), self.word(i.b, i.ty))]
        if k in ("udiv", "urem"):
            a, b = self.plain(i.a, i.ty), self.plain(i.b, i.ty)
            if isinstance(b, int) and b > 1 and not isinstance(a, int):
                return [wide.divide_const(o, a, b) if k == "udiv" else wide.remainder_const(o, a, b)]
            return [o.op("divu" if k == "udiv" else "remu", a, b)]
        a, b = self.with_sign(i.a, i.ty), self.with_sign(i.b, i.ty)
        return [wide.signed_division(o, a, b, k == "srem")]

    def pair(self, i, n):
        o, k = self.o, i.kind
        a, b = self.value(i.a, i.ty), self.value(i.b, i.ty)
        if k == "add":
            return wide.add(o, a, b)
        if k == "sub":
            return wide.sub(o, a, b)
        if k == "mul":
            return wide.mul(o, a, b)
        if k in ("and", "or", "xor"):
            return wide.bits(o, k, a, b)
        if k in ("lshr", "udiv", "urem"):
            a = self.wide_plain(a, n)
        if k in ("ashr", "sdiv", "srem"):
            a = self.wide_sign(a, n)
        if k in ("shl", "lshr", "ashr"):
            return wide.shift(o, k, a, b)
        b = self.wide_plain(b, n) if k[0] == "u" else self.wide_sign(b, n)
        if a[1] == 0 and b[1] == 0 and k[0] == "u":
            return [o.op("divu" if k == "udiv" else "remu", a[0], b[0]), 0]
        return self.run_time(k, [*a, *b], 2)

    def many(self, i, n):
        """Numbers of more than two words: what copies of structures are made of."""
        o, k = self.o, i.kind
        a = self.wide_plain(self.value(i.a, i.ty), n)
        if k in ("and", "or", "xor"):
            return wide.bits(o, k, a, self.value(i.b, i.ty))
        if k in ("add", "sub"):
            b, carry, made = self.value(i.b, i.ty), 0, []
            for x, y in zip(a, b):
                r = o.op(k, x, y)
                over = o.truth("ltu", r, x) if k == "add" else o.truth("ltu", x, y)
                s = o.op(k, r, carry)
                more = o.truth("ltu", s, r) if k == "add" else o.truth("ltu", r, carry)
                made.append(s)
                carry = o.op("or", over, more)
            return made
        if k in ("shl", "lshr", "ashr") and i.b[0] == "int":
            words, low = divmod(i.b[1], 32)
            above = 0
            if k == "ashr":
                a = self.wide_sign(a, n)
                above = o.op("shr", a[-1], 31)
            a = [0] * words + a if k == "shl" else a[words:] + [above] * words
            a = a[:-(-n // 32)]
            if not low:
                return a
            if k == "shl":
                return [o.op("or", o.op("shl", x, low), o.op("shru", y, 32 - low)) for x, y in zip(a, [0, *a])]
            return [o.op("or", o.op("shru", x, low), o.op("shl", y, 32 - low)) for x, y in zip(a, [*a[1:], above])]
        self.refuse(f"arithmetic of integers of {n} bits")

    def wide_plain(self, a, n):
        return a if n % 32 == 0 else [*a[:-1], self.o.op("and", a[-1], (1 << n % 32) - 1)]

    def wide_sign(self, a, n):
        return a if n % 32 == 0 else [*a[:-1], self.extend(a[-1], n % 32)]

    def do_cast(self, i):
        o, k = self.o, i.kind
        if k in ("bitcast", "addrspacecast"):
            a, b = self.m.real(i.frm), self.m.real(i.ty)
            if a[0] == "ptr" and b[0] == "ptr":
                if i.a[0] == "local" and i.a[1] in self.places or i.a[0] != "local":
                    self.places[i.name] = self.place(i.a)
                    return None
                return self.value(i.a, i.frm)
            if a == b or {a[0], b[0]} == {"int", "float"} and self.pieces(a) == self.pieces(b):
                return self.value(i.a, i.frm)
            self.refuse("vectors" if "vec" in (a[0], b[0]) else "a change of type between values of this kind")
        if k in ("trunc", "zext", "sext"):
            n, to = self.bits(i.frm), self.bits(i.ty)
            if self.m.real(i.frm)[0] != "int":
                self.refuse("vectors")
            words = self.value(i.a, i.frm)
            count = self.pieces(i.ty)
            if k == "trunc":
                words = words[:count]
                if to == 1:
                    return [o.op("and", words[0], 1)]
                return [w & (1 << to) - 1 if isinstance(w, int) and to < 32 else w for w in words]
            if n > 32:
                words = self.wide_plain(words, n) if k == "zext" else self.wide_sign(words, n)
            else:
                words = [self.plain(i.a, i.frm) if k == "zext" else self.with_sign(i.a, i.frm)]
            above = 0 if k == "zext" or len(words) == count else o.op("shr", words[-1], 31)
            return words + [above] * (count - len(words))
        if k == "ptrtoint":
            c = self.memory.of(self.f.name, i.a)
            base, off, c = self.place(i.a)
            unit = c.unit if c else 1
            w = o.op("add", o.op("shl", base, unit.bit_length() - 1), off & M)
            return [w] + [0] * (self.pieces(i.ty) - 1)
        if k == "inttoptr":
            c = self.memory.of(self.f.name, ("local", i.name))
            return [o.op("shru", self.word(i.a, i.frm), c.unit.bit_length() - 1)]
        return self.float_cast(i)

    def do_icmp(self, i):
        """A comparison is written where it is used."""
        self.conds[i.name] = i
        n, me = self.f.name, ("local", i.name)
        direct = all(u is not Any and (u.op == "br" or u.op == "select" and u.c == ("local", i.name) and me not in (u.a, u.b))
                     for u in self.memory.uses.get((n, i.name), []))
        if direct and self.bits(i.of) <= 32:
            rel, a, b = self.compared(i)
            self.conds[i.name] = rel, a, b
            return None
        return [self.truth(i)]

    def compared(self, i):
        """The relation of a comparison of words, and the two words."""
        rel = REL[i.rel]
        n = self.bits(i.of)
        if n < 32:
            if rel in ("eq", "ne"):
                for x, y in ((i.a, i.b), (i.b, i.a)):
                    lo, hi = self.o.bounds(self.word(x, i.of))
                    if y[0] == "int" and lo >= -(1 << n - 1) and hi < 1 << n - 1:
                        return rel, self.word(x, i.of), self.extend(self.word(y, i.of), n)
                return rel, self.plain(i.a, i.of), self.plain(i.b, i.of)
            if rel in ("lt", "le", "gt", "ge"):
                return rel, self.signed_form(i.a, i.of), self.signed_form(i.b, i.of)
            return rel, self.plain(i.a, i.of), self.plain(i.b, i.of)
        return rel, self.word(i.a, i.of), self.word(i.b, i.of)

    def signed_form(self, v, ty):
        return self.with_sign(v, ty)

    def truth(self, i):
        o = self.o
        if self.bits(i.of) > 32:
            n = self.bits(i.of)
            rel = REL[i.rel]
            a, b = self.value(i.a, i.of), self.value(i.b, i.of)
            if n > 64:
                if rel not in ("eq", "ne"):
                    self.refuse(f"a comparison of integers of {n} bits")
                found = 0
                for x, y in zip(self.wide_plain(a, n), self.wide_plain(b, n)):
                    found = o.op("or", found, o.op("xor", x, y))
                return o.truth(rel, found, 0)
            ext = self.wide_sign if rel in ("lt", "le", "gt", "ge") else self.wide_plain
            return wide.truth(o, rel, ext(a, n), ext(b, n))
        return o.truth(*self.compared(i))

    def condition(self, v):
        """A condition as a relation of two words."""
        if v[0] == "local":
            got = self.conds.get(v[1])
            if isinstance(got, tuple):
                return got
            d = self.memory.defs.get((self.f.name, v[1]))
            if d is not None and d.op == "bin" and d.kind == "xor" and d.b == ("int", 1) and d.a[0] == "local":
                inner = self.conds.get(d.a[1])
                if isinstance(inner, tuple) or inner is not None and self.bits(inner.of) <= 32:
                    rel, a, b = self.o.relation(*(inner if isinstance(inner, tuple) else self.compared(inner)))
                    return OPPOSITE[rel], a, b
            if got is not None and self.bits(got.of) <= 32:
                return self.compared(got)
        return "ne", self.word(v, ("int", 1)), 0

    def do_select(self, i):
        rel, x, y = self.condition(i.c)
        a, b = self.value(i.a, i.ty), self.value(i.b, i.ty)
        return [self.o.select(rel, x, y, p, q) for p, q in zip(a, b)]

    def do_freeze(self, i):
        return self.value(i.a, i.ty)
