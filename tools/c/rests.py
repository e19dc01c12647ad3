"""What is known of a place: its number of bytes modulo a power of two, counted from the begin of its object.

A pair (m, r) says: the place is r bytes, modulo m, from the begin of a word of its class, whatever number of bytes (1, 2 or 4) a word
will hold, as far as that number divides m; for data begin at words. None says that no place is known to come there (yet): the null place,
or what no run reaches. The pairs are found by going down from None until nothing changes, so loops and calls that lead to one another
are taken care of: each pair is that of all that comes to a value, by every phi, call and load, and every pointer that is stored counts for
every load of its class.

`needed` and `split` say how a place is written: a place that only accesses use is a base and bytes that are added, and only the base
is a word of a run."""
from math import gcd

from ir import Any
from sizes import offset

# A place of which nothing is known, and one at the begin of its object.
ANYWHERE, BEGIN = (1, 0), (4, 0)


def join(a, b):
    """What holds of a number of which one of two things (modulus, rest) holds; None is nothing yet."""
    if a is None or b is None:
        return a or b
    m = gcd(gcd(a[0], b[0]), a[1] - b[1])
    return m, a[1] % m


class Rests:
    """The part of Memory that follows bytes of places."""

    def zeros(self, n, v, deep=0):
        """How many low bits of a number are 0, as far as it is seen."""
        if v[0] in ("zero", "null"):
            return 32
        if v[0] == "int":
            return 32 if v[1] == 0 else (v[1] & -v[1]).bit_length() - 1
        d = self.defs.get((n, v[1])) if v[0] == "local" else None
        if d is None or deep > 6:
            return 0
        if d.op == "bin":
            a = lambda: self.zeros(n, d.a, deep + 1)
            b = lambda: self.zeros(n, d.b, deep + 1)
            if d.kind == "shl":
                return a() + (d.b[1] if d.b[0] == "int" else 0)
            if d.kind == "mul":
                return a() + b()
            if d.kind in ("add", "sub", "or", "xor"):
                return min(a(), b())
            if d.kind == "and":
                return max(a(), b())
        if d.op == "cast" and d.kind in ("zext", "sext", "trunc"):
            return self.zeros(n, d.a, deep + 1)
        if d.op == "select":
            return min(self.zeros(n, d.a, deep + 1), self.zeros(n, d.b, deep + 1))
        if d.op == "phi":
            found = 32
            for _, v in d.pairs:
                x = self.defs.get((n, v[1])) if v[0] == "local" else None
                if x is not None and x.op == "bin" and x.kind in ("add", "sub") and ("local", d.name) in (x.a, x.b):
                    other = x.b if x.a == ("local", d.name) else x.a
                    found = min(found, self.zeros(n, other, deep + 1))
                else:
                    found = min(found, self.zeros(n, v, deep + 3))
            return found
        return 0

    def needed(self, n, name):
        """Whether a place is needed as a value, and not only for accesses."""
        for u in self.uses.get((n, name), []):
            if u is Any:
                return True
            me = ("local", name)
            if u.op == "load" or u.op == "store" and u.v != me:
                continue
            if u.op == "gep" and u.p == me and all(v != me for _, v in u.index):
                continue
            if u.op == "cast" and u.kind in ("bitcast", "addrspacecast"):
                if self.needed(n, u.name):
                    return True
                continue
            return True
        return False

    def split(self, n, v):
        """The value that a place counts from (or nothing where it is a fixed place), and the bytes that are added."""
        if v[0] == "local":
            d = self.defs.get((n, v[1]))
            if d is not None and d.op == "gep" and not self.needed(n, d.name):
                const, more = offset(self.m, d.base, d.index)
                if more:
                    root, at = self.split(n, d.p)
                    return ("gep", d, root), at + const
                root, at = self.split(n, d.p)
                return root, at + const
            if d is not None and d.op == "cast" and d.kind in ("bitcast", "addrspacecast"):
                return self.split(n, d.a)
        return v, 0

    def rest(self, n, v):
        """What is known of the bytes of a place."""
        if v[0] == "global":
            v = self.alias(v)
            return BEGIN if v[0] == "global" else self.rest(n, v)
        if v[0] in ("null", "undef", "zero"):
            return None
        if v[0] == "expr":
            if v[1] == "gep":
                const, more = offset(self.m, v[2], v[4])
                return self.moved(n, self.rest(n, v[3]), const, more)
            if v[1] == "cast" and v[2] in ("bitcast", "addrspacecast"):
                return self.rest(n, v[4])
            return ANYWHERE
        if v[0] == "local":
            return self.known.get((n, v[1]))
        return ANYWHERE

    def moved(self, n, r, const, more):
        if r is None:
            return None
        m, k = r
        for _, v, scale in more:
            m = gcd(m, scale << min(self.zeros(n, v), 4))
        return m, (k + const) % m

    def rests(self):
        self.known, self.kept = {}, {}
        changed = True
        while changed:
            changed = False
            kept = {}
            for n, v in self.sites:
                c = self.of(n, v)
                r = self.rest(n, v)
                if r is not None and c:
                    kept[id(c)] = join(kept.get(id(c)), r)
            if kept != self.kept:
                self.kept, changed = kept, True
            for f in self.m.functions.values():
                n = f.name
                for pn, ty, _ in f.params:
                    r = None
                    for g, i in self.callers.get(n, []):
                        k = [p for p, _, _ in f.params].index(pn)
                        r = join(r, self.rest(g, i.args[k][1]))
                    if self.set(n, pn, r):
                        changed = True
                for b in f.blocks:
                    for i in b.body:
                        if i.name and self.set(n, i.name, self.rest_of(n, i)):
                            changed = True

    def set(self, n, name, r):
        old = self.known.get((n, name))
        new = join(old, r)
        if new != old:
            self.known[n, name] = new
            return True
        return False

    def rest_of(self, n, i):
        if i.op == "alloca":
            return BEGIN
        if i.op == "gep":
            const, more = offset(self.m, i.base, i.index)
            return self.moved(n, self.rest(n, i.p), const, more)
        if i.op == "cast" and i.kind in ("bitcast", "addrspacecast"):
            return self.rest(n, i.a)
        if i.op == "phi":
            r = None
            for _, v in i.pairs:
                r = join(r, self.rest(n, v))
            return r
        if i.op == "select":
            return join(self.rest(n, i.a), self.rest(n, i.b))
        if i.op == "freeze":
            return self.rest(n, i.a)
        if i.op == "load":
            return self.kept.get(id(self.of(n, ("local", i.name))))
        if i.op == "call":
            if not self.targets(i):
                return ANYWHERE if self.is_number(n, ("local", i.name)) or self.m.real(i.ty)[0] == "ptr" else None
            r = None
            for g in self.targets(i):
                for b in self.m.functions[g].blocks:
                    e = b.body[-1]
                    if e.op == "ret" and e.v:
                        r = join(r, self.rest(g, e.v))
            return r
        if self.m.real(i.ty)[0] == "int" and not self.is_number(n, ("local", i.name)):
            return None
        return ANYWHERE

