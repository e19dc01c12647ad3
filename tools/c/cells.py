"""How each kind of data stands in the words of the data space: what a word of a class holds, and what its pointers count.

A class whose data are only read and written as bytes has one byte a word, so no access shifts or masks; a class of words has four; a class
of both takes what costs least by a count of its accesses, weighted by loops. Whatever is chosen, each access is right (access.py): it takes
several words, or a part of one, where its size is another. So a bad choice costs time, and never words.

What the accesses rest on:

 1. A pointer counts words (`unit` = `cell`) only where every pointer of the class that becomes a word of a run is a multiple of the cell from the
    begin of its object: `roots` has the rests of all of them. They are: parameters, what loads, calls, phis, selects and casts of numbers
    give, steps within data that are needed as values or have an index, and constant places that are handed on or kept. Else, and where
    numbers are made of them (`bytes`), they count bytes.
 2. A word of a class of 1 or 2 bytes holds nothing above them, or their sign where the class is `signed`; every store keeps to it, and
    the words of data begin so. It may be otherwise (`loose`) where other classes use the same words in turn (the stack) or words come
    from outside (data that are placed): there each load masks.
 3. Data that the program places (`TTA_AT`) have a word for each element of 1, 2 or 4 bytes, so that their words are known."""
from ir import Any, Refused, count_of, operands
from sizes import offset, size_of


class Cells:
    """The part of Memory that chooses."""

    def classes(self):
        return list({id(c.top()): c.top() for c in self.var.values()}.values())

    def choose(self):
        self.find_roots()
        for c in self.classes():
            self.choose_cell(c)
            self.signs(c)

    def find_roots(self):
        """The rests of the pointers of each class that become words of a run (1)."""
        for f in self.m.functions.values():
            for pn, ty, _ in f.params:
                if self.m.real(ty)[0] == "ptr":
                    self.of_key((f.name, pn)).roots.append(self.known.get((f.name, pn)))
            for b in f.blocks:
                for i in b.body:
                    if i.name and self.m.real(i.ty)[0] == "ptr":
                        self.root_of_result(f.name, i)
                for i in b.body:
                    if i.op not in ("load", "gep"):
                        self.roots_of_constants(f.name, i)
        for n, v in self.sites:
            c = self.of(n, v)
            if c and v[0] in ("expr", "global"):
                c.roots.append(self.rest(n, v))

    def root_of_result(self, n, i):
        c = self.of(n, ("local", i.name))
        r = self.known.get((n, i.name))
        if i.op == "gep":
            const, more = offset(self.m, i.base, i.index)
            if self.needed(n, i.name):
                c.roots.append(r)
            elif more and r is not None:
                _, at = self.split(n, ("local", i.name))
                c.roots.append((r[0], (r[1] - at) % r[0]))
        elif not (i.op == "cast" and i.kind in ("bitcast", "addrspacecast")):
            c.roots.append(r)

    def roots_of_constants(self, n, i):
        """Constant places that an instruction hands on or keeps."""
        for v in operands(i):
            if v[0] == "expr" and (i.op != "store" or v is i.v) and self.of(n, v):
                self.of(n, v).roots.append(self.rest(n, v))

    def choose_cell(self, c):
        """The bytes of a word of the class, and those that its pointers count: what costs least."""
        best = None
        placed = self.placed(c)
        c.loose = placed is not None
        # What has no data is reached by no run, and counts what is always right.
        for cell in [placed] if placed else [1] if not c.objects else [self.only] if self.only else (4, 2, 1):
            unit = cell if not c.bytes and all(r is None or r[0] % cell == 0 and r[1] % cell == 0 for r in c.roots) else 1
            cost = self.cost(c, cell, unit)
            if best is None or cost < best[0]:
                best = cost, cell, unit
        _, c.cell, c.unit = best

    def placed(self, c):
        """The bytes of an element of the class's data that the program places, or nothing."""
        found = {}
        for d in c.objects:
            if not isinstance(d, tuple) and d.placed is not None:
                ty = self.m.real(d.ty)
                while ty[0] == "arr":
                    ty = self.m.real(ty[2])
                size = size_of(self.m, ty) if ty[0] in ("int", "float", "ptr") else 4
                found[min(size, 4)] = d.name[1:]
        if len(found) > 1:
            raise Refused(f"{' and '.join(sorted(found.values()))} are placed, the same pointers reach them, and their elements have different sizes")
        return next(iter(found), None)

    def signs(self, c):
        """Whether the words of the class hold their bytes with their sign."""
        if c.cell == 4:
            return
        sign = plain = 0
        for n, i, w in c.accesses:
            if size_of(self.m, i.ty) != c.cell:
                plain += 4 * w
            elif i.op == "load":
                use = self.uses.get((n, i.name), [])
                if any(self.wants_sign(u, i.name) for u in use):
                    sign += 2 * w
                if any(u is Any or u.op == "cast" and u.kind == "zext" or u.op == "icmp" and u.rel[0] == "u" for u in use):
                    plain += w
            else:
                plain += w * self.sign_costs(n, i.v)
        c.signed = sign > plain

    def wants_sign(self, u, name):
        if u is Any:
            return False
        if u.op == "call":
            t = self.callee(u)
            f = self.m.functions.get(t) if t else None
            return bool(f) and any(v == ("local", name) and "signext" in attrs for (_, v, _), (_, _, attrs) in zip(u.args, f.params))
        return u.op == "cast" and u.kind == "sext" or u.op == "icmp" and u.rel[0] == "s"

    def sign_costs(self, n, v):
        """How many steps more it takes to store a value with its sign than without it."""
        if v[0] != "local":
            return 0
        d = self.defs.get((n, v[1]))
        if d is None or d.op == "load":
            return 0
        if d.op == "cast" and d.kind == "trunc" and d.a[0] == "local":
            x = self.defs.get((n, d.a[1]))
            if x is not None and (x.op == "select" or x.op == "cast" and x.kind == "sext" or x.op == "bin" and x.kind == "ashr"
                                  or x.op == "call" and (self.callee(x) or "").startswith(("@llvm.smin", "@llvm.smax"))):
                return -1
        return 1

    def cost(self, c, cell, unit):
        total = 0
        for n, i, w in c.accesses:
            size = size_of(self.m, i.ty)
            r = self.rest(n, i.p) if i.p[0] != "local" else self.known.get((n, i.p[1]))
            fixed = unit == cell or r is not None and r[0] % cell == 0
            shift = 0 if unit == cell else 1
            whole = i.align % min(size, cell) == 0 or r is not None and r[0] % min(size, cell) == 0 and r[1] % min(size, cell) == 0
            is_load = i.op == "load"
            if not whole:
                cost = size * (6 if is_load else 9)
            elif size == cell:
                cost = 1 + shift
            elif size > cell:
                k = size // cell
                cost = k + shift + ((k - 1) * 3 if is_load else (k - 1) * 3) if size <= 4 else 2 * (4 // cell) + (4 // cell - 1) * 6 + shift
            elif is_load:
                cost = 3 if fixed else 4 + shift
            else:
                cost = 5 + shift if fixed else 9
            total += cost * w
        for n, i, w in c.moves:
            length = i.args[2][1]
            total += w * (length[1] if length[0] == "int" else 32) / cell * 3
        size = 0
        for o in c.objects:
            size += -(-self.size(o) // cell)
        return total + size / 1000

    def size(self, o):
        return size_of(self.m, o[1].of) * count_of(o[1]) if isinstance(o, tuple) else size_of(self.m, o.ty)
