"""Places that are numbers for a while: from `ptrtoint` to `inttoptr`, or by a load of another type than the store had.

A place as a value of pointer type counts the units of its class; as a number it counts bytes, since programs calculate with it. What
holds when this is done:

 1. A number that may be a place is `marked`: what `ptrtoint` gives, what is computed of marked numbers, what an access reads that may be
    to data of any type (a union, characters, no mark by clang), and what is read where marked numbers are kept. A narrow number is
    marked only where the class that it is read from keeps places.
 2. Where a number that may be a place of an object leads, by arithmetic, to a place that is read or written, the classes of both are
    joined (`flows`), and its pointers count bytes: so the number is the same in both forms. This is done until nothing changes.
 3. Where a number is read that may be a place, and more is done with it than to store it again, the pointers of its class count bytes.
 4. A class whose pointers count bytes has its data at multiples of sixteen bytes (layout.py), as LLVM takes for granted where it masks
    low bits.

The single bytes of a place that is kept in memory are those of its word in units: to copy them is right, to compute with them is not
C's business. That an access of one type does not read what another type wrote is C's rule of effective types; LLVM's passes rest on it
too."""
from ir import operands


class Numbers:
    """The part of Memory that finds places among numbers."""

    def arithmetic(self):
        while True:
            self.numbers()
            if not self.join_flows():
                break
        self.punned()

    def join_flows(self):
        """Joins what a number is made of with what it leads to; whether any were apart."""
        flows = [(s, t, self.of(*s), self.of(*t)) for s, t in self.flows if self.is_number(*s)]
        flows = [x for x in flows if x[2]]
        carries = {id(c) for _, _, c, _ in flows if c.objects or c.functions}
        leads = {id(c) for _, _, _, c in flows if c.accesses or c.moves}
        on = True
        while on:
            on = False
            for _, _, c, d in flows:
                if id(c) in carries and id(d) not in carries:
                    carries.add(id(d))
                    on = True
                if id(d) in leads and id(c) not in leads:
                    leads.add(id(c))
                    on = True
        joined = [(s, t) for s, t, c, d in flows if id(c) in carries and id(d) in leads and c is not d]
        for s, t in joined:
            self.join(self.of(*s), self.of(*t))
            self.of(*s).bytes = True
        return bool(joined)

    def numbers(self):
        """Which numbers may be places."""
        self.marked, self.keeps = set(), set()
        changed = True
        while changed:
            before = len(self.marked), len(self.keeps)
            for f in self.m.functions.values():
                for k, (name, _, _) in enumerate(f.params):
                    if any(self.is_number(g, i.args[k][1]) for g, i in self.callers.get(f.name, [])):
                        self.marked.add((f.name, name))
                for b in f.blocks:
                    for i in b.body:
                        if i.op == "store" and self.is_number(f.name, i.v) and self.of(f.name, i.p):
                            self.keeps.add(id(self.of(f.name, i.p)))
                        if i.name and (f.name, i.name) not in self.marked and self.may_be_place(f.name, i):
                            self.marked.add((f.name, i.name))
            changed = before != (len(self.marked), len(self.keeps))

    def may_be_place(self, n, i):
        """Whether the result of an instruction is a number that may be a place, by what is marked so far."""
        if i.op == "cast" and i.kind == "ptrtoint":
            return True
        if i.op == "load":
            ty = self.m.real(i.ty)
            if ty[0] != "int":
                return False
            if ty[1] < 32:
                c = self.of(n, ("local", i.name))
                return bool(c.objects or c.functions)
            return self.m.is_any_type(i) or id(self.of(n, i.p)) in self.keeps
        if i.op == "call":
            callee = self.callee(i) or ""
            if callee.startswith(("@llvm.", "@tta_op_")):
                return any(self.is_number(n, v) for _, v, _ in i.args)
            if callee == "@tta_load":
                return True
            ends = ((g, b.body[-1]) for g in self.targets(i) for b in self.m.functions[g].blocks)
            return any(e.op == "ret" and e.v and self.is_number(g, e.v) for g, e in ends)
        if i.op in ("gep", "icmp", "alloca", "fcmp", "fbin", "fneg"):
            return False
        return any(self.is_number(n, v) for v in operands(i))

    def is_number(self, n, v):
        return (n, v[1]) in self.marked if v[0] == "local" else v[0] == "expr"

    def punned(self):
        """Numbers that are read where pointers are kept, and then computed with."""
        for f in self.m.functions.values():
            for b in f.blocks:
                for i in b.body:
                    if i.op != "load" or (f.name, i.name) not in self.marked or self.m.real(i.ty)[1] < 32:
                        continue
                    c = self.of(f.name, ("local", i.name))
                    kept = all(u.op == "store" and u.p != ("local", i.name) for u in self.uses.get((f.name, i.name), []))
                    if (c.objects or c.functions) and not kept:
                        c.bytes = True

    def harmless(self, n, i):
        """Whether a place as a number is only compared and subtracted: then its pointers may count what they like."""
        if i.kind == "inttoptr":
            return False
        for u in self.uses.get((n, i.name), []):
            if u.op == "icmp":
                continue
            if u.op == "bin" and u.kind == "sub" and all(self.is_place(n, x) for x in (u.a, u.b)):
                continue
            return False
        return True

    def is_place(self, n, v):
        if v[0] == "local":
            d = self.defs.get((n, v[1]))
            return bool(d) and d.op == "cast" and d.kind == "ptrtoint"
        return v[0] == "expr" and v[1] == "cast" and v[2] == "ptrtoint"
