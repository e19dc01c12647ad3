"""Which classes each instruction joins, as classes.py says (1 to 5): a function for each kind of instruction."""
from classes import unify

# Casts that leave a place what it is, or make a number of it and the other way round.
OF_PLACES = ("bitcast", "addrspacecast", "ptrtoint", "inttoptr")


class Joins:
    """The part of Memory that goes through the instructions. Each function takes the name of a function of the program, an instruction of it,
    and how much the instruction counts: more within loops."""

    def instruction(self, f, b, i):
        join = getattr(self, "join_" + i.op, None)
        if join:
            join(f.name, i, 8 ** min(self.depth[f.name, b.name], 6))

    def made_of(self, n, i, values):
        """The result is a number that is made of the values."""
        for v in values:
            if self.of(n, v) and i.name:
                self.flows.append(((n, v), (n, ("local", i.name))))

    def same_as_all(self, n, i, values):
        """The result may be each of the values."""
        for v in values:
            self.same(n, ("local", i.name), v)

    # Values that are chosen, or parts of others.

    def join_phi(self, n, i, w):
        self.same_as_all(n, i, [v for _, v in i.pairs])

    def join_select(self, n, i, w):
        self.same_as_all(n, i, [i.a, i.b])

    def join_freeze(self, n, i, w):
        self.same_as_all(n, i, [i.a])

    join_extractvalue = join_freeze

    def join_insertvalue(self, n, i, w):
        self.same_as_all(n, i, [i.a, i.item[1]])

    # Places and numbers.

    def join_gep(self, n, i, w):
        self.same(n, ("local", i.name), i.p)
        c = self.of(n, i.p)
        if c and not i.inside and any(v not in (("int", 0), ("zero",)) for _, v in i.index):
            c.wild = True
            c.bytes |= any(v[0] not in ("int", "zero") for _, v in i.index)

    def join_cast(self, n, i, w):
        if i.kind not in OF_PLACES:
            self.made_of(n, i, [i.a] if i.a[0] in ("local", "expr", "global") else [])
            return
        self.same(n, ("local", i.name), i.a)
        c = self.of(n, i.a)
        if c and i.kind in ("ptrtoint", "inttoptr") and not self.harmless(n, i):
            c.top().bytes = True

    def join_bin(self, n, i, w):
        self.made_of(n, i, [v for v in (i.a, i.b) if v[0] in ("local", "expr", "global")])

    def join_icmp(self, n, i, w):
        if self.m.real(i.of)[0] == "ptr":
            self.same(n, i.a, i.b)

    # Data.

    def join_alloca(self, n, i, w):
        self.of(n, ("local", i.name)).objects.append((n, i))

    def join_load(self, n, i, w):
        c = self.of(n, i.p)
        if c:
            unify(c.inside(), self.of(n, ("local", i.name)))
            c.top().accesses.append((n, i, w))

    def join_store(self, n, i, w):
        c = self.of(n, i.p)
        if not c:
            return
        if self.of(n, i.v):
            unify(c.inside(), self.of(n, i.v))
            self.sites.append((n, i.v))
        c.top().accesses.append((n, i, w))

    # Calls.

    def join_call(self, n, i, w):
        t = self.callee(i)
        if t and t.startswith("@llvm.mem"):
            self.joined_by_move(n, i, w, "set" in t)
        elif t and t.startswith("@llvm."):
            self.made_of(n, i, [v for _, v, _ in i.args if v[0] in ("local", "expr")])
        if t and t.startswith("@tta_"):
            self.joined_with_own(n, i, t)
        for g in self.targets(i):
            self.joined_with_called(n, i, g)

    def joined_by_move(self, n, i, w, is_fill):
        """A copy or a fill of data."""
        if not is_fill:
            self.same(n, i.args[0][1], i.args[1][1])
        c = self.of(n, i.args[0][1])
        if c:
            c.top().moves.append((n, i, w))

    def joined_with_own(self, n, i, t):
        """A function of tta.h."""
        if t == "@tta_store" and len(i.args) == 2 and self.of(n, i.args[1][1]):
            unify(self.of_key(("raw",)), self.of(n, i.args[1][1]))
        elif t == "@tta_load":
            unify(self.of_key(("raw",)), self.of(n, ("local", i.name)))
        elif t.startswith("@tta_op_") and i.name:
            self.made_of(n, i, [v for _, v, _ in i.args])

    def joined_with_called(self, n, i, g):
        """A function of the program that the call may lead to."""
        for (pn, _, _), (_, v, _) in zip(self.m.functions[g].params, i.args):
            c = self.of(n, v)
            if c:
                unify(self.of_key((g, pn)), c)
        if i.name:
            unify(self.of_key((g, "ret")), self.of(n, ("local", i.name)))

    def join_ret(self, n, i, w):
        c = self.of(n, i.v) if i.v else None
        if c:
            unify(self.of_key((n, "ret")), c)
