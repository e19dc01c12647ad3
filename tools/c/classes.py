"""Which data a pointer may point to: classes of places, by unification over the whole program.

What holds when this is done, and why each access is right whatever cells.py chooses for a class:

 1. Each value has a class (`of`), that of the data to which it points if it is a place, and each class has the class of what its data
    keep (`inside`). If a value points into an object at any time of a run, that object is among the objects of its class.
 2. It holds because each way on which a place goes from one value to another joins their classes: phi, select, freeze, copies of parts of
    aggregates, steps within data (getelementptr), casts, calls with their arguments and results, stores and loads by way of `inside`,
    copies of memory (both places get one class, so what they keep does too), the first words of data, and the words of `tta_store` and
    `tta_load` (one class for all). It is the same for numbers, since a copy of a structure may move its pointers as numbers.
 3. Two pointers that are compared have one class, so that both are counted in the same way.
 4. A function whose address is used otherwise than to be called is `taken`; a call by pointer leads to taken functions that have as many
    parameters and the same type of result, and all of them are joined with it.
 5. Where LLVM does not promise that a step within data stays inside (`inbounds`), the class is `wild`. If its index is a value, the product of
    index and size may have lost bits, which is right in bytes alone: pointers of the class count bytes then.
 6. Arithmetic makes places of numbers, too: places.py joins what it is made of.

A place that is made of nothing that points to data (a plain number, a word of the input) has a class without objects, and an access to it
is refused. What C leaves undefined (a pointer that leaves its object, an access by another type than its own) is not kept."""
import flow
from ir import Any, operands, parts


class Class:
    def __init__(self):
        self.up, self.content, self.objects, self.functions = None, None, [], set()
        self.accesses, self.moves, self.roots, self.bytes, self.stored = [], [], [], False, None
        # What cells.py chooses: bytes of a word, bytes that a pointer counts, whether words hold their bytes with their sign; whether
        # words may hold other bits above them (`loose`); and whether a pointer may have left its object on the way (`wild`).
        self.cell = self.unit = 4
        self.signed = self.loose = self.wild = False

    def top(self):
        top = self
        while top.up:
            top = top.up
        # All on the way lead there at once from now on.
        while self.up:
            self.up, self = top, self.up
        return top

    def inside(self):
        """The class of what is kept in the data of this one."""
        c = self.top()
        if c.content is None:
            c.content = Class()
        return c.content.top()


def unify(a, b):
    work = [(a, b)]
    while work:
        a, b = work.pop()
        a, b = a.top(), b.top()
        if a is b:
            continue
        b.up = a
        a.objects += b.objects
        a.functions |= b.functions
        a.accesses += b.accesses
        a.moves += b.moves
        a.roots += b.roots
        a.bytes |= b.bytes
        a.wild |= b.wild
        if a.content and b.content:
            work.append((a.content, b.content))
        elif b.content:
            a.content = b.content


class PointsTo:
    """The part of Memory that makes the classes."""

    # Classes of values.

    def of_key(self, key):
        if key not in self.var:
            self.var[key] = Class()
        return self.var[key].top()

    def of(self, f, v):
        """The class that a value points to, or nothing where it is no place."""
        if v[0] == "local":
            return self.of_key((f, v[1]))
        if v[0] == "global":
            return self.of_key(("g", self.alias(v)[1])) if self.alias(v)[0] == "global" else self.of(f, self.alias(v))
        if v[0] == "expr":
            if v[1] == "gep":
                return self.of(f, v[3])
            if v[1] == "cast":
                c = self.of(f, v[4])
                if c and v[2] in ("ptrtoint", "inttoptr"):
                    c.bytes = True
                return c
            if v[1] == "op":
                found = [self.of(f, x) for _, x in v[4]]
                found = [x for x in found if x]
                for x in found[1:]:
                    unify(found[0], x)
                return found[0].top() if found else None
        if v[0] == "agg":
            found = [x for x in (self.of(f, x) for _, x in v[1]) if x]
            for x in found[1:]:
                unify(found[0], x)
            return found[0].top() if found else None
        return None

    def alias(self, v):
        while v[0] == "global" and v[1] in self.m.aliases:
            v = self.m.aliases[v[1]]
        return v

    def same(self, f, v, w):
        a, b = self.of(f, v), self.of(f, w)
        if a and b:
            unify(a, b)

    join = staticmethod(unify)

    def scan(self, f):
        """Definitions, uses and depths of loops of one function."""
        by = {b.name: b for b in f.blocks}
        succ = lambda n: by[n].targets()
        names = flow.order(f.blocks[0].name, succ)
        deep = flow.depths(names, succ)
        f.blocks = [b for b in f.blocks if b.name in deep]
        for b in f.blocks:
            self.depth[f.name, b.name] = deep[b.name]
            for i in b.body:
                if i.op == "phi":
                    i.pairs = [(p, v) for p, v in i.pairs if p in deep]
                if i.name:
                    self.defs[f.name, i.name] = i
                for v in operands(i):
                    self.used(f, v, i)

    def used(self, f, v, i):
        if v[0] == "local":
            self.uses.setdefault((f.name, v[1]), []).append(i)
        elif v[0] == "global" and self.alias(v)[1] in self.m.functions:
            if not (i.op == "call" and i.target == v and all(a != v for _, a, _ in i.args)):
                self.taken.add(self.alias(v)[1])
        elif v[0] == "expr":
            for x in parts(v):
                self.used(f, x, Any)

    def initial(self, c, ty, v):
        """What the first words of data point to."""
        ty = self.m.real(ty)
        if v[0] == "agg":
            for t, x in v[1]:
                self.initial(c, t, x)
        elif v[0] in ("global", "expr"):
            for x in [v, *parts(v)]:
                if x[0] == "global" and self.alias(x)[1] in self.m.functions:
                    self.taken.add(self.alias(x)[1])
            target = self.of("", v)
            if target:
                unify(c.inside(), target)
                self.sites.append(("", v))

    # Constraints.

    def calls(self):
        self.callers = {}
        for f in self.m.functions.values():
            for b in f.blocks:
                for i in b.body:
                    if i.op == "call":
                        for g in self.targets(i):
                            self.callers.setdefault(g, []).append((f.name, i))

    def targets(self, i):
        """The functions that a call may lead to."""
        t = self.callee(i)
        if t:
            return [t] if t in self.m.functions else []
        return [g for g in sorted(self.taken) if len(self.m.functions[g].params) == len(i.args)
                and self.m.functions[g].result == i.ty]

    def callee(self, i):
        t = i.target
        while t[0] == "expr" and t[1] == "cast":
            t = t[4]
        t = self.alias(t)
        return t[1] if t[0] == "global" else None
