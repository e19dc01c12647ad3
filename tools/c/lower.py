"""Writes a function of LLVM as blocks of steps in which each value is assigned once.

What holds of a value while this goes on:

 1. A value of n bits is one word for each 32 of them, the low one first. Of a value of fewer bits than its word has, the bits above are
    of no meaning, and whoever needs them calls `plain` or `with_sign`; bounds that the builder keeps (bounds.py) speak of the whole
    word. A value of one bit is 0 or 1.
 2. A place is a base word, in what pointers of its class count, and a number of bytes to add (access.py); it becomes one word only where
    it is needed as a value.
 3. Blocks are taken in an order in which each comes after those that always run before it, so that a value is made before it is used;
    what phis choose from is filled in at the end. One block of LLVM may become several (`region`): the ways out of all of them
    bring the same values.
 4. A comparison whose only uses are branches and choices is written there (`conds`); its operands are words that were made where
    LLVM compares, or extensions of them.

An instruction that this does not know is refused with its line."""
import flow
from access import Access
from arith import Arithmetic
from calls import Calls
from floats import Floats
from ir import Refused
from ssa import FULL, M, STACK, Builder, Step
from values import Values


class Lowering(Values, Access, Arithmetic, Floats, Calls):
    """One function as blocks."""

    def __init__(self, all, f):
        self.all, self.m, self.memory, self.layout, self.f = all, all.module, all.memory, all.layout, f
        self.o = Builder(all.names[f.name], all.extra)
        self.o.lacks, self.o.library = all.machine.lacks, lambda name, words: self.run_time(name, words, 1)[0]
        self.values, self.places, self.region, self.here, self.at = {}, {}, {}, {}, f.dbg
        self.conds = {}

    def refuse(self, text):
        raise Refused(text, self.m.place(self.at) or self.f.name[1:])

    def run(self):
        o, f = self.o, self.f
        by = {b.name: b for b in f.blocks}
        names = flow.order(f.blocks[0].name, lambda n: by[n].targets())
        self.heads = {n: o.begin() for n in names}
        first = self.heads[names[0]]
        o.enter(first)
        o.params = self.parameters()
        phis = []
        for n in names:
            b = by[n]
            if n != names[0]:
                o.enter(self.heads[n])
            count = len(o.blocks)
            for i in b.body:
                self.at = o.at = i.at or self.at
                if i.op == "phi":
                    made = [o.fresh(self.phi_range(i)) for _ in range(self.pieces(i.ty))]
                    self.values[i.name] = made
                    entries = [[d, {}] for d in made]
                    self.heads[n].phis += entries
                    self.here[i.name] = self.heads[n].name
                    phis.append((i, entries))
                else:
                    self.instruction(i)
            self.region[n] = [self.heads[n]] + o.blocks[count:]
        for i, entries in phis:
            self.at = i.at or f.dbg
            for p, v in i.pairs:
                words = self.value(v, i.ty)
                head = self.here[i.name]
                for b in self.region[p]:
                    if b.steps and head in b.steps[-1].to:
                        for (d, come), w in zip(entries, words):
                            come[b.name] = w
        return o

    def parameters(self):
        """Makes a value of each parameter; those that are too many for a call stand in words of the data space."""
        o, f, found, spare = self.o, self.f, [], 0
        for name, ty, attrs in f.params:
            words = self.values[name] = []
            for _ in range(self.pieces(ty)):
                if f.name == "@main":
                    words.append(0)
                elif len(found) < self.all.most_arguments(f.name):
                    words.append(o.fresh(self.extended(ty, attrs)))
                    found.append(words[-1])
                else:
                    words.append(o.load(self.layout.reserve((f.name, "arg", spare))))
                    spare += 1
        if f.name in self.layout.group:
            o.range[STACK] = 0, 1 << 20
            found.append(STACK)
        return found

    def extended(self, ty, attrs):
        """The bounds of a parameter, which callers extend."""
        n = self.bits(ty) if self.m.real(ty)[0] in ("int", "ptr") else 32
        if n < 32 and "zeroext" in attrs:
            return 0, (1 << n) - 1
        if n < 32 and "signext" in attrs:
            return -(1 << n - 1), (1 << n - 1) - 1
        return FULL
    # Instructions.

    def instruction(self, i):
        made = getattr(self, "do_" + i.op, None)
        if made is None:
            self.refuse(f"the instruction {i.op} of LLVM")
        found = made(i)
        if i.name and found is not None:
            self.values[i.name] = found

    def do_refused(self, i):
        self.refuse(i.why)
    def do_br(self, i):
        if i.c is None or len(i.to) == 1:
            self.o.goto(self.heads[i.to[0]])
            return
        rel, a, b = self.condition(i.c)
        self.o.branch(rel, a, b, self.heads[i.to[0]], self.heads[i.to[1]])

    def do_switch(self, i):
        n = self.bits(i.ty)
        cases = sorted((k & (1 << n) - 1, to) for k, to in i.cases)
        if n <= 32:
            self.search(self.plain(i.v, i.ty), cases, self.heads[i.default])
            return
        words = self.wide_plain(self.value(i.v, i.ty), n)
        for k, to in cases:
            differ = 0
            for p, w in enumerate(words):
                differ = self.o.op("or", differ, self.o.op("xor", w, k >> 32 * p & M))
            on = self.o.begin()
            self.o.branch("eq", differ, 0, self.heads[to], on)
            self.o.enter(on)
        self.o.goto(self.heads[i.default])

    def search(self, w, cases, default, low=0, high=M):
        """A search by halves of a word between two bounds. Cases that follow one another and lead to one block are one range."""
        o = self.o
        ranges = []
        for k, to in cases:
            if ranges and ranges[-1][1] == k - 1 and ranges[-1][2] == to:
                ranges[-1][1] = k
            else:
                ranges.append([k, k, to])
        if not ranges:
            o.goto(default)
        elif len(ranges) <= 3:
            self.one_by_one(w, ranges, default, low, high)
        else:
            half = len(ranges) // 2
            first, last = o.begin(), o.begin()
            middle = ranges[half][0]
            o.branch("ltu", w, middle, first, last)
            o.enter(first)
            self.search(w, [c for c in cases if c[0] < middle], default, low, middle - 1)
            o.enter(last)
            self.search(w, [c for c in cases if c[0] >= middle], default, middle, high)

    def one_by_one(self, w, ranges, default, low, high):
        o = self.o
        for n, (a, b, to) in enumerate(ranges):
            on = default if n + 1 == len(ranges) else o.begin()
            if (a, b) == (low, high):
                o.goto(self.heads[to])
            elif a == b:
                o.branch("eq", w, a, self.heads[to], on)
            elif a == low:
                o.branch("geu", b, w, self.heads[to], on)
            elif b == high:
                o.branch("geu", w, a, self.heads[to], on)
            else:
                o.branch("geu", b - a, o.op("sub", w, a), self.heads[to], on)
            if a == low:
                low = min(b + 1, M)
            if on is not default:
                o.enter(on)

    def do_unreachable(self, i):
        self.o.put(Step("halt"))
