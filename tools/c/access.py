"""Loads and stores of data: places, and the words of the data space in which their bytes stand.

Byte k of an object is byte k % cell of its word k // cell, the lowest first, where `cell` is what cells.py chose for its class. A place is
(base, off, class): it is `base * unit + off` bytes from word 0, in bytes as the class counts them (a word is `cell` bytes).

Why each access is right:

 1. Where pointers count words, every base is the begin of a word (cells.py, 1), so the rest of a place is `off % cell`.
 2. Where they count bytes, the rest is known by rests.py, or LLVM promises an alignment that is a multiple of the cell (objects begin at
    words, and at multiples of sixteen bytes where numbers are made of places, so what is promised of the address holds of the place),
    or it is worked out by the run: the word is `byte >> k`, and its part `byte & (cell - 1)`.
 3. `base >> k` is shared by accesses with the same base only where the base cannot be below word 0: a class in which LLVM steps outside
    of objects on the way (`wild`) adds before it shifts.
 4. A store to a part of a word keeps the others. What is stored keeps to the form of the class (`kept`), and what is loaded is masked
    where that form is not sure (`loose`)."""
from math import gcd

from sizes import field_at, offset, size_of
from ssa import FULL, M, STACK, signed


class Access:
    """The part of Lowering that reads and writes data."""

    def place(self, v):
        """A place: a word (in what pointers of its class count), bytes that are added, and its class."""
        n = self.f.name
        if v[0] == "local":
            if v[1] in self.places:
                return self.places[v[1]]
            d = self.memory.defs.get((n, v[1]))
            c = self.memory.of(n, v)
            if d is not None and d.op == "alloca":
                return self.array(n, v[1], c), 0, c
            return self.value(v, ("ptr",))[0], 0, c
        base, off, c = self.layout.place(n, v)
        return base, off, c or self.memory.of(n, v)

    def array(self, n, name, c):
        """Where an array of this function stands: at a fixed word, or in its part of the stack."""
        if (n, name) in self.layout.local:
            return self.layout.local[n, name] * (c.cell // c.unit)
        at = self.o.op("add", STACK, self.layout.stacked[n, name] - self.layout.frame[n] & M)
        return self.o.op("shl", at, (c.cell // c.unit).bit_length() - 1)

    def known_place(self, v):
        """A place that is read or written. One that points to no data can only be the null place, where no run comes."""
        base, off, c = self.place(v)
        if c is None or not c.objects:
            if c is not None and c.bytes or c is not None and c.wild or isinstance(base, int) and base != 0:
                self.refuse("data at a place that is made of a number: tta_load and tta_store take words by address, TTA_AT places data")
            c = c or self.memory.of_key(("nowhere",))
        return base, off, c

    def whole(self, v):
        """A place as one word."""
        base, off, c = self.place(v)
        unit = c.unit if c else 1
        if off % unit and self.memory.rest(self.f.name, v) is not None:
            self.refuse("a place that its class does not count: an error of this tool")
        return self.o.op("add", base, off // unit & M)

    def rest(self, base, off, v, c, more=0):
        """The bytes of a place from the begin of its word, where they are known; the bytes of its base too."""
        if c.unit == c.cell:
            return off % c.cell
        if isinstance(base, int):
            return (base * c.unit + off) % c.cell
        r = self.memory.rest(self.f.name, v)
        if r is not None and r[0] % c.cell == 0:
            return (r[1] + more) % c.cell
        return None

    def cell(self, base, off, c, rest):
        """The address of the word in which a place begins."""
        o = self.o
        if c.unit == c.cell:
            return o.op("add", base, off // c.cell & M)
        if isinstance(base, int):
            return (base + off) // c.cell & M
        k = c.cell.bit_length() - 1
        if rest is not None and not c.wild:
            return o.op("add", o.op("shru", base, k), ((rest - off) % c.cell + off) // c.cell & M)
        return o.op("shru", o.op("add", base, off & M), k)

    def load(self, v, size, align, more=0):
        """The words of `size` bytes at a place, or `more` bytes after it."""
        o = self.o
        base, off, c = self.known_place(v)
        off += more
        rest = self.rest(base, off, v, c, more)
        if rest is None and align % c.cell == 0:
            rest = 0
        if size == c.cell and rest == 0:
            return [self.word_at(self.cell(base, off, c, rest), c)]
        if rest is not None:
            at = self.cell(base, off, c, rest)
            found, done = [0] * -(-size // 4), 0
            while done < size:
                first = (rest + done) % c.cell
                take = min(c.cell - first, size - done, 4 - done % 4)
                w = self.word_at(o.op("add", at, (rest + done) // c.cell), c)
                w = o.op("shru", w, 8 * first) if first else w
                w = o.op("and", w, (1 << 8 * take) - 1) if take < 4 else w
                found[done // 4] = o.op("or", found[done // 4], o.op("shl", w, 8 * (done % 4)))
                done += take
            return found
        if size <= c.cell and align >= size:
            byte = o.op("add", base, off & M)
            w = o.load(o.op("shru", byte, c.cell.bit_length() - 1))
            s = o.op("shl", byte if c.cell == 4 else o.op("and", byte, 1), 3)
            return [o.op("and", o.op("shru", w, s), (1 << 8 * size) - 1)]
        if size == 4 and c.cell == 4:
            byte = o.op("add", base, off & M)
            at = o.op("shru", byte, 2)
            s = o.op("shl", byte, 3)
            low = o.op("shru", o.load(at), s)
            next_ = o.load(o.op("shru", o.op("add", byte, 3), 2))
            return [o.op("or", low, o.op("shl", o.op("shl", next_, 1), o.one("not", s)))]
        found = [0] * -(-size // 4)
        for k in range(size):
            w = self.part(o.op("add", base, off + k & M), c)
            found[k // 4] = o.op("or", found[k // 4], o.op("shl", w, 8 * (k % 4)))
        return found

    def word_at(self, at, c):
        """A word of the class, with the bounds that its form gives."""
        w = self.o.load(at, FULL if c.loose or c.cell == 4 else (-(1 << 8 * c.cell - 1), (1 << 8 * c.cell - 1) - 1) if c.signed
                        else (0, (1 << 8 * c.cell) - 1))
        return self.kept(w, c) if c.loose else w

    def part(self, byte, c):
        """One byte, at a place in bytes."""
        o = self.o
        w = o.load(o.op("shru", byte, c.cell.bit_length() - 1))
        s = o.op("shl", byte if c.cell == 4 else o.op("and", byte, 1), 3)
        return o.op("and", o.op("shru", w, s), 255)

    def store(self, v, words, size, align, more=0):
        o = self.o
        base, off, c = self.known_place(v)
        off += more
        rest = self.rest(base, off, v, c, more)
        if rest is None and align % c.cell == 0:
            rest = 0
        if size == c.cell and rest == 0:
            o.store(self.cell(base, off, c, rest), self.kept(words[0], c))
            return
        if rest is not None:
            at = self.cell(base, off, c, rest)
            done = 0
            while done < size:
                first = (rest + done) % c.cell
                take = min(c.cell - first, size - done, 4 - done % 4)
                w = o.op("shru", words[done // 4], 8 * (done % 4)) if done % 4 else words[done // 4]
                here = o.op("add", at, (rest + done) // c.cell)
                if take == c.cell:
                    o.store(here, self.kept(w, c))
                else:
                    mask = (1 << 8 * take) - 1
                    old = o.op("and", o.load(here), ~(mask << 8 * first) & M)
                    o.store(here, self.kept(o.op("or", old, o.op("shl", o.op("and", w, mask), 8 * first)), c))
                done += take
            return
        if size <= c.cell and align >= size:
            self.store_part(o.op("add", base, off & M), words[0], size, c)
            return
        for k in range(size):
            w = o.op("shru", words[k // 4], 8 * (k % 4)) if k % 4 else words[k // 4]
            self.store_part(o.op("add", base, off + k & M), w, 1, c)

    def store_part(self, byte, w, size, c):
        """Stores the low bytes of a word at a place in bytes, within one word."""
        o = self.o
        at = o.op("shru", byte, c.cell.bit_length() - 1)
        s = o.op("shl", byte if c.cell == 4 else o.op("and", byte, 1), 3)
        old = o.load(at)
        new = o.op("xor", o.op("shru", old, s), w)
        new = o.op("shl", o.op("and", new, (1 << 8 * size) - 1), s)
        o.store(at, self.kept(o.op("xor", old, new), c))

    def kept(self, w, c):
        """A word as a cell of this class holds it."""
        if c.cell == 4:
            return w
        return self.extend(w, 8 * c.cell) if c.signed else self.o.op("and", w, (1 << 8 * c.cell) - 1)

    def do_alloca(self, i):
        base, _, _ = self.place(("local", i.name))
        return [base]

    def do_gep(self, i):
        o = self.o
        base, off, c = self.place(i.p)
        c = c or self.memory.of(self.f.name, ("local", i.name))
        const, more = offset(self.m, i.base, i.index)
        for ty, v, scale in more:
            w = self.with_sign(v, ty) if self.bits(ty) <= 32 else self.value(v, ty)[0]
            d = self.memory.defs.get((self.f.name, v[1])) if v[0] == "local" else None
            exact = d.b[1] if d is not None and d.op == "bin" and d.kind == "shl" and "nsw" in d.marks and d.b[0] == "int" else None
            base = o.op("add", base, self.scaled(w, scale, c, exact))
        off += const
        self.places[i.name] = (base, off, c)
        if self.memory.needed(self.f.name, i.name):
            w = self.whole(("local", i.name))
            self.places[i.name] = (w, 0, c)
            return [w]
        return None

    def scaled(self, w, scale, c, exact):
        """An index times bytes, in what pointers of the class count. Where the index is a shift to the left that has lost no bit, the shift is taken
        back: by its bounds, or as LLVM promises for a shift by `exact` bits, which is no promise of an earlier one that this one was joined with."""
        o = self.o
        if scale % c.unit == 0:
            return o.op("mul", w, scale // c.unit)
        if isinstance(w, int):
            return (signed(w) * scale // c.unit) & M
        made = o.made.get(w) if isinstance(w, str) else None
        if made and made[0] == "shl" and isinstance(made[2], int) and (scale << made[2]) % c.unit == 0 and (exact == made[2] or o.fits(made[1], made[2])):
            return o.op("mul", made[1], (scale << made[2]) // c.unit)
        return o.op("shr", o.op("mul", w, scale), c.unit.bit_length() - 1)

    def fields(self, ty, at=0):
        """The numbers and places of which a type consists, each with its offset."""
        ty = self.m.real(ty)
        if ty[0] == "struct":
            return [x for k, t in enumerate(ty[1]) for x in self.fields(t, at + field_at(self.m, ty, k))]
        if ty[0] == "arr":
            return [x for k in range(ty[1]) for x in self.fields(ty[2], at + k * size_of(self.m, ty[2]))]
        if ty[0] not in ("int", "ptr", "float"):
            self.refuse("vectors" if ty[0] == "vec" else f"values of the type {ty[0]}")
        return [(ty, at)]

    def do_load(self, i):
        found = []
        for ty, at in self.fields(i.ty):
            found += self.load(i.p, -(-self.bits(ty) // 8), i.align if at == 0 else gcd(i.align, at), at)
        return found

    def do_store(self, i):
        words, first = self.value(i.v, i.ty), 0
        for ty, at in self.fields(i.ty):
            n, count = self.bits(ty), self.pieces(ty)
            part = words[first:first + count]
            first += count
            if n % 8:
                part = self.wide_plain(part, n)
            self.store(i.p, part, -(-n // 8), i.align if at == 0 else gcd(i.align, at), at)
