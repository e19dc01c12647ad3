"""Where the data stand, in words of the data space, and the words of the text's data lines.

 1. Each object has words of its own: no two overlap, and none has the word 0, which is the null place. The arrays of functions are in
    frames.py.
 2. An object begins at a word, so the rest of a place (rests.py) counts from there. Where pointers of its class count bytes it begins at
    a multiple of sixteen bytes, counted as that class counts: LLVM lets data begin so and then masks low bits.
 3. A word that is 0 at the beginning has no data line, so a program rests on it that IN gives no words there. Data that are placed
    are made for such words: their classes are loose (cells.py)."""
from constants import Constants
from frames import EVEN, Frames, up
from ir import Refused
from sizes import field_at, size_of
from ssa import M


class Layout(Constants, Frames):
    """Where the data stand, in words of the data space, and the words of the text's data lines."""

    def __init__(self, module, memory, base):
        self.m, self.memory, self.words, self.at, self.spare = module, memory, {}, {}, {}
        # Of groups of functions: their arrays on the stack, and how many words one step of the stack is a multiple of.
        self.stacked, self.grain, self.stacks = {}, {}, {}
        self.next = self.top = base
        self.ids = {f: k + 1 for k, f in enumerate(sorted(memory.taken))}
        data = list(module.data.values())
        for d in data:
            if d.init is None:
                raise Refused(f"{d.name[1:]} is declared, but no file defines it")
        self.place_data([d for d in data if d.placed is not None])
        for d in sorted((d for d in data if d.placed is None), key=self.cells):
            self.at[d.name] = self.take(self.cells(d), memory.of_key(("g", d.name)))
        self.frames()
        for d in data:
            self.fill(memory.of_key(("g", d.name)), self.at[d.name], 0, d.ty, d.init)

    def place_data(self, placed):
        """Gives data the words that the program asks for."""
        self.fixed = []
        for d in sorted(placed, key=lambda d: d.placed):
            if d.placed == 0:
                raise Refused(f"{d.name[1:]} is placed at word 0, which is the null place")
            if self.fixed and d.placed < self.fixed[-1][1]:
                raise Refused(f"{d.name[1:]} and {self.fixed[-1][2]} both have the word {d.placed} of the data space")
            self.at[d.name] = d.placed
            self.fixed.append((d.placed, d.placed + self.cells(d), d.name[1:]))
            self.top = max(self.top, self.fixed[-1][1])

    def take(self, words, c=None):
        """The first of so many words that nothing else has."""
        at = self.free(self.even(self.next, c) if c else self.next, words, c)
        self.next = at + words
        self.top = max(self.top, self.next)
        return at

    def free(self, at, words, c=None):
        """The first of so many words from one on that no placed data have."""
        for begin, end, _ in self.fixed:
            if at < end and begin < at + words:
                at = self.even(end, c) if c else end
        return at

    def cells(self, d):
        c = self.memory.of_key(("g", d.name))
        return max(1, -(-size_of(self.m, d.ty) // c.cell))

    def even(self, at, c):
        """A word from which data may stand: numbers that are made of places have the bits that LLVM takes for granted."""
        return up(at, EVEN // c.cell) if c.bytes else at

    def reserve(self, key):
        """A word of its own for what does not go through a call."""
        if key not in self.spare:
            self.spare[key] = self.take(1)
        return self.spare[key]

    def address(self, name):
        """The word at which data stand, in what pointers of their class count."""
        c = self.memory.of_key(("g", name))
        return self.at[name] * (c.cell // c.unit)

    def fill(self, c, at, byte, ty, v):
        """The first words of data, from a byte of theirs on."""
        ty = self.m.real(ty)
        if v[0] in ("zero", "undef", "null"):
            return
        if ty[0] == "arr":
            step = size_of(self.m, ty[2])
            if v[0] == "bytes":
                for k, x in enumerate(v[1]):
                    self.put(c, at, byte + k, x, 1)
                return
            for k, (t, x) in enumerate(v[1]):
                self.fill(c, at, byte + k * step, t, x)
        elif ty[0] == "struct":
            for k, (t, x) in enumerate(v[1]):
                self.fill(c, at, byte + field_at(self.m, ty, k), t, x)
        elif ty[0] == "int":
            n = size_of(self.m, ty)
            if v[0] == "int":
                self.put(c, at, byte, v[1] & (1 << ty[1]) - 1, n)
            else:
                self.put(c, at, byte, self.number("", v, ty[1]), n)
        elif ty[0] == "ptr":
            self.put(c, at, byte, self.constant("", v), 4)
        elif ty[0] == "float":
            self.put(c, at, byte, self.float_bits(v, ty), size_of(self.m, ty))
        else:
            raise Refused(f"data of the type {ty[0]}")

    def put(self, c, at, byte, x, n):
        for k in range(n):
            word, part = divmod(byte + k, c.cell)
            self.words[at + word] = self.words.get(at + word, 0) | (x >> 8 * k & 255) << 8 * part

    def lines(self):
        """Address and word of each datum that is not 0."""
        signs = {}
        for d in self.m.data.values():
            c = self.memory.of_key(("g", d.name))
            if c.signed and c.cell < 4:
                for k in range(self.cells(d)):
                    signs[self.at[d.name] + k] = 8 * c.cell
        for a in sorted(self.words):
            w = self.words[a]
            if a in signs and w >> signs[a] - 1:
                w = w - (1 << signs[a]) & M
            if w:
                yield a, w

    def stack(self, one, words):
        """The first word of the stack of a group of functions, which is made when it is asked for: after all other data."""
        if tuple(one) not in self.stacks:
            self.next = up(self.next, EVEN)
            self.stacks[tuple(one)] = self.take(words), words
        return self.stacks[tuple(one)][0]

    def have_room(self, stacks, words, room):
        """Whether so many more stacks of so many words each stand within the first `room` words, each begun as `stack` begins it."""
        at = self.next
        for _ in range(stacks):
            at = self.free(up(at, EVEN), words) + words
        return at <= room
