"""Copies and fills of data: `memcpy`, `memmove` and `memset` of LLVM.

Both places of a copy have one class (classes.py, 2). Where both stand at the begin of a word, and the number of bytes is a multiple of the
cell, words are copied, and otherwise bytes. Few are copied one after another, all loaded before the first is stored, so that places which
overlap are copied as `memmove` asks; many in a loop, which goes downwards where a later place comes first."""
from ssa import M

UNROLLED = 8


def lower(l, i, name):
    """memcpy, memmove or memset as steps."""
    o = l.o
    kind = name.split(".")[0]
    to, second, length = i.args[0][1], i.args[1][1], i.args[2][1]
    count = l.value(length, i.args[2][0])[0]
    if count == 0:
        return None
    base, off, c = l.known_place(to)
    n = l.f.name
    zero = l.memory.zeros(n, length)
    whole = (1 << min(zero, 8)) % c.cell == 0 and l.rest(base, off, to, c) == 0
    if kind == "memset":
        return fill(l, to, l.plain(second, i.args[1][0]), count, c, whole)
    b2, o2, c2 = l.known_place(second)
    if c2 is not c:
        l.refuse(f"{kind} between places of two classes: an error of this tool")
    whole = whole and l.rest(b2, o2, second, c) == 0
    return copy(l, kind, [start(l, v, c, whole) for v in (to, second)], count, c, whole)


def start(l, v, c, whole):
    """Where a copy begins: the address of a word, or the number of a byte."""
    base, off, _ = l.place(v)
    if whole:
        return l.cell(base, off, c, 0)
    return l.o.op("add", l.o.op("shl", base, c.unit.bit_length() - 1), off & M)


def words_of(l, count, c, whole):
    if not whole:
        return count
    return count // c.cell if isinstance(count, int) else l.o.op("shru", count, c.cell.bit_length() - 1)


def fill(l, to, byte, count, c, whole):
    o = l.o
    w = byte
    if whole:
        w = o.op("mul", byte, {1: 1, 2: 0x0101, 4: 0x01010101}[c.cell])
        w = l.kept(w, c)
    at, n = start(l, to, c, whole), words_of(l, count, c, whole)
    put = (lambda a: o.store(a, w)) if whole else (lambda a: l.store_part(a, w, 1, c))
    if isinstance(n, int) and n <= UNROLLED:
        for k in range(n):
            put(o.op("add", at, k))
        return None
    loop(l, n, [at], lambda places: put(places[0]))


def copy(l, kind, starts, count, c, whole):
    """Words or bytes from the second of two begins, put at the first."""
    o, (a, b) = l.o, starts
    n = words_of(l, count, c, whole)
    get = (lambda x: o.load(x)) if whole else (lambda x: l.part(x, c))
    put = (lambda x, w: o.store(x, w)) if whole else (lambda x, w: l.store_part(x, w, 1, c))
    if isinstance(n, int) and n <= UNROLLED:
        found = [get(o.op("add", b, k)) for k in range(n)]
        for k, w in enumerate(found):
            put(o.op("add", a, k), w)
        return None
    if kind == "memmove":
        up, down, end = o.begin(), o.begin(), o.begin()
        o.branch("geu", b, a, up, down)
        o.enter(down)
        loop(l, n, [o.op("add", a, n), o.op("add", b, n)], lambda p: put(p[0], get(p[1])), backward=True)
        o.goto(end)
        o.enter(up)
        loop(l, n, [a, b], lambda p: put(p[0], get(p[1])))
        o.goto(end)
        o.enter(end)
        return None
    loop(l, n, [a, b], lambda p: put(p[0], get(p[1])))


def loop(l, n, places, body, backward=False):
    """Carries out a body n times, each time one further."""
    o = l.o
    turn, end = o.begin(), o.begin()
    before = o.block
    stop = o.op("sub" if backward else "add", places[0], n)
    o.branch("eq", n, 0, end, turn)
    o.enter(turn)
    now = [o.fresh() for _ in places]
    entries = [[d, {before.name: p}] for d, p in zip(now, places)]
    turn.phis += entries
    if backward:
        next_ = [o.op("add", d, M) for d in now]
        body(next_)
    else:
        body(now)
        next_ = [o.op("add", d, 1) for d in now]
    for (d, come), x in zip(entries, next_):
        come[turn.name] = x
    o.branch("ne", next_[0], stop, turn, end)
    o.enter(end)
