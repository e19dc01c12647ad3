"""Bits of a word that are counted or change places, and where a sum has overflowed: steps that several intrinsic functions share."""
from ssa import M


def ones(o, x):
    if "popcount" in o.extra:
        return o.one("popcount", x)
    x = o.op("sub", x, o.op("and", o.op("shru", x, 1), 0x55555555))
    x = o.op("add", o.op("and", x, 0x33333333), o.op("and", o.op("shru", x, 2), 0x33333333))
    x = o.op("and", o.op("add", x, o.op("shru", x, 4)), 0x0F0F0F0F)
    return o.op("shru", o.op("mul", x, 0x01010101), 24)


def leading(o, x):
    """How many bits of a word stand above its highest that is 1; 32 of 0."""
    if "clz" in o.extra:
        return o.one("clz", x)
    for k in (1, 2, 4, 8, 16):
        x = o.op("or", x, o.op("shru", x, k))
    return ones(o, o.one("not", x))


def trailing(o, x):
    return ones(o, o.op("and", o.one("not", x), o.op("add", x, M)))


def swapped(o, x, n):
    if n == 16:
        return o.op("or", o.op("shru", x, 8), o.op("and", o.op("shl", x, 8), 0xFF00))
    a = o.op("or", o.op("shl", x, 24), o.op("shru", x, 24))
    b = o.op("shl", o.op("and", x, 0xFF00), 8)
    c = o.op("and", o.op("shru", x, 8), 0xFF00)
    return o.op("or", a, o.op("or", b, c))


def overflow(o, name, a, b, r):
    """A word that is negative where a sum or difference r of signed words has overflowed."""
    if name == "sadd":
        return o.op("and", o.op("xor", r, a), o.op("xor", r, b))
    return o.op("and", o.op("xor", a, b), o.op("xor", r, a))
