"""The intrinsic functions of LLVM that calculate, as steps: minimum, rotation, counts of zeros, sums that are checked ..
Those of two words stand in wide_intrinsics.py."""
import copies
import wide
from ssa import M, Step
from wide_intrinsics import WIDE
from word_bits import leading, ones, overflow, swapped, trailing

NOTHING = ("lifetime", "dbg.", "assume", "donothing", "experimental.noalias", "invariant", "prefetch", "var.annotation", "sideeffect")


def lower(l, i, name):
    o = l.o
    if name.startswith(NOTHING):
        return None
    if name.startswith("mem"):
        return copies.lower(l, i, name)
    if name in ("trap", "debugtrap"):
        o.put(Step("halt"))
        o.enter(o.begin())
        return None
    kind = name.split(".")[0] if not name.startswith(("uadd", "usub", "sadd", "ssub", "umul", "smul")) else ".".join(name.split(".")[:2])
    ty = i.args[0][0] if i.args else None
    args = [v for _, v, _ in i.args]
    if kind in ("expect", "launder", "ptrmask", "is", "objectsize") and kind != "expect":
        if name.startswith("is.constant"):
            return [0]
        if name.startswith("is.fpclass") and args[1][0] == "int":
            return [l.float_class(args[1][1], l.form(ty), l.value(args[0], ty))]
        if kind == "objectsize":
            return [0 if args[1] == ("int", 1) else M] * l.pieces(i.ty)
        l.refuse(f"the function {name} of LLVM")
    if kind == "expect":
        return l.value(args[0], ty)
    if ty and l.m.real(ty)[0] == "float":
        return l.float_function(i, kind, args, ty)
    n = l.bits(ty) if ty and l.m.real(ty)[0] in ("int", "ptr") else 0
    if kind in ("scmp", "ucmp") and 0 < n <= 64:
        return three_way(l, kind, args, ty, n, l.pieces(i.ty))
    made = WIDE.get(kind) if n > 32 else WORDS.get(kind)
    if made is None or n == 0 or n > 64:
        l.refuse(f"the function {name} of LLVM")
    return made(l, kind, args, ty, n)


def extremes(l, kind, args, ty, n):
    rel = {"umin": "ltu", "umax": "geu", "smin": "lt", "smax": "ge"}[kind]
    form = l.plain if kind[0] == "u" else l.with_sign
    a, b = form(args[0], ty), form(args[1], ty)
    name = kind[1:]
    if kind[0] == "s" and name in l.o.extra:
        return [l.o.op(name, a, b)]
    if isinstance(a, int):
        a, b = b, a
    return [l.o.select(rel, a, b, a, b)]


def three_way(l, kind, args, ty, n, pieces):
    """1, 0 or -1, as the first of two numbers is greater, equal or less; the result may have another width than they."""
    o, rel = l.o, "ltu" if kind[0] == "u" else "lt"
    if n <= 32:
        form = l.plain if kind[0] == "u" else l.with_sign
        a, b = form(args[0], ty), form(args[1], ty)
        found = o.op("sub", o.truth(rel, b, a), o.truth(rel, a, b))
    else:
        a, b = (l.wide_plain(l.value(v, ty), n) if kind[0] == "u" else l.wide_sign(l.value(v, ty), n) for v in args)
        found = o.op("sub", wide.truth(o, rel, b, a), wide.truth(o, rel, a, b))
    return [found] + [o.op("shr", found, 31)] * (pieces - 1)


def absolute(l, kind, args, ty, n):
    a = l.with_sign(args[0], ty)
    s = l.o.op("shr", a, 31)
    return [l.o.op("sub", l.o.op("xor", a, s), s)]


def count_ones(l, kind, args, ty, n):
    return [ones(l.o, l.plain(args[0], ty))]


def zeros(l, kind, args, ty, n):
    o = l.o
    if kind == "ctlz":
        return [o.op("sub", leading(o, l.plain(args[0], ty)), 32 - n)]
    w = l.word(args[0], ty)
    return [trailing(o, w if n == 32 else o.op("or", w, 1 << n))]


def swap(l, kind, args, ty, n):
    return [swapped(l.o, l.plain(args[0], ty), n)]


def reverse(l, kind, args, ty, n):
    o = l.o
    x = l.plain(args[0], ty)
    if "bitrev" in o.extra:
        x = o.one("bitrev", x)
    else:
        for k, m in ((1, 0x55555555), (2, 0x33333333), (4, 0x0F0F0F0F)):
            x = o.op("or", o.op("and", o.op("shru", x, k), m), o.op("shl", o.op("and", x, m), k))
        x = swapped(o, x, 32)
    return [o.op("shru", x, 32 - n)]


def funnel(l, kind, args, ty, n):
    """The high (fshl) or low (fshr) word of two words side by side, shifted."""
    o = l.o
    k = l.word(args[2], ty)
    if n != 32:
        a, b = l.plain(args[0], ty), l.plain(args[1], ty)
        if not isinstance(k, int):
            if n not in (8, 16):
                l.refuse(f"a rotation of {n} bits by a number that is no constant")
            k = o.op("and", l.plain(args[2], ty), n - 1)
            both = o.op("or", o.op("shl", a, n), b)
            return [o.op("shru", o.op("shl", both, k), n) if kind == "fshl" else o.op("shru", both, k)]
        k %= n
        if k == 0:
            return [a if kind == "fshl" else b]
        left = k if kind == "fshl" else n - k
        return [o.op("or", o.op("shl", a, left), o.op("shru", b, n - left))]
    a, b = l.word(args[0], ty), l.word(args[1], ty)
    if a == b and "rotl" in o.extra:
        return [o.op("rotl", a, k if kind == "fshl" else (-k & 31 if isinstance(k, int) else o.one("neg", k)))]
    if isinstance(k, int):
        k &= 31
        if k == 0:
            return [a if kind == "fshl" else b]
        left = k if kind == "fshl" else 32 - k
        return [o.op("or", o.op("shl", a, left), o.op("shru", b, 32 - left))]
    if a == b:
        first, second = ("shl", "shru") if kind == "fshl" else ("shru", "shl")
        return [o.op("or", o.op(first, a, k), o.op(second, a, o.one("neg", k)))]
    rest = o.one("not", k)
    if kind == "fshl":
        return [o.op("or", o.op("shl", a, k), o.op("shru", o.op("shru", b, 1), rest))]
    return [o.op("or", o.op("shru", b, k), o.op("shl", o.op("shl", a, 1), rest))]


def saturated(l, kind, args, ty, n):
    o = l.o
    name = kind.split(".")[0]
    most, least = (1 << n) - 1, 0
    if name[0] == "u":
        a, b = l.plain(args[0], ty), l.plain(args[1], ty)
        if name == "usub":
            return [o.select("ltu", a, b, 0, o.op("sub", a, b))]
        r = o.op("add", a, b)
        return [o.select("ltu", r, a, M, r) if n == 32 else o.select("geu", r, most, most, r)]
    a, b = l.with_sign(args[0], ty), l.with_sign(args[1], ty)
    r = o.op(name[1:], a, b)
    if n < 32:
        least, most = 1 << n - 1, (1 << n - 1) - 1
        r = o.select("lt", r, -least & M, -least & M, r)
        return [o.select("ge", r, most, most, r)]
    end = o.op("xor", o.op("shr", a, 31), 0x7FFFFFFF)
    return [o.select("lt", overflow(o, name, a, b, r), 0, end, r)]


def checked(l, kind, args, ty, n):
    """The result, and 1 where it has overflowed."""
    o = l.o
    name = kind.split(".")[0]
    if name[0] == "u":
        a, b = l.plain(args[0], ty), l.plain(args[1], ty)
        if name == "umul":
            r = o.op("mul", a, b)
            return [r, o.truth("ne", o.op("mulhu", a, b), 0) if n == 32 else o.truth("gtu", r, (1 << n) - 1)] if n in (32, 16, 8) \
                else l.refuse("a checked product of this width")
        r = o.op(name[1:], a, b)
        if name == "usub":
            return [r, o.truth("ltu", a, b)]
        return [r, o.truth("ltu", r, a) if n == 32 else o.truth("gtu", r, (1 << n) - 1)]
    a, b = l.with_sign(args[0], ty), l.with_sign(args[1], ty)
    if name == "smul":
        r = o.op("mul", a, b)
        if n <= 16:
            return [r, o.truth("ne", r, l.extend(r, n))]
        hi = o.op("mulhu", a, b)
        hi = o.op("sub", hi, o.op("and", o.op("shr", a, 31), b))
        hi = o.op("sub", hi, o.op("and", o.op("shr", b, 31), a))
        over = o.truth("ne", hi, o.op("shr", r, 31))
        return [r, over if n == 32 else o.op("or", over, o.truth("ne", r, l.extend(r, n)))]
    r = o.op(name[1:], a, b)
    if n < 32:
        return [r, o.truth("ne", r, l.extend(r, n))]
    return [r, o.truth("lt", overflow(o, name, a, b, r), 0)]


WORDS = {"umin": extremes, "umax": extremes, "smin": extremes, "smax": extremes, "abs": absolute, "ctpop": count_ones, "ctlz": zeros,
         "cttz": zeros, "bswap": swap, "bitreverse": reverse, "fshl": funnel, "fshr": funnel,
         **{f"{k}.sat": saturated for k in ("uadd", "usub", "sadd", "ssub")},
         **{f"{k}.with": checked for k in ("uadd", "usub", "umul", "sadd", "ssub", "smul")}}
