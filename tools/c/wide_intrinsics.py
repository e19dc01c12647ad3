"""The intrinsic functions of LLVM that calculate with numbers of two words."""
import wide
from ssa import M
from word_bits import leading, ones, overflow, swapped, trailing


def wide_extremes(l, kind, args, ty, n):
    a, b = (l.wide_plain(l.value(v, ty), n) if kind[0] == "u" else l.wide_sign(l.value(v, ty), n) for v in args)
    c = wide.truth(l.o, "ltu" if kind[0] == "u" else "lt", a, b)
    rel = "ne" if kind.endswith("min") else "eq"
    return [l.o.select(rel, c, 0, x, y) for x, y in zip(a, b)]


def wide_absolute(l, kind, args, ty, n):
    a = l.wide_sign(l.value(args[0], ty), n)
    s = l.o.op("shr", a[1], 31)
    return wide.sub(l.o, [l.o.op("xor", a[0], s), l.o.op("xor", a[1], s)], [s, s])


def wide_count(l, kind, args, ty, n):
    o = l.o
    a = l.wide_plain(l.value(args[0], ty), n)
    if kind == "ctpop":
        return [o.op("add", ones(o, a[0]), ones(o, a[1])), 0]
    if n != 64:
        l.refuse(f"a count of zeros of {n} bits")
    first, second, f = (a[1], a[0], leading) if kind == "ctlz" else (a[0], a[1], trailing)
    return [o.select("ne", first, 0, f(o, first), o.op("add", f(o, second), 32)), 0]


def wide_swap(l, kind, args, ty, n):
    a = l.value(args[0], ty)
    if n != 64:
        l.refuse(f"a swap of {n} bits")
    return [swapped(l.o, a[1], 32), swapped(l.o, a[0], 32)]


def wide_funnel(l, kind, args, ty, n):
    o = l.o
    a, b, k = (l.value(v, ty) for v in args)
    if n != 64:
        l.refuse(f"a rotation of {n} bits")
    if isinstance(k[0], int):
        left = k[0] % 64 if kind == "fshl" else -k[0] % 64
        if left == 0:
            return a if kind == "fshl" else b
        return wide.bits(o, "or", wide.shift(o, "shl", a, [left, 0]), wide.shift(o, "lshr", b, [64 - left, 0]))
    rest = [o.op("and", o.one("not", k[0]), 63), 0]
    n6 = [o.op("and", k[0], 63), 0]
    if kind == "fshl":
        return wide.bits(o, "or", wide.shift(o, "shl", a, n6), wide.shift(o, "lshr", wide.shift(o, "lshr", b, [1, 0]), rest))
    return wide.bits(o, "or", wide.shift(o, "lshr", b, n6), wide.shift(o, "shl", wide.shift(o, "shl", a, [1, 0]), rest))


def wide_saturated(l, kind, args, ty, n):
    o = l.o
    name = kind.split(".")[0]
    a, b = (l.value(v, ty) for v in args)
    if n != 64 or name[0] != "u":
        l.refuse(f"the function {kind} of LLVM for {n} bits")
    if name == "usub":
        c = wide.truth(o, "ltu", a, b)
        return [o.select("ne", c, 0, 0, x) for x in wide.sub(o, a, b)]
    r = wide.add(o, a, b)
    c = wide.truth(o, "ltu", r, a)
    return [o.select("ne", c, 0, M, x) for x in r]


def wide_checked(l, kind, args, ty, n):
    o = l.o
    name = kind.split(".")[0]
    a, b = (l.value(v, ty) for v in args)
    if n != 64 or name[1:] == "mul":
        l.refuse(f"the function {kind} of LLVM for {n} bits")
    if name[0] == "s":
        r = (wide.add if name == "sadd" else wide.sub)(o, a, b)
        return r + [o.truth("lt", overflow(o, name, a[1], b[1], r[1]), 0)]
    if name == "usub":
        return wide.sub(o, a, b) + [wide.truth(o, "ltu", a, b)]
    r = wide.add(o, a, b)
    return r + [wide.truth(o, "ltu", r, a)]


WIDE = {"umin": wide_extremes, "umax": wide_extremes, "smin": wide_extremes, "smax": wide_extremes, "abs": wide_absolute,
        "ctpop": wide_count, "ctlz": wide_count, "cttz": wide_count, "bswap": wide_swap, "fshl": wide_funnel, "fshr": wide_funnel,
        **{f"{k}.sat": wide_saturated for k in ("uadd", "usub", "sadd", "ssub")},
        **{f"{k}.with": wide_checked for k in ("uadd", "usub", "umul", "sadd", "ssub", "smul")}}
