"""Sizes and places within data, in bytes, of a processor with words of 32 bits (LLVM's layout of riscv32, ilp32)."""
from ir import Refused


def align_of(m, ty):
    ty = m.real(ty)
    if ty[0] == "int":
        n = 1
        while n * 8 < ty[1] and n < 8:
            n *= 2
        return n
    if ty[0] == "ptr":
        return 4
    if ty[0] == "float":
        return {"float": 4, "double": 8, "half": 2}.get(ty[1], 8)
    if ty[0] in ("arr", "vec"):
        return align_of(m, ty[2])
    if ty[0] == "struct":
        return 1 if ty[2] else max([align_of(m, x) for x in ty[1]], default=1)
    raise Refused(f"a type without size: {ty[0]}")


def size_of(m, ty):
    """The bytes of a type, those that fill it up to its alignment among them."""
    if ty not in m.sizes:
        m.sizes[ty] = sum_of(m, m.real(ty))
    return m.sizes[ty]


def sum_of(m, ty):
    if ty[0] == "int":
        return -(-((ty[1] + 7) // 8) // align_of(m, ty)) * align_of(m, ty)
    if ty[0] == "ptr":
        return 4
    if ty[0] == "float":
        return align_of(m, ty)
    if ty[0] in ("arr", "vec"):
        return ty[1] * size_of(m, ty[2])
    if ty[0] == "struct":
        at = 0
        for x in ty[1]:
            if not ty[2]:
                at = -(-at // align_of(m, x)) * align_of(m, x)
            at += size_of(m, x)
        return -(-at // align_of(m, ty)) * align_of(m, ty)
    raise Refused(f"a type without size: {ty[0]}")


def field_at(m, ty, k):
    """The offset of field k of a structure."""
    if ty not in m.fields:
        at, found = 0, []
        for x in ty[1]:
            if not ty[2]:
                at = -(-at // align_of(m, x)) * align_of(m, x)
            found.append(at)
            at += size_of(m, x)
        m.fields[ty] = found
    if not 0 <= k < len(ty[1]):
        raise Refused("a field that is not there")
    return m.fields[ty][k]


def offset(m, base, index):
    """What a list of indices adds: a number of bytes, and pairs of a value with the bytes that it counts."""
    const, parts = 0, []
    ty = base
    for n, (ity, v) in enumerate(index):
        if n == 0:
            scale = size_of(m, ty)
        else:
            ty = m.real(ty)
            if ty[0] == "struct":
                k = 0 if v == ("zero",) else v[1]
                const += field_at(m, ty, k)
                ty = ty[1][k]
                continue
            ty = ty[2]
            scale = size_of(m, ty)
        if v[0] == "int":
            const += v[1] * scale
        elif v[0] not in ("zero", "undef"):
            parts.append((ity, v, scale))
    # Places are counted modulo 2^32.
    return (const + (1 << 31)) % (1 << 32) - (1 << 31), parts
