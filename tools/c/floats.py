"""Floating point as calls of the functions of float.c, which calculate with words of integers.

A float is one word and a double is two, the low one first: their bits as IEEE 754 lays them out. Copies, signs and absolute values are steps
that look at bits alone. All else is rounded to the nearest, to even where two are as near; what is no number has other bits than it might have
elsewhere, and sums are not joined to products. `needed` tells which functions a text needs, before its steps are written."""
import re

from ssa import M

FORMATS = {"float": "f32", "double": "f64"}
# Of LLVM's own functions: those of float.c with the same name, and others that they come down to.
FUNCTIONS = {"sqrt": "sqrt", "floor": "floor", "ceil": "ceil", "trunc": "trunc", "rint": "rint", "nearbyint": "rint", "roundeven": "rint", "round": "round"}
# A relation: which function decides it, whether the two words change places, whether the answer is turned round.
RELATIONS = {"oeq": ("eq", 0, 0), "une": ("eq", 0, 1), "olt": ("lt", 0, 0), "ogt": ("lt", 1, 0), "ole": ("le", 0, 0), "oge": ("le", 1, 0), "uge": ("lt", 0, 1),
             "ule": ("lt", 1, 1), "ugt": ("le", 0, 1), "ult": ("le", 1, 1), "uno": ("un", 0, 0), "ord": ("un", 0, 1)}
TYPE = r"(float|double)"
BETWEEN = re.compile(rf" (fadd|fsub|fmul|fdiv|frem) (?:[a-z]+ )*{TYPE} ")
COMPARED = re.compile(rf" fcmp (?:(?:fast|nnan|ninf|nsz|arcp|contract|afn|reassoc) )*([a-z]+) {TYPE} ")
CAST = re.compile(r" (fptrunc|fpext|fptoui|fptosi|uitofp|sitofp) (?:(?:nneg|fast|nnan|ninf|nsz|arcp|contract|afn|reassoc) )*(\w+) .*? to (\w+)")
CALLED = re.compile(r"@llvm\.(\w+)\.(f32|f64)\(")


def needed(text):
    """The functions of float.c that the steps of a text call, without their common head."""
    for op, ty in BETWEEN.findall(text):
        yield f"{op[1:]}_{FORMATS[ty]}"
    for rel, ty in COMPARED.findall(text):
        for name in ["lt"] if rel == "one" else ["lt", "un"] if rel == "ueq" else [RELATIONS[rel][0]] if rel in RELATIONS else []:
            yield f"{name}_{FORMATS[ty]}"
    for op, frm, to in CAST.findall(text):
        if frm in FORMATS and to in FORMATS or op in ("fptoui", "fptosi") and frm in FORMATS and to[0] == "i" or op in ("uitofp", "sitofp") and to in FORMATS and frm[0] == "i":
            yield cast_name(op, frm, to)
    for name, form in CALLED.findall(text):
        if name in FUNCTIONS:
            yield f"{FUNCTIONS[name]}_{form}"
        if name in ("minnum", "maxnum"):
            yield from (f"lt_{form}", f"un_{form}")


def cast_name(op, frm, to):
    """The function of a cast between types that are written as LLVM does; narrow integers are taken as those of 32 bits."""
    wide = lambda ty: "64" if int(ty[1:]) > 32 else "32"
    if op in ("fptrunc", "fpext"):
        return f"{FORMATS[to]}_of_{FORMATS[frm]}"
    if op in ("fptoui", "fptosi"):
        return f"to_{op[4]}{wide(to)}_{FORMATS[frm]}"
    return f"of_{op[0]}{wide(frm)}_{FORMATS[to]}"


class Floats:
    """The part of Lowering that takes floating point."""

    def form(self, ty):
        ty = self.m.real(ty)
        if ty[0] != "float" or ty[1] not in FORMATS:
            self.refuse("vectors" if ty[0] == "vec" else f"floating point of the type {ty[-1]}")
        return FORMATS[ty[1]]

    def do_fbin(self, i):
        form = self.form(i.ty)
        return self.run_time(f"{i.kind[1:]}_{form}", [*self.value(i.a, i.ty), *self.value(i.b, i.ty)], self.pieces(i.ty))

    def do_fneg(self, i):
        self.form(i.ty)
        *low, top = self.value(i.a, i.ty)
        return [*low, self.o.op("xor", top, 1 << 31)]

    def do_fcmp(self, i):
        form = self.form(i.of)
        if i.rel in ("true", "false"):
            return [int(i.rel == "true")]
        return [self.related(i.rel, form, self.value(i.a, i.of), self.value(i.b, i.of))]

    def related(self, rel, form, a, b):
        """1 where a relation of two numbers holds, else 0."""
        o, ask = self.o, lambda name, a, b: self.truth_of(f"{name}_{form}", [*a, *b])
        if rel == "one":
            return o.op("or", ask("lt", a, b), ask("lt", b, a))
        if rel == "ueq":
            return o.op("xor", o.op("or", ask("lt", a, b), ask("lt", b, a)), 1)
        name, changed, turned = RELATIONS[rel]
        found = ask(name, b, a) if changed else ask(name, a, b)
        return o.op("xor", found, 1) if turned else found

    def truth_of(self, name, words):
        [found] = self.run_time(name, words, 1)
        self.o.range[found] = 0, 1
        return found

    def float_class(self, mask, form, words):
        """1 where a number is of one of the classes of a mask: from bit 0 on no number (two kinds), then below zero from the infinite to zero,
        and above zero from zero to the infinite; else 0."""
        o, (*low, top), found = self.o, words, 0
        normal, infinite, quiet = (0x00800000, 0x7F800000, 0x7FC00000) if form == "f32" else (0x00100000, 0x7FF00000, 0x7FF80000)
        size = o.op("and", top, M >> 1)
        rest = low[0] if low else 0
        both = lambda *x: x[0] if len(x) == 1 else o.op("and", x[0], both(*x[1:]))
        some = o.truth("ne", rest, 0)
        is_zero, is_infinite = o.truth("eq", o.op("or", size, rest), 0), both(o.truth("eq", size, infinite), o.op("xor", some, 1))
        is_none = both(o.truth("geu", size, infinite), o.op("xor", is_infinite, 1))
        is_quiet = o.truth("geu", size, quiet)
        tests = [(1 << 0, 1 << 0, both(is_none, o.op("xor", is_quiet, 1))), (1 << 1, 1 << 1, is_quiet), (1 << 2, 1 << 9, is_infinite),
                 (1 << 3, 1 << 8, both(o.truth("geu", size, normal), o.truth("ltu", size, infinite))),
                 (1 << 4, 1 << 7, both(o.truth("ltu", size, normal), o.op("xor", is_zero, 1))), (1 << 5, 1 << 6, is_zero)]
        sign = o.op("shru", top, 31)
        for below, above, test in tests:
            if mask & below and mask & above:
                found = o.op("or", found, test)
            elif mask & (below | above):
                found = o.op("or", found, both(test, sign if mask & below else o.op("xor", sign, 1)))
        return found

    def float_cast(self, i):
        o, k = self.o, i.kind
        frm, to = self.m.real(i.frm), self.m.real(i.ty)
        text = lambda ty: ty[1] if ty[0] == "float" else f"i{ty[1]}" if ty[0] == "int" else self.refuse("vectors")
        if {frm[0], to[0]} - {"int", "float"}:
            self.refuse("vectors")
        for ty in (frm, to):
            if ty[0] == "float":
                self.form(ty)
            elif ty[1] > 64:
                self.refuse(f"a change between floating point and integers of {ty[1]} bits")
        words = self.value(i.a, i.frm)
        if frm[0] == "int" and frm[1] < 32:
            words = [self.plain(i.a, frm) if k == "uitofp" else self.with_sign(i.a, frm)]
        elif frm[0] == "int" and 32 < frm[1] < 64:
            words = self.wide_plain(words, frm[1]) if k == "uitofp" else self.wide_sign(words, frm[1])
        made = self.run_time(cast_name(k, text(frm), text(to)), words, self.pieces(i.ty))
        return [o.op("and", made[0], 1)] if to == ("int", 1) else made

    def float_function(self, i, name, args, ty):
        """One of LLVM's own functions of floating point."""
        o, form = self.o, self.form(ty)
        *low, top = self.value(args[0], ty)
        if name == "fabs":
            return [*low, o.op("and", top, M >> 1)]
        if name == "copysign":
            sign = self.value(args[1], ty)[-1]
            return [*low, o.op("or", o.op("and", top, M >> 1), o.op("and", sign, 1 << 31))]
        if name in ("minnum", "maxnum"):
            a, b = self.value(args[0], ty), self.value(args[1], ty)
            first, second = (a, b) if name == "minnum" else (b, a)
            less = self.truth_of(f"lt_{form}", [*first, *second])
            chosen = [o.select("ne", less, 0, x, y) for x, y in zip(a, b)]
            return [o.select("ne", self.truth_of(f"un_{form}", [*b, *b]), 0, x, y) for x, y in zip(a, chosen)]
        if name in FUNCTIONS:
            return self.run_time(f"{FUNCTIONS[name]}_{form}", [*low, top], self.pieces(ty))
        self.refuse(f"the function {name} of LLVM on floating point")
