"""What LLVM's text is read to: types, values, instructions, blocks, functions and data.

A type is a tuple: ("int", BITS), ("ptr",), ("arr", N, TYPE), ("struct", (TYPE, ..), PACKED), ("void",), ("func", RESULT, PARAMETERS),
("float", NAME), ("vec", N, TYPE), ("named", NAME) or ("opaque",). A value is ("local", NAME), ("global", NAME), ("int", N), ("float",
TEXT), ("null",), ("undef",), ("zero",), ("agg", ((TYPE, VALUE), ..)), ("bytes", B) or ("expr", OP, ..).

All pointers are of the one type ("ptr",), whether the text has typed pointers or not: what an access reads or writes is said by the
access. A block's last instruction, and no other, says where a run goes on."""


class Refused(Exception):
    """What the tool does not take, with the place in the source where it stands."""

    def __init__(self, text, where=None):
        super().__init__(text)
        self.text, self.where = text, where


class Instruction:
    """One instruction: its operation, the name of its result, that result's type, and what the operation has."""

    def __init__(self, op, name=None, ty=("void",), **have):
        self.op, self.name, self.ty, self.at, self.tag = op, name, ty, None, None
        self.__dict__.update(have)


class Block:
    def __init__(self, name):
        self.name, self.body = name, []

    def targets(self):
        end = self.body[-1]
        if end.op == "br":
            return list(dict.fromkeys(end.to))
        if end.op == "switch":
            return list(dict.fromkeys([end.default] + [to for _, to in end.cases]))
        return []


class Function:
    def __init__(self, name, result, params, attrs, variadic):
        self.name, self.result, self.params, self.attrs, self.variadic = name, result, params, attrs, variadic
        self.blocks, self.dbg = [], None


class Data:
    def __init__(self, name, ty, init, constant):
        self.name, self.ty, self.init, self.constant = name, ty, init, constant
        # The word of the data space that the program asks for.
        self.placed = None


class Any:
    """A use that is not looked at further: one within a constant expression."""
    op = None



def parts(v):
    """The values within a constant expression."""
    if v[0] != "expr":
        return []
    if v[1] == "gep":
        return [v[3]] + [x for _, x in v[4]] + parts(v[3])
    if v[1] == "cast":
        return [v[4]] + parts(v[4])
    return [x for _, x in v[4]] + [y for _, x in v[4] for y in parts(x)]


def operands(i):
    """The values that an instruction uses."""
    if i.op in ("bin", "icmp", "fbin", "fcmp"):
        return [i.a, i.b]
    if i.op in ("cast", "freeze", "extractvalue", "fneg"):
        return [i.a]
    if i.op == "insertvalue":
        return [i.a, i.item[1]]
    if i.op == "select":
        return [i.c, i.a, i.b]
    if i.op == "phi":
        return [v for _, v in i.pairs]
    if i.op == "gep":
        return [i.p] + [v for _, v in i.index]
    if i.op == "load":
        return [i.p]
    if i.op == "store":
        return [i.v, i.p]
    if i.op == "call":
        return [i.target] + [v for _, v, _ in i.args]
    if i.op == "ret":
        return [i.v] if i.v else []
    if i.op == "br":
        return [i.c] if i.c else []
    if i.op == "switch":
        return [i.v]
    if i.op == "alloca":
        return [i.count]
    return []


def count_of(i):
    """How many items an array on the stack has."""
    if i.count[0] != "int":
        raise Refused("an array whose length is known only as the program runs", i.at)
    return i.count[1]
