"""How one instruction of LLVM's text is read.

Flags that make a result undefined (nsw, nuw, inbounds) are kept where something is concluded from them, and are passed over elsewhere,
which is always right. An instruction that no module writes as steps becomes `refused`, with the reason: it is an error only where a
run can come to it."""
from ir import Instruction
from reader import BINARY, CASTS, FLAGS, FLOATING, Reader


class InstructionReader(Reader):
    def instruction(self):
        name = None
        if self.peek(1) == "=" and self.peek().startswith("%"):
            name = self.next()
            self.next()
        marks = self.flags()
        op = self.next()
        made = self.one(op, name, marks)
        while self.i < len(self.t):
            mark = self.next()
            if mark == "!dbg":
                made.at = self.next()
            elif mark == "!tbaa":
                made.tag = self.next()
        return made

    def one(self, op, name, marks):
        read = READ.get(op)
        return read(self, op, name, marks) if read else Instruction("refused", name, why=f"the instruction `{op}` of LLVM")

    # What several instructions have.

    def two(self):
        """Two values of one type, after the type."""
        ty = self.type()
        a = self.value(ty)
        self.need(",")
        return ty, a, self.value(ty)

    def more(self):
        """Whether a comma leads to more of the instruction, and not to a mark of it."""
        if not self.has(","):
            return False
        if self.peek().startswith("!"):
            self.i -= 1
            return False
        return True

    # Arithmetic.

    def binary(self, op, name, marks):
        marks = self.flags()
        ty, a, b = self.two()
        return Instruction("bin", name, ty, kind=op, a=a, b=b, marks=marks)

    def floating(self, op, name, marks):
        self.flags()
        ty, a, b = self.two()
        return Instruction("fbin", name, ty, kind=op, a=a, b=b)

    def compare(self, op, name, marks):
        """icmp or fcmp."""
        self.flags()
        rel = self.next()
        ty, a, b = self.two()
        return Instruction(op, name, ("int", 1), rel=rel, of=ty, a=a, b=b)

    def negate(self, op, name, marks):
        self.flags()
        ty = self.type()
        return Instruction("fneg", name, ty, a=self.value(ty))

    def cast(self, op, name, marks):
        self.flags()
        frm = self.type()
        v = self.value(frm)
        self.need("to")
        return Instruction("cast", name, self.type(), kind=op, frm=frm, a=v)

    # Values that are chosen, or parts of others.

    def select(self, op, name, marks):
        self.flags()
        _, c = self.typed()
        self.need(",")
        ty, a = self.typed()
        self.need(",")
        _, b = self.typed()
        return Instruction("select", name, ty, c=c, a=a, b=b)

    def phi(self, op, name, marks):
        self.flags()
        ty = self.type()
        pairs = []
        while self.has("["):
            v = self.value(ty)
            self.need(",")
            pairs.append((self.next(), v))
            self.need("]")
            if not self.has(","):
                break
        return Instruction("phi", name, ty, pairs=pairs)

    def freeze(self, op, name, marks):
        ty, v = self.typed()
        return Instruction("freeze", name, ty, a=v)

    def item(self, op, name, marks):
        """extractvalue or insertvalue."""
        ty, v = self.typed()
        item = None
        path = []
        if op == "insertvalue":
            self.need(",")
            item = self.typed()
        while self.more():
            path.append(int(self.next()))
        return Instruction(op, name, ty, a=v, of=ty, item=item, path=path)

    # Data.

    def step_within(self, op, name, marks):
        """getelementptr."""
        marks = self.flags()
        base = self.type()
        self.need(",")
        _, p = self.typed()
        index = []
        while self.more():
            self.flags()
            index.append(self.typed())
        return Instruction("gep", name, ("ptr",), base=base, p=p, index=index, inside="inbounds" in marks)

    def load(self, op, name, marks):
        self.has("atomic")
        marks = self.flags()
        ty = self.type()
        self.need(",")
        _, p = self.typed()
        return Instruction("load", name, ty, p=p, align=self.align(), volatile="volatile" in marks)

    def store(self, op, name, marks):
        self.has("atomic")
        marks = self.flags()
        ty, v = self.typed()
        self.need(",")
        _, p = self.typed()
        return Instruction("store", None, ty, v=v, p=p, align=self.align(), volatile="volatile" in marks)

    def alloca(self, op, name, marks):
        self.has("inalloca")
        ty = self.type()
        count = ("int", 1)
        if self.peek() == "," and self.peek(1) != "align" and not self.peek(1).startswith("!"):
            self.next()
            _, count = self.typed()
        return Instruction("alloca", name, ("ptr",), of=ty, count=count)

    def align(self):
        while self.has(","):
            if self.has("align"):
                return int(self.next())
            if self.peek().startswith("!"):
                self.i -= 1
                return 1
            self.next()
        return 1

    def call(self, op, name, marks):
        while self.peek() in ("fastcc", "ccc", "coldcc", "cc") or self.peek() in FLAGS:
            if self.next() == "cc":
                self.next()
        self.param_attrs()
        ty = self.type()
        if ty[0] == "func":
            ty = ty[1]
        if self.peek() == "asm":
            return Instruction("refused", name, ty, why="assembly within C")
        target = self.value(("ptr",))
        self.need("(")
        args = []
        while not self.has(")"):
            one = self.type()
            attrs = self.param_attrs()
            if one == ("metadata",):
                while self.peek() not in (",", ")"):
                    if self.next() == "(":
                        self.i -= 1
                        self.skip_group()
                args.append((one, ("undef",), attrs))
            else:
                args.append((one, self.value(one), attrs))
            self.has(",")
        return Instruction("call", name, ty, target=target, args=args)

    # Where a run goes on.

    def ret(self, op, name, marks):
        ty = self.type()
        return Instruction("ret", None, ty, v=None if ty == ("void",) else self.value(ty))

    def branch(self, op, name, marks):
        if self.has("label"):
            return Instruction("br", c=None, to=[self.next()])
        self.type()
        c = self.value(("int", 1))
        to = []
        while self.has(","):
            if not self.has("label"):
                self.i -= 1
                break
            to.append(self.next())
        return Instruction("br", c=c, to=to)

    def switch(self, op, name, marks):
        ty, v = self.typed()
        self.need(",")
        self.need("label")
        default, cases = self.next(), []
        self.need("[")
        while not self.has("]"):
            _, k = self.typed()
            self.need(",")
            self.need("label")
            cases.append((k[1], self.next()))
        return Instruction("switch", None, ty, v=v, default=default, cases=cases)

    def unreachable(self, op, name, marks):
        return Instruction("unreachable")


# How each instruction is read: a function takes the operation, the name of the result, and the flags before the operation.
READ = {
    **dict.fromkeys(BINARY, InstructionReader.binary), **dict.fromkeys(CASTS, InstructionReader.cast),
    **dict.fromkeys(FLOATING, InstructionReader.floating), **dict.fromkeys(("icmp", "fcmp"), InstructionReader.compare),
    **dict.fromkeys(("extractvalue", "insertvalue"), InstructionReader.item),
    "fneg": InstructionReader.negate, "select": InstructionReader.select, "phi": InstructionReader.phi, "freeze": InstructionReader.freeze,
    "getelementptr": InstructionReader.step_within, "load": InstructionReader.load, "store": InstructionReader.store,
    "alloca": InstructionReader.alloca, "call": InstructionReader.call, "ret": InstructionReader.ret, "br": InstructionReader.branch,
    "switch": InstructionReader.switch, "unreachable": InstructionReader.unreachable,
}
