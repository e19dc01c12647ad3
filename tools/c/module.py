"""All of a text of LLVM: named types, data, functions, and the marks that tell where something stands in the source."""
import re

from instructions import InstructionReader
from ir import Block, Data, Function, Refused
from reader import LINKAGE


class Module:
    """All of a text."""

    def __init__(self, text):
        self.types, self.data, self.functions, self.declared, self.meta, self.aliases = {}, {}, {}, {}, {}, {}
        # Sizes of types, and where the fields of structures stand, as they are asked for (sizes.py).
        self.sizes, self.fields = {}, {}
        lines = text.split("\n")
        at = 0
        while at < len(lines):
            line = lines[at]
            at += 1
            if not line or line[0] in ";":
                continue
            if line[0] == "%":
                r = InstructionReader(self, line)
                name = r.next()
                r.need("=")
                r.need("type")
                self.types[name] = r.type()
            elif line[0] == "@":
                self.global_line(line)
            elif line.startswith("declare"):
                f = self.head(line)
                self.declared[f.name] = f
            elif line.startswith("define"):
                f = self.head(line)
                begin = at
                while lines[at] != "}":
                    at += 1
                self.body(f, lines[begin:at])
                at += 1
                self.functions[f.name] = f
            elif line[0] == "!":
                got = re.match(r"(!\d+) = (.*)", line)
                if got:
                    self.meta[got[1]] = got[2]

    def global_line(self, line):
        r = InstructionReader(self, line)
        name = r.next()
        if name.startswith("@llvm."):
            return
        r.need("=")
        while r.peek() not in ("global", "constant", "alias", "ifunc"):
            if r.next() == "":
                raise Refused(f"a line of data that cannot be read: {line[:100]}")
            if r.peek() == "(":
                r.skip_group()
        kind = r.next()
        ty = r.type()
        if kind == "alias":
            r.need(",")
            _, self.aliases[name] = r.typed()
            return
        if kind == "ifunc":
            raise Refused(f"an indirect function {name}")
        init = None
        if r.peek() not in ("", ",") and not line.split(" = ")[1].startswith(("external", "extern_weak")):
            init = r.value(ty)
        d = Data(name, ty, init, kind == "constant")
        got = re.search(r', section "tta\.at\.([^"]*)"', line)
        if got:
            d.placed = self.address(got[1], name)
        self.data[name] = d

    def address(self, text, name):
        """The address that TTA_AT gives."""
        try:
            return int(re.sub(r"[uUlL]*$", "", text), 0)
        except ValueError:
            raise Refused(f"the place of {name[1:]} is no number: {text}")

    def head(self, line):
        r = InstructionReader(self, line)
        r.next()
        while True:
            if r.peek() in LINKAGE or r.peek() in ("fastcc", "ccc", "coldcc"):
                r.next()
            elif r.peek().startswith("!"):
                r.i += 2
            elif r.peek() in ("signext", "zeroext", "noundef", "nonnull", "noalias", "align", "dereferenceable", "inreg", "range"):
                r.param_attrs()
            else:
                break
        result = r.type()
        name = r.next()
        r.need("(")
        params, variadic, count = [], False, 0
        while not r.has(")"):
            if r.has("..."):
                variadic = True
                continue
            ty = r.type()
            attrs = r.param_attrs()
            pname = r.next() if r.peek().startswith("%") else f"%{count}"
            count += 1
            params.append((pname, ty, attrs))
            r.has(",")
        f = Function(name, result, params, set(), variadic)
        got = re.search(r"!dbg (!\d+)", line)
        f.dbg = got[1] if got else None
        return f

    def body(self, f, lines):
        count = len([p for p in f.params])
        block = None
        at = 0
        while at < len(lines):
            line = lines[at]
            at += 1
            if not line.strip() or line.strip().startswith(";"):
                continue
            got = re.match(r'("[^"]*"|[-a-zA-Z$._0-9]+):', line)
            if got:
                block = Block("%" + got[1])
                f.blocks.append(block)
                continue
            if block is None:
                block = Block(f"%{count}")
                f.blocks.append(block)
            if line.lstrip().startswith("switch") and "]" not in line:
                while "]" not in lines[at]:
                    line += "\n" + lines[at]
                    at += 1
                line += "\n" + lines[at]
                at += 1
            block.body.append(InstructionReader(self, line).instruction())

    def real(self, ty):
        """A type without its name."""
        while ty[0] == "named":
            if ty[1] not in self.types:
                raise Refused(f"a type without a body: {ty[1]}")
            ty = self.types[ty[1]]
        return ty

    def is_any_type(self, i):
        """Whether an access may be to data of any type, as those of unions and of characters are."""
        tag = re.match(r"!{(!\d+), (!\d+), ", self.meta.get(i.tag or "", ""))
        return not tag or any(x in self.meta.get(tag[2], "") for x in ('"omnipotent char"', '"any pointer"'))

    # Where things stand in the source.

    def place(self, at):
        """FILE:LINE of a mark, or nothing."""
        text = self.meta.get(at or "", "")
        line = re.search(r"line: (\d+)", text)
        scope = text
        for _ in range(40):
            file = re.search(r"\bfile: (!\d+)", scope)
            if file:
                named = re.search(r'filename: "([^"]*)"', self.meta.get(file[1], ""))
                return f"{named[1]}:{line[1]}" if named and line else None
            up = re.search(r"scope: (!\d+)", scope)
            if not up:
                return None
            scope = self.meta.get(up[1], "")
        return None
