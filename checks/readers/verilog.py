"""A reader of the texts of circuits that `rtl` prints: the part of Verilog-2001 that docs/HARDWARE.md names, and no more. It is written
from that grammar alone, and refuses whatever it does not name. `circuit.py` gives what is read a meaning."""
from readers.verilog_expressions import Expressions
from readers.verilog_forms import Function, Instance, Memory, Module, Outside, Refused, Table, Taken


class Reader(Expressions):
    """Reads modules and what they declare."""

    def module(self):
        """Reads a module."""
        self.want("module")
        module, names = Module(self.name()), []
        self.want("(")
        while not self.takes(")"):
            names.append(self.name())
            self.takes(",")
        self.want(";")
        while not self.takes("endmodule"):
            self.declaration(module)
        if list(module.ports) != names:
            raise Refused(f"{module.name}: the ports are declared as {list(module.ports)} and named as {names}")
        return module

    def declaration(self, module):
        """Reads a declaration into a module: by its first word, or as an instance of another module."""
        kinds = {"input": self.port, "output": self.port, "wire": self.wire, "reg": self.register, "function": self.function,
                 "always": self.clocked, "assign": self.assigned, "integer": self.counter, "`include": self.included}
        kind = self.next()
        if kind not in kinds:
            return self.instance(module)
        self.at += 1
        kinds[kind](module, kind)

    def declare(self, module, place, name, what):
        if any(name in it for it in (module.ports, module.wires, module.registers, module.memories, module.functions)):
            raise Refused(f"{module.name}: {name} is declared twice")
        place[name] = what

    def port(self, module, kind):
        width = self.range() if self.next() == "[" else 1
        self.declare(module, module.ports, self.name(), (kind, width))
        self.want(";")

    def counter(self, module, kind):
        self.want("k", ";")

    def wire(self, module, kind):
        width, name = self.range() if self.next() == "[" else 1, self.name()
        word = self.expression() if self.takes("=") else None
        self.declare(module, module.wires, name, (width, word))
        self.want(";")

    def register(self, module, kind):
        """Reads a register or a memory, with how its words begin."""
        width, name = self.range(), self.name()
        if self.takes(";"):
            return self.declare(module, module.registers, name, width)
        self.want("[", "0", ":")
        size = self.number() + 1
        self.want("]", ";", "initial")
        if self.takes("$readmemh"):
            return self.declare(module, module.memories, name, Memory(width, size, {}, self.filled(name)))
        self.want("begin", "`ifndef", "SYNTHESIS", "for", "(", "k", "=", "0", ";", "k", "<")
        # A space of no words stands as one that nothing reaches.
        if self.number() not in ((size,) if size > 1 else (0, 1)):
            raise Refused(f"{name}: not all of its words are set to 0")
        self.want(";", "k", "=", "k", "+", "1", ")", name, "[", "k", "]", "=", f"{width}'d0", ";", "`endif")
        first = {}
        while not self.takes("end"):
            self.want(name, "[")
            address = self.number()
            self.want("]", "=")
            first[address] = self.constant().word
            self.want(";")
        self.declare(module, module.memories, name, Memory(width, size, first, None))

    def filled(self, name):
        """The name of the file that has the words of a memory."""
        self.want("(")
        file = self.matching(r'"(\w+\.hex)"', "a file")[1]
        self.want(",", name, ")", ";")
        return file

    def function(self, module, kind):
        """Reads a function: a table, or an expression."""
        width, name, inputs = self.range(), self.name(), []
        self.want(";")
        while self.takes("input"):
            inputs.append((self.range(), self.name()))
            self.want(";")
        made = self.table(name, width, inputs) if self.takes("case") else self.made(name, width, inputs)
        self.want("endfunction")
        self.declare(module, module.functions, name, made)

    def included(self, module, kind):
        """A file that holds the function of an operation of one's own, of two words."""
        name = self.matching(r'"(\w+)\.v"', "a file")[1]
        self.declare(module, module.functions, f"own_{name}", Outside(32, [(32, "a"), (32, "b")]))

    def table(self, name, width, inputs):
        """Reads the words of a table by their addresses."""
        self.want("(", inputs[0][1], ")")
        words = {}
        while not self.takes("default"):
            address = self.number()
            self.want(":", name, "=")
            words[address] = self.constant().word
            self.want(";")
        self.want(":", name, "=")
        default = self.constant().word
        self.want(";", "endcase")
        return Table(width, inputs, words, default)

    def made(self, name, width, inputs):
        """What a function makes: its variables take their words in order, and then it takes its own."""
        if self.takes(name):
            self.want("=")
            word = self.expression()
            self.want(";")
            return Function(width, inputs, [], word)
        variables, words = [], []
        while self.takes("reg"):
            variables.append((self.range(), self.name()))
            self.want(";")
        self.want("begin")
        for _, variable in variables:
            self.want(variable, "=")
            words.append(self.expression())
            self.want(";")
        self.want(name, "=")
        word = self.expression()
        self.want(";", "end")
        return Function(width, inputs, [(*variable, made) for variable, made in zip(variables, words)], word)

    def clocked(self, module, kind):
        """Reads what a register or a memory takes at a clock."""
        self.want("@", "(", "posedge", "clk", ")", "if", "(")
        enable = self.expression()
        self.want(")")
        name, address = self.name(), None
        if self.takes("["):
            address = self.expression()
            self.want("]")
        self.want("<=")
        module.taken.append(Taken(enable, name, address, self.expression()))
        self.want(";")

    def assigned(self, module, kind):
        """Reads what a port shows."""
        name = self.name()
        self.want("=")
        if name in module.shown:
            raise Refused(f"{module.name}: {name} is assigned twice")
        module.shown[name] = self.expression()
        self.want(";")

    def instance(self, module):
        """Reads an instance of another module."""
        of, stages, joined = self.name(), None, {}
        if self.takes("#"):
            self.want("(", ".", "STAGES", "(")
            stages = self.number()
            self.want(")", ")")
        name = self.name()
        self.want("(")
        while not self.takes(")"):
            self.want(".")
            port = self.name()
            self.want("(")
            joined[port] = None if self.next() == ")" else self.expression()
            self.want(")")
            self.takes(",")
        self.want(";")
        module.instances.append(Instance(of, name, joined, stages))


def modules(text):
    """The modules of a text, by their names."""
    reader, found = Reader(text), {}
    while reader.next():
        module = reader.module()
        if module.name in found:
            raise Refused(f"the module {module.name} stands twice")
        found[module.name] = module
    return found
