"""What a circuit does, clock by clock, by the text that `verilog.py` has read: each expression is a word of so many bits, unsigned, by the
rules of IEEE 1364-2001 (5.4, 5.5) for its width and that of its place. What Verilog leaves unknown is made by chance here: the words of
registers when the power comes, and those behind the end of a memory."""
import re
import sys

from readers.beside import beside
from readers.verilog_forms import Binary, Call, Constant, Invert, Join, Name, Not, Outside, Part, Read, Refused, Repeat, Select, Table

sys.setrecursionlimit(20_000)
TESTS = {"==": "==", "!=": "!=", "<": "<", ">": ">"}
LOGIC = {"&&": "and", "||": "or"}


def ones(width):
    return (1 << width) - 1


class Words:
    """The code, in Python, of the expressions of one module or function, and the widths of their names."""

    def __init__(self, widths, module, plain):
        self.widths, self.module, self.plain = widths, module, plain

    def width(self, e):
        """How many bits an expression has by itself."""
        kind = type(e)
        if kind in (Constant, Part):
            return e.width
        if kind is Name:
            if e.name not in self.widths:
                raise Refused(f"{e.name} is read before it stands")
            return self.widths[e.name]
        if kind is Read:
            return self.module.memories[e.memory].width
        if kind is Call:
            return self.module.functions[e.function].width
        if kind is Join:
            return sum(map(self.width, e.parts))
        if kind is Repeat:
            return e.times * self.width(e.part)
        if kind is Not or kind is Binary and (e.sign in TESTS or e.sign in LOGIC):
            return 1
        if kind is Invert:
            return self.width(e.word)
        if kind is Select:
            return max(self.width(e.on), self.width(e.off))
        return self.width(e.left) if e.sign in ("<<", ">>") else max(self.width(e.left), self.width(e.right))

    def alike(self, one, other, what):
        """In a circuit both sides have one width; a function of an operation may mix them."""
        if self.plain and self.width(one) != self.width(other):
            raise Refused(f"{what}: {self.width(one)} and {self.width(other)} bits")

    def own(self, e):
        """The code of an expression whose place asks for no width."""
        return self.code(e, self.width(e))

    def test(self, e):
        """The code of an expression of which only matters whether it is 0."""
        if type(e) is Binary and e.sign in LOGIC:
            parts = [e.left]
            while type(e.right) is Binary and e.right.sign == e.sign:
                e = e.right
                parts.append(e.left)
            return "(" + f" {LOGIC[e.sign]} ".join(map(self.test, [*parts, e.right])) + ")"
        if type(e) is Not:
            return f"(not {self.test(e.word)})"
        if type(e) is Binary and e.sign in TESTS:
            self.alike(e.left, e.right, e.sign)
            width = max(self.width(e.left), self.width(e.right))
            return f"({self.code(e.left, width)} {TESTS[e.sign]} {self.code(e.right, width)})"
        return self.own(e)

    def code(self, e, width):
        """The code of an expression in a place of so many bits, which are no fewer than it has."""
        kind = type(e)
        if kind is Constant:
            return str(e.word)
        if kind is Name:
            self.width(e)
            return f"v_{e.name}"
        if kind is Part:
            if e.low + e.width > self.widths[e.name]:
                raise Refused(f"{e.name} has no bits from {e.low} on to {e.low + e.width}")
            return f"(v_{e.name} >> {e.low} & {ones(e.width)})"
        if kind is Read:
            return f"read(m_{e.memory}, {self.own(e.address)}, {self.width(e)})"
        if kind is Call:
            return self.called(e)
        if kind is Join:
            return self.joined(e.parts)
        if kind is Repeat:
            return self.joined([e.part] * e.times)
        if kind is Invert:
            return f"({self.code(e.word, width)} ^ {ones(width)})"
        if kind is Select:
            self.alike(e.on, e.off, "?:")
            return f"({self.code(e.on, width)} if {self.test(e.test)} else {self.chain(e.off, width)})"
        if kind is Not or e.sign in TESTS or e.sign in LOGIC:
            return f"(1 if {self.test(e)} else 0)"
        if e.sign in ("<<", ">>"):
            return f"({self.code(e.left, width)} {e.sign} min({self.own(e.right)}, {width}) & {ones(width)})"
        self.alike(e.left, e.right, e.sign)
        return f"({self.code(e.left, width)} {e.sign} {self.code(e.right, width)} & {ones(width)})"

    def chain(self, e, width):
        """The second word of a choice: another choice goes on without parentheses, since Python allows few within each other."""
        if type(e) is not Select:
            return self.code(e, width)
        self.alike(e.on, e.off, "?:")
        return f"{self.code(e.on, width)} if {self.test(e.test)} else {self.chain(e.off, width)}"

    def joined(self, parts):
        code = self.own(parts[0])
        for part in parts[1:]:
            code = f"({code} << {self.width(part)} | {self.own(part)})"
        return code

    def called(self, e):
        """The code of a call of a function."""
        given = []
        for word, (width, name) in zip(e.given, self.module.functions[e.function].inputs):
            if self.width(word) > width:
                raise Refused(f"{e.function}: {name} has {width} bits and is given {self.width(word)}")
            given.append(self.code(word, width))
        return f"f_{e.function}({', '.join(given)})"


class Circuit:
    """A module, and the words that it holds. `own` are the operations that other files make, by their names, `files` the texts of the files
    of memories, and `others` the modules of the text, of which it may have instances that make operations."""

    def __init__(self, module, by, own=None, files=None, others=None):
        self.module, self.by, self.own, self.files = module, by, own or {}, files or {}
        self.beside = [beside(module, it, by, self.own, lambda name: Circuit(others[name], by)) for it in module.instances]
        self.joined = [it.joined["word"].name for it in module.instances]
        self.inputs = [name for name, (kind, width) in module.ports.items() if kind == "input" and name != "clk"]
        self.words = {name: by.getrandbits(width) for name, width in module.registers.items()}
        self.memories = {name: self.first_words(name, it) for name, it in module.memories.items()}
        self.step = self.made()

    def first_words(self, name, it):
        """The words that a memory begins with. A file has a line for each, in as many digits to the base 16 as the word's bits ask for."""
        if not it.file:
            return [it.first.get(k, 0) for k in range(it.size)]
        lines = [line for line in self.files[it.file].splitlines() if not line.startswith("//")]
        digits = (it.width + 3) // 4
        if len(lines) != it.size or not all(re.fullmatch(f"[0-9a-f]{{{digits}}}", line) for line in lines):
            raise Refused(f"{it.file}: no {it.size} lines of {digits} digits")
        words = [int(line, 16) for line in lines]
        if any(word >> it.width for word in words):
            raise Refused(f"{it.file}: a word of more than {it.width} bits")
        return words

    def read(self, memory, address, width):
        return memory[address] if address < len(memory) else self.by.getrandbits(width)

    def function(self, name, it, room):
        """Makes a function of the text one of Python."""
        if type(it) is Table:
            room[f"f_{name}"] = lambda at, words=it.words, default=it.default: words.get(at, default)
            return
        if type(it) is Outside:
            room[f"f_{name}"] = self.own[name[len("own_"):]]
            return
        widths, names = {name: bits for bits, name in it.inputs}, ", ".join(f"v_{name}" for _, name in it.inputs)
        lines = [f"def f_{name}({names}):"]
        for width, variable, word in it.variables:
            lines.append(f"    v_{variable} = {self.taken_by(widths, variable, width, word)}")
            widths[variable] = width
        lines.append(f"    return {self.taken_by(widths, name, it.width, it.word)}")
        exec("\n".join(lines) + "\n", room)

    def taken_by(self, widths, name, width, word):
        """What a function or a variable of it takes, which may have fewer bits than there are."""
        words = Words(widths, self.module, False)
        if words.width(word) > width:
            raise Refused(f"{name}: {words.width(word)} bits are made, and {width} taken")
        return words.code(word, width)

    def made(self):
        """A function of the inputs: the words of all names before a clock, what registers take, and what is written into memories."""
        module, room = self.module, {"read": self.read}
        room.update((f"m_{name}", words) for name, words in self.memories.items())
        for name, it in module.functions.items():
            self.function(name, it, room)
        widths = {name: module.ports[name][1] for name in self.inputs}
        widths.update(module.registers)
        if sorted(self.joined) != sorted(name for name, (_, word) in module.wires.items() if word is None):
            raise Refused(f"{module.name}: {self.joined} are joined to instances, and not all wires without a word")
        words = Words(widths, module, True)
        lines = [f"def step({', '.join(['held', 'memories', *(f'v_{name}' for name in [*self.inputs, *self.joined])])}):"]
        lines += [f"    v_{name} = held[{name!r}]" for name in module.registers]
        lines += [f"    m_{name} = memories[{name!r}]" for name in module.memories]
        for name, (width, word) in module.wires.items():
            if word is not None:
                self.fits(words, word, width, name)
                lines.append(f"    v_{name} = {words.own(word)}")
            widths[name] = width
        for name, word in module.shown.items():
            self.fits(words, word, module.ports[name][1], name)
            lines.append(f"    v_{name} = {words.own(word)}")
        lines.append("    taken, written = {}, []")
        for it in module.taken:
            lines.append(f"    if {words.test(it.enable)}: {self.taking(words, it)}")
        shown = ", ".join(f"{name!r}: v_{name}" for name in module.shown)
        given = ", ".join(f"({', '.join(words.own(it.joined[port]) for port in ('enable', 'a', 'b'))})" for it in module.instances)
        lines.append(f"    return {{{shown}}}, taken, written, [{given}]")
        exec("\n".join(lines) + "\n", room)
        return room["step"]

    def fits(self, words, word, width, name):
        if words.width(word) != width:
            raise Refused(f"{name} has {width} bits, and its word {words.width(word)}")

    def taking(self, words, it):
        if it.address is None:
            self.fits(words, it.word, self.module.registers[it.name], it.name)
            return f"taken[{it.name!r}] = {words.own(it.word)}"
        self.fits(words, it.word, self.module.memories[it.name].width, it.name)
        return f"written.append(({it.name!r}, {words.own(it.address)}, {words.own(it.word)}))"

    def shows(self, given):
        """What the outputs show where the inputs have these words, and a clock that may come of them."""
        made = [it.word() for it in self.beside]
        shown, taken, written, told = self.step(self.words, self.memories, *(given[name] for name in self.inputs), *made)

        def clock():
            for it, words in zip(self.beside, told):
                it.clock(*words)
            self.words.update(taken)
            for name, address, word in written:
                if address < len(self.memories[name]):
                    self.memories[name][address] = word

        return shown, clock
