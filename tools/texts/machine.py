"""A reader of machines for the script's tools: what the lines of a text declare, as far as they are of a form."""
from collections import namedtuple

from texts.tokens import tokens_of

# The forms of the lines, by their first word. NAME declares a name, and the other words in capitals use one or are a number; `a|b` is one of
# two words, `[..]` may be left out, and `..` stands after what may come again.
FORMS = {
    "bus": "bus NAME short BITS signed|unsigned",
    "socket": "socket NAME in|out BUS ..",
    "file": "file NAME width BITS size NUMBER read NUMBER write NUMBER out SOCKET in SOCKET",
    "imm": "imm NAME size NUMBER out SOCKET",
    "unit": "unit NAME [o SOCKET] t SOCKET [r SOCKET]",
    "op": "op UNIT OPERATION [LATENCY]",
    "guard": "guard BUS FILE . INDEX plain|inverted",
    "template": "template NAME IMM . INDEX BUS ..",
    "control": "control delay NUMBER address BITS t SOCKET [ra SOCKET]",
    "space": "space data|frame NUMBER",
}
NUMBERS = ("BITS", "NUMBER", "INDEX", "LATENCY")
JUMPS = ("jump", "call", "halt")

Bus = namedtuple("Bus", "line short sign")
Socket = namedtuple("Socket", "line way buses")
File = namedtuple("File", "line width size reads writes out into")
Imm = namedtuple("Imm", "line size out")
Unit = namedtuple("Unit", "line o t r ops")
Guard = namedtuple("Guard", "line bus file index way")
Template = namedtuple("Template", "line imm index buses")
Control = namedtuple("Control", "line delay address t ra")
Space = namedtuple("Space", "line words")
# A token that does not fit: its place among the tokens, and the part of the form that has to stand there.
Misfit = namedtuple("Misfit", "at part")


class Machine:
    """What a text has declared."""

    def __init__(self):
        self.buses, self.sockets, self.files, self.imms, self.units, self.templates = {}, {}, {}, {}, {}, {}
        self.guards, self.control, self.spaces = [], None, {}

    def line_of(self, name):
        """The line that declares a name, or None."""
        parts = (self.buses, self.sockets, self.files, self.imms, self.units, self.templates)
        return next((part[name].line for part in parts if name in part), None)

    def words(self, space):
        return self.spaces[space].words if space in self.spaces else 0

    def joins(self, out, into):
        """The buses that join two sockets."""
        ends = [self.sockets.get(name) for name in (out, into)]
        return [bus for bus in self.buses if all(end and bus in end.buses for end in ends)]


def parts_of(form):
    """The parts of a form, each with whether it begins something that may be left out, and how many parts that has."""
    parts, words = [], form.split()
    for word in words:
        parts.append((word.strip("[]"), word.startswith("["), 2 if word.startswith("[") and not word.endswith("]") else 1))
    return parts


def fits(part, token):
    if "|" in part:
        return token.text in part.split("|")
    if part in NUMBERS:
        return token.kind == "number" and not token.text.startswith("-")
    return token.kind == "name" if part.isupper() else token.text == part


def match(tokens):
    """The tokens of a line by the parts of its form, as pairs, or the first that does not fit."""
    found, at, parts = [], 0, parts_of(FORMS[tokens[0].text])
    while parts:
        part, may_lack, size = parts[0]
        token = tokens[at] if at < len(tokens) else None
        if part == "..":
            parts = parts if token else parts[1:]
            if token and not fits(found[-1][0], token):
                return Misfit(at, found[-1][0])
            if token:
                found.append((found[-1][0], token))
                at += 1
        elif may_lack and (token is None or not fits(part, token)):
            if size == 1 and token is not None:
                return Misfit(at, part)
            parts = parts[size:]
        elif token is None or not fits(part, token):
            return Misfit(at, part)
        else:
            found.append((part, token))
            at, parts = at + 1, parts[1:]
    return found if at == len(tokens) else Misfit(at, None)


def values_of(found, part):
    return [token.value if part in NUMBERS else token.text for name, token in found if name == part]


def after(found, word):
    """What follows a word of the form, or None."""
    texts = [token.text for _, token in found]
    return texts[texts.index(word) + 1] if word in texts[2:] else None


def take(machine, line, found):
    """Takes a line that is of its form."""
    kind, texts = found[0][1].text, [token.text for _, token in found]
    numbers = [token.value for part, token in found if part in NUMBERS]
    name = texts[1]
    if kind == "bus":
        machine.buses.setdefault(name, Bus(line, numbers[0], texts[-1]))
    elif kind == "socket":
        machine.sockets.setdefault(name, Socket(line, texts[2], texts[3:]))
    elif kind == "file":
        machine.files.setdefault(name, File(line, *numbers, *texts[-3::2]))
    elif kind == "imm":
        machine.imms.setdefault(name, Imm(line, numbers[0], texts[-1]))
    elif kind == "unit":
        ports = {part: sockets[0] for part, sockets in ((word, [texts[at + 1] for at in range(2, len(texts), 2) if texts[at] == word]) for word in "otr") if sockets}
        machine.units.setdefault(name, Unit(line, ports.get("o"), ports.get("t"), ports.get("r"), {}))
    elif kind == "op":
        if name in machine.units:
            machine.units[name].ops.setdefault(texts[2], (line, numbers[0] if numbers else None))
    elif kind == "guard":
        machine.guards.append(Guard(line, texts[1], texts[2], numbers[0], texts[-1]))
    elif kind == "template":
        machine.templates.setdefault(name, Template(line, texts[2], numbers[0], texts[5:]))
    elif kind == "control":
        machine.control = machine.control or Control(line, *numbers, texts[6], texts[8] if len(texts) > 8 else None)
    elif kind == "space":
        machine.spaces.setdefault(name, Space(line, numbers[0]))


def read(lines):
    """The machine of some lines, as far as they are of a form."""
    machine = Machine()
    for number, line in enumerate(lines, 1):
        tokens = tokens_of(line)
        if tokens and tokens[0].text in FORMS:
            found = match(tokens)
            if isinstance(found, list):
                take(machine, number, found)
    return machine


# ---- what an instruction holds

def bits(count):
    """How many bits tell so many codes apart."""
    return max(count - 1, 0).bit_length()


def sources_on(m, bus):
    """How many sources a bus has."""
    on = lambda socket: socket in m.sockets and bus in m.sockets[socket].buses
    count = sum(f.size for f in m.files.values() if on(f.out)) + sum(i.size for i in m.imms.values() if on(i.out))
    return count + sum(on(unit.r) for unit in m.units.values()) + on(m.control.ra if m.control else None)


def dests_on(m, bus):
    """How many destinations a bus has."""
    on = lambda socket: socket in m.sockets and bus in m.sockets[socket].buses
    count = sum(f.size for f in m.files.values() if on(f.into))
    count += sum(on(unit.o) + on(unit.t) * len(unit.ops) for unit in m.units.values())
    return count + len(JUMPS) * on(m.control.t if m.control else None)


def slot_bits(m, bus):
    """How many bits the slot of a bus has."""
    guards = sum(guard.bus == bus for guard in m.guards)
    return bits(1 + guards) + 1 + max(m.buses[bus].short, bits(sources_on(m, bus))) + bits(1 + dests_on(m, bus))


def short_range(bus):
    """The least and the greatest constant that a move over a bus carries."""
    if bus.sign == "signed":
        return -(2 ** (bus.short - 1)), 2 ** (bus.short - 1) - 1
    return 0, 2**bus.short - 1
