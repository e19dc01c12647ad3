"""What is wrong with a machine that is refused, by its line and number."""
from causes import Cause, near
from texts import machine as reader
from texts.program import ARITY
from texts.tokens import bad_token, mark_of_order, shown, tokens_of

WITHOUT_RESULT = ["stw", "stf", "out"]
WITH_RESULT = ["ldw", "ldf", "in"]
# Which operations one unit alone may have, and what they serve.
PAIRS = {"ldw": "the data space", "stw": "the data space", "ldf": "the frame space", "stf": "the frame space", "out": "the output or the input", "in": "the output or the input"}
LONGEST_NAME = 64
# The most of each part, and the ranges of the numbers of a line, by the word before them.
MOST = {"bus": ("buses", 16), "socket": ("sockets", 128), "file": ("files", 8), "imm": ("imms", 4), "unit": ("units", 32), "template": ("templates", 8)}
RANGES = {("bus", "short"): (1, 32), ("file", "size"): (1, 64), ("file", "read"): (1, 16), ("file", "write"): (1, 16), ("imm", "size"): (1, 16),
          ("control", "delay"): (0, 4), ("control", "address"): (1, 16), ("space", "data"): (0, 2**20), ("space", "frame"): (0, 2**16)}
MOST_GUARDS, MOST_OPERATIONS, MOST_LATENCY = 64, 32, 16
WHAT = {"NAME": "a name", "BITS": "a number of bits", "NUMBER": "a number", "INDEX": "the number of a register", "LATENCY": "the latency, a number of cycles",
        "SOCKET": "the name of a socket", "BUS": "the name of a bus", "FILE": "the name of a file", "IMM": "the name of an immediate unit", "UNIT": "the name of a unit",
        "OPERATION": "the name of an operation"}


def expected(part):
    return WHAT.get(part) or near.listed(part.split("|"), "or")


def of_form(lines, number, tokens):
    """Number 10: the first token that does not fit."""
    first = tokens[0]
    if first.text not in reader.FORMS:
        if first.kind == "bad":
            return bad_token(first)
        guess = near.nearest(first.text, list(reader.FORMS))
        return f"{shown(first)} begins no line of a machine" + (f"; is it `{guess}`?" if guess else f"; a line begins with {near.listed(list(reader.FORMS), 'or')}")
    at, part = reader.match(tokens)
    form = reader.FORMS[first.text]
    if at < len(tokens) and tokens[at].kind == "bad":
        return bad_token(tokens[at])
    if part is None:
        return f"{shown(tokens[at])} is one token too many: the line is `{form}`"
    here = f"here is {shown(tokens[at])}" if at < len(tokens) else "the line ends"
    return f"after {shown(tokens[at - 1])} comes {expected(part)}, and {here}: `{form}`"


def uses(found):
    """The names that a line uses, each with what it has to be."""
    kind = found[0][1].text
    texts = [token.text for _, token in found]
    for at, (part, token) in enumerate(found):
        if part in ("BUS", "FILE", "IMM", "UNIT"):
            yield part, token.text, None
        elif part == "SOCKET":
            word = texts[at - 1]
            into = word in ("o", "t") or kind == "file" and word == "in"
            yield part, token.text, "in" if into else "out"


def of_use(lines, number, found, m, whole):
    """Number 11: a name that is not declared as its place asks, or an operation."""
    places = {"BUS": (m.buses, "bus"), "FILE": (m.files, "file"), "IMM": (m.imms, "immediate unit"), "UNIT": (m.units, "unit"), "SOCKET": (m.sockets, "socket")}
    for part, name, way in uses(found):
        names, what = places[part]
        if name not in names:
            late = whole.line_of(name)
            if late and late > number:
                return f"`{name}` is declared at line {late}, and a name is declared before it is used"
            if late:
                return f"`{name}` of line {late} is no {what}" + near.instead(name, list(names), "those above are")
            return f"there is no {what} `{name}` above" + near.instead(name, list(names), "those above are")
        if way and names[name].way != way:
            leads = {"in": "from buses into ports", "out": "from ports onto buses"}
            others = [other for other, socket in names.items() if socket.way == way]
            return f"the socket `{name}` leads {leads[names[name].way]}, and here one has to stand that leads {leads[way]}" + (f", as {near.listed(others, 'or')}" if others else "")
    name, latency = found[2][1].text, found[3][1].text if len(found) > 3 else None
    if name in WITHOUT_RESULT and latency:
        return f"`{name}` has no result, so no latency stands after it: `op {found[1][1].text} {name}`"
    if name in WITH_RESULT or name in ARITY:
        return f"`{name}` has a result, so its latency stands after it: `op {found[1][1].text} {name} 1`"
    return f"there is no operation `{name}`" + near.instead(name, WITH_RESULT + WITHOUT_RESULT + list(ARITY), "those there are are")


def of_twice(lines, number, found, m):
    """Number 12: what is there already."""
    kind, name = found[0][1].text, found[1][1].text
    if kind == "control":
        return f"a machine has one control unit, and line {m.control.line} declares it"
    if kind == "space":
        return f"the words of the {name} space are given by line {m.spaces[name].line} already"
    if kind == "guard":
        _, bus, file, index, way = (number, *[token.text for part, token in found if part in ("BUS", "FILE", "INDEX")], found[-1][1].text)
        line = next(guard.line for guard in m.guards if (guard.bus, guard.file, guard.way) == (bus, file, way) and guard.index == found[4][1].value)
        return f"the guard stands at line {line} already"
    if kind == "op":
        op = found[2][1].text
        if op in m.units[name].ops:
            return f"the unit `{name}` has the operation `{op}` by line {m.units[name].ops[op][0]} already"
        other = next(unit for unit, parts in m.units.items() if unit != name and any(PAIRS.get(o) == PAIRS[op] for o in parts.ops))
        return f"one unit alone serves {PAIRS[op]}, and that is `{other}`"
    if name == "gcu":
        return "`gcu` is the control unit, and nothing else is called so"
    if m.line_of(name):
        return f"`{name}` is declared at line {m.line_of(name)} already, and all names of a machine differ"
    buses = [token.text for part, token in found if part == "BUS"]
    return f"the bus `{next(bus for bus in buses if buses.count(bus) > 1)}` stands twice in this line"


def of_range(lines, number, found, m):
    """Number 13: a number that is outside its range, or one part too many."""
    kind, texts = found[0][1].text, [token.text for _, token in found]
    if kind in MOST:
        part, most = MOST[kind]
        if len(getattr(m, part)) >= most:
            what = {"imms": "immediate units"}.get(part, part)
            return f"a machine has at most {most} {what}, and this is one more"
        if len(texts[1]) > LONGEST_NAME:
            return f"a name has at most {LONGEST_NAME} bytes, and this one has {len(texts[1])}"
    for word, (_, token) in zip(texts, found[1:]):
        if (kind, word) in RANGES and token.value is not None:
            least, most = RANGES[kind, word]
            if not least <= token.value <= most:
                return f"after `{word}` comes a number from {least} to {most}, and here is {token.text}"
        if kind == "file" and word == "width" and token.value not in (1, 32):
            return f"the registers of a file have 1 bit or 32, and here is {token.text}"
    if kind == "op":
        if len(m.units[texts[1]].ops) >= MOST_OPERATIONS:
            return f"a unit has at most {MOST_OPERATIONS} operations, and this is one more"
        return f"a latency is a number of cycles from 1 to {MOST_LATENCY}, and here is {texts[-1]}"
    if kind == "guard" and len(m.guards) >= MOST_GUARDS:
        return f"a machine has at most {MOST_GUARDS} guards, and this is one more"
    if kind == "guard" and m.files[texts[2]].width == 32:
        return f"a guard is a register of one bit, and the registers of `{texts[2]}` have 32"
    part, index = (m.files if kind == "guard" else m.imms)[texts[2]], found[4][1].value
    return f"{near.registers(texts[2], part.size)}, and here is {index}"


def of_ports(lines, number, found, m):
    """Number 14: a port that is not there, or no bus, or no control unit."""
    if not found:
        lacks = "bus" if not m.buses else "control unit"
        return f"a machine has a {lacks}, and no line declares one" + ("" if m.buses else ": `bus NAME short BITS signed`") + (": `control delay 0 address 8 t SOCKET`" if m.buses else "")
    unit, op = found[1][1].text, found[2][1].text
    if (op in ("stw", "stf") or ARITY.get(op) == 2) and not m.units[unit].o:
        return f"`{op}` takes two words, and the unit `{unit}` of line {m.units[unit].line} has no operand port `o`"
    return f"`{op}` has a result, and the unit `{unit}` of line {m.units[unit].line} has no result port `r`"


def of_template(m, number):
    """Number 15: the bits that the buses of a template have."""
    name, template = next((name, template) for name, template in m.templates.items() if template.line == number)
    bits = {bus: reader.slot_bits(m, bus) for bus in template.buses}
    told = " and ".join(f"`{bus}` has {count}" for bus, count in bits.items())
    others = [bus for bus in m.buses if bus not in bits]
    more = f"; {near.listed(others, 'or')} could be added" if others else "; a wider short field gives more"
    return f"a long immediate has 32 bits, and the slots of the buses of `{name}` have {sum(bits.values())} together: {told}{more}"


def cause(lines, number, code):
    """The cause of a refusal of some lines, or None."""
    whole = reader.read(lines)
    if code == 15:
        return Cause(number, of_template(whole, number))
    if number == 0:
        return Cause(None, of_ports(lines, 0, None, whole))
    tokens, m = tokens_of(lines[number - 1]), reader.read(lines[:number - 1])
    if code == 10:
        return Cause(number, mark_of_order(lines, number) or of_form(lines, number, tokens))
    found = reader.match(tokens)
    if code == 11:
        return Cause(number, of_use(lines, number, found, m, whole))
    ways = {12: of_twice, 13: of_range, 14: of_ports}
    return Cause(number, ways[code](lines, number, found, m)) if code in ways else None
