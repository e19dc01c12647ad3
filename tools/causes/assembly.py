"""What is wrong with assembly that is refused, by its line and number. It takes the machine, as tools/texts reads it."""
from causes import Cause, near
from texts import assembly as reader
from texts.machine import JUMPS, short_range
from texts.tokens import WORDS, bad_token, mark_of_order, shown


def of_form(lines, text, number):
    """Number 50: the first token that does not fit. Where it begins a line, what is missing is missing in the line before."""
    placed, before, wanted = text.misfit.placed, text.misfit.before, text.misfit.wanted
    if mark_of_order(lines, number):
        return Cause(number, mark_of_order(lines, number))
    if placed.token is not None and placed.token.kind == "bad":
        return Cause(number, bad_token(placed.token))
    if before and before.line < placed.line and ";" in wanted:
        return Cause(before.line, f"after {shown(before.token)} `;` is missing")
    if placed.token is None:
        return Cause(before.line if before else None, f"after {shown(before.token)} comes {wanted}, and the text ends" if before else None)
    here = f"here is {shown(placed.token)}"
    return Cause(number, f"after {shown(before.token)} comes {wanted}, and {here}" if before else f"a text begins with a label or a slot, and {here}")


def named(source):
    return f"{source.name}.{source.part}"


def unit_ports(m, name):
    unit = m.units[name]
    ports = [f"{name}.o"] * bool(unit.o) + [f"{name}.t.{op}" for op in unit.ops]
    return near.listed(ports)


def not_there(m, name, part, sizes):
    """Why no register `NAME.PART` is there, or None."""
    if name in sizes:
        return None if int(part, 0) < sizes[name] else f"{near.registers(name, sizes[name])}, and no `{name}.{part}`"
    return None


def parts_of(m):
    return [*m.files, *m.imms, *m.units, "gcu"]


def source_fault(m, source):
    """Why the machine has no such source, or None."""
    if source.kind != "place":
        return None
    name, part = source.name, source.part
    if name == "gcu" and part != "ra":
        return "`gcu` has one source, the return address `gcu.ra`"
    registers = {**{n: f.size for n, f in m.files.items()}, **{n: i.size for n, i in m.imms.items()}}
    if part == "ra":
        return None if m.control.ra else "the line `control` of the machine has no `ra`, so there is no `gcu.ra`"
    if part == "r":
        if name in m.units:
            return None if m.units[name].r else f"the unit `{name}` has no result port `r`"
        return f"`{name}` is no unit" + near.instead(name, list(m.units), "the units are")
    if name in m.units:
        return f"`{name}` is a unit: its result is `{name}.r`"
    return not_there(m, name, part, registers) if name in registers else f"the machine has nothing that is called `{name}`" + near.instead(name, parts_of(m), "it has")


def dest_fault(m, dest):
    """Why the machine has no such destination, or None."""
    name, part, operation = dest
    if name == "gcu":
        return None if operation in JUMPS else f"`gcu` has the triggers {near.listed(['gcu.t.' + jump for jump in JUMPS])}"
    if part.isdecimal() or part.startswith("0x"):
        if name in m.imms:
            return f"`{name}` is an immediate unit, into which only a long immediate goes: `[TEMPLATE=WORD]`"
        if name in m.units:
            return f"`{name}` is a unit, and words go into {unit_ports(m, name)}"
        if name in m.files:
            return not_there(m, name, part, {n: f.size for n, f in m.files.items()})
        return f"the machine has nothing that is called `{name}`" + near.instead(name, parts_of(m), "it has")
    if name not in m.units:
        return f"`{name}` is no unit" + near.instead(name, list(m.units), "the units are")
    if part == "o":
        return None if m.units[name].o else f"the unit `{name}` has no operand port `o`"
    if operation not in m.units[name].ops:
        others = [unit for unit, parts in m.units.items() if operation in parts.ops]
        offered = f"; {near.listed(others, 'or')} offers it" if others else near.instead(operation, list(m.units[name].ops), "it offers")
        return f"the unit `{name}` offers no `{operation}`{offered}"
    return None


def guard_fault(m, guard):
    """What is wrong with the guard of a move, or None."""
    if guard is None:
        return None
    _, name, index = guard
    if name not in m.files:
        return f"the machine has no file `{name}` for a guard" + near.instead(name, [n for n, f in m.files.items() if f.width == 1], "files of one bit are")
    if m.files[name].width != 1:
        return f"a guard is a register of one bit, and those of `{name}` have 32"
    return None if index < m.files[name].size else f"{near.registers(name, m.files[name].size)}, and no `{name}.{index}`"


def instructions_at(text, line, of_slots):
    """The instructions that have a slot or long immediate at a line, or that end there."""
    for item in text.items:
        if isinstance(item, reader.Instruction):
            lines = [slot.line for slot in item.slots] + ([item.long.line] if item.long else []) if of_slots else [item.line]
            if line in lines:
                yield item


def of_place(lines, text, m, line):
    """Number 51."""
    for item in instructions_at(text, line, True):
        for slot in item.slots:
            if slot.line == line and slot.dest:
                wrong = guard_fault(m, slot.guard) or source_fault(m, slot.source) or dest_fault(m, slot.dest)
                if wrong:
                    return Cause(line, wrong)
        if item.long and item.long.line == line and item.long.template not in m.templates:
            return Cause(line, f"the machine has no template `{item.long.template}`" + near.instead(item.long.template, list(m.templates), "its templates are"))
    return None


def socket_of_source(m, source):
    """The socket by which a place comes to a bus, or None for a word."""
    if source.kind != "place":
        return None
    if source.part == "ra":
        return m.control.ra
    if source.part == "r":
        return m.units[source.name].r
    return m.files[source.name].out if source.name in m.files else m.imms[source.name].out


def socket_of_dest(m, dest):
    if dest.name == "gcu":
        return m.control.t
    return m.files[dest.name].into if dest.name in m.files else getattr(m.units[dest.name], dest.part)


def guards_of(m, bus):
    return [f"{'?' if guard.way == 'plain' else '!'}{guard.file}.{guard.index}" for guard in m.guards if guard.bus == bus]


def bus_fault(m, bus, slot):
    """Why a bus does not carry a move, or None."""
    shown_dest = slot.dest.name + "." + slot.dest.part + (f".{slot.dest.operation}" if slot.dest.operation else "")
    ends = [(socket_of_dest(m, slot.dest), shown_dest, "lead to")]
    if slot.source.kind == "place":
        ends.insert(0, (socket_of_source(m, slot.source), named(slot.source), "read"))
    for socket, what, does in ends:
        if bus not in m.sockets[socket].buses:
            return f"the bus `{bus}` of this slot does not {does} `{what}`; {near.listed(m.sockets[socket].buses, 'or')} does"
    if slot.guard:
        mark, name, index = slot.guard
        if f"{mark}{name}.{index}" not in guards_of(m, bus):
            has = guards_of(m, bus)
            return f"the bus `{bus}` of this slot has no guard `{mark}{name}.{index}`" + (f"; it has {near.listed(has)}" if has else "; it has none")
    return None


def of_bus(lines, text, m, line):
    """Number 52."""
    for item in instructions_at(text, line, True):
        for bus, slot in zip(m.buses, item.slots):
            if slot.line == line and slot.dest and bus_fault(m, bus, slot):
                return Cause(line, bus_fault(m, bus, slot))
    return None


def illegal(m, item):
    """Why an instruction cannot be carried out."""
    moves = [(bus, slot) for bus, slot in zip(m.buses, item.slots) if slot.dest]
    taken = m.templates[item.long.template].buses if item.long else []
    for bus, slot in moves:
        if bus in taken:
            return f"the template `{item.long.template}` takes the bus `{bus}` for its long immediate, so no move stands in its slot"
    for name, part in [*m.files.items(), *m.imms.items()]:
        reads = [bus for bus, slot in moves if slot.source.kind == "place" and slot.source.name == name and slot.source.part != "r"]
        most = part.reads if name in m.files else 1
        if len(reads) > most:
            return f"`{name}` is read by the moves on {near.listed(reads)}, and {allows(name, most, 'read', name in m.files)}"
        writes = [bus for bus, slot in moves if slot.dest.name == name]
        if name in m.files and len(writes) > part.writes:
            return f"`{name}` is written by the moves on {near.listed(writes)}, and {allows(name, part.writes, 'write', True)}"
    places = {}
    for bus, slot in moves:
        place = slot.dest.name + "." + slot.dest.part
        if place in places:
            what = "starts at most one operation a cycle" if slot.dest.part == "t" else "takes one word a cycle"
            return f"the moves on `{places[place]}` and `{bus}` go into one place: `{place if slot.dest.part != 't' else slot.dest.name}` {what}"
        places[place] = bus
    return None


def allows(name, most, word, is_file):
    """How many moves of an instruction may read or write something."""
    if not is_file:
        return "one move of an instruction may read it"
    return f"its line in the machine allows {most} a cycle: `{word} {most}`"


def of_legality(lines, text, m, line):
    """Number 53."""
    for item in instructions_at(text, line, False):
        if len(item.slots) == len(m.buses) and illegal(m, item):
            return Cause(item.slots[0].line, illegal(m, item))
    return None


def of_slots(lines, text, m, line):
    """Number 54."""
    for item in instructions_at(text, line, False):
        if len(item.slots) != len(m.buses):
            buses = f"the machine has {near.count(len(m.buses), 'bus').replace('buss', 'buses')}, {near.listed(list(m.buses))}"
            return Cause(line, f"this instruction has {near.count(len(item.slots), 'slot')}, and {buses}: each has one, `...` where it is empty")
    return None


def of_label(lines, text, m, line):
    """Number 55."""
    labels = reader.labels_of(lines)
    here = [label for label in labels if label.line == line]
    for label in here:
        first = next(other for other in labels if other.name == label.name)
        if first is not label:
            return Cause(line, f"the label `{label.name}` stands at line {first.line} already")
    names = [label.name for label in labels]
    for item in instructions_at(text, line, True):
        sources = [slot.source for slot in item.slots if slot.line == line and slot.source] + ([item.long.source] if item.long and item.long.line == line else [])
        for source in sources:
            if source.kind == "label" and source.name not in names:
                if source.name in parts_of(m):
                    return Cause(line, f"`{source.name}` is no label; a source of it is `{source.name}.{'r' if source.name in m.units else '0'}`")
                return Cause(line, f"there is no label `{source.name}`" + near.instead(source.name, names, "the labels are"))
    return None


def of_room(lines, text, m, line):
    """Number 56."""
    values, count = {}, 0
    for item in text.items:
        if isinstance(item, reader.Label):
            values.setdefault(item.name, count)
        count += isinstance(item, reader.Instruction)
    for item in instructions_at(text, line, True):
        for bus, slot in zip(m.buses, item.slots):
            if slot.line == line and slot.source and slot.source.kind in ("word", "label"):
                word = slot.source.part if slot.source.kind == "word" else values.get(slot.source.name, 0)
                least, most = short_range(m.buses[bus])
                if not (least <= word <= most or least <= word - WORDS):
                    what = f"{word}" if slot.source.kind == "word" else f"the label `{slot.source.name}`, {word},"
                    return Cause(line, f"{what} does not fit the bus `{bus}`, which carries {least} to {most}{by_template(m, word)}")
    if m.control and count > 2**m.control.address:
        return Cause(line, f"addresses have {near.count(m.control.address, 'bit')}, so there is room for {2**m.control.address} instructions, and this is one more")
    return None


def by_template(m, word):
    """How a long immediate brings a word."""
    if not m.templates:
        return "; the machine has no template for a long immediate"
    name, template = next(iter(m.templates.items()))
    return f"; `[{name}={word}]` brings it into `{template.imm}.{template.index}`, which the next instruction can read"


def of_data(lines, text, m, line):
    """Number 57."""
    before = None
    for datum in text.data:
        if datum.line == line:
            if datum.address >= m.words("data"):
                return Cause(line, f"the data space has {near.count(m.words('data'), 'word')}, so the address {datum.address} lies outside it")
            if before and datum.address <= before.address:
                return Cause(line, f"addresses rise from one `data` to the next, and {before.address} stands before {datum.address}")
        before = datum
    return None


CAUSES = {51: of_place, 52: of_bus, 53: of_legality, 54: of_slots, 55: of_label, 56: of_room, 57: of_data}


def cause(lines, number, code, machine):
    """The cause of a refusal of some lines of assembly for a machine, or None."""
    text = reader.Reader(lines).read()
    if code == 50:
        return of_form(lines, text, number) if text.misfit else None
    return CAUSES[code](lines, text, machine, number) if code in CAUSES else None
