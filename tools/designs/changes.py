"""The changes that a search makes by chance: each takes a machine and a source of chance, and gives another machine, or None, and what was
changed. Latencies and delay slots say what the circuit's clock can do, which a search does not see: they change only where that is asked for."""
from causes import near
from designs import model, parts


def leave(machine, by):
    """A port leaves a bus."""
    port = by.choice(model.ports(machine))
    bus = by.choice(model.buses_of(machine, port))
    return parts.without_port(machine, port, bus), f"{model.told(port)} leaves bus {bus}: a joint less"


def stay(machine, by):
    """A port stays on one of its buses alone."""
    port = by.choice(model.ports(machine))
    buses = model.buses_of(machine, port)
    bus = by.choice(buses)
    what = f"{model.told(port)} is on bus {bus} alone: {near.count(len(buses) - 1, 'joint')} less"
    return (model.moved(machine, port, [bus]) if len(buses) > 1 else None), what


def come(machine, by):
    """A port comes onto a bus."""
    port = by.choice(model.ports(machine))
    free = [bus for bus in machine.buses if bus not in model.buses_of(machine, port)]
    if not free:
        return None, ""
    bus = by.choice(free)
    return parts.with_port(machine, port, bus), f"{model.told(port)} comes onto bus {bus}: a joint that moves can take"


def fewer_buses(machine, by):
    bus = by.choice(list(machine.buses))
    return parts.without_bus(machine, bus), f"bus {bus} is gone: a slot of each instruction less"


def more_buses(machine, by):
    like = by.choice(list(machine.buses))
    made = parts.with_bus(machine, like)
    return made, f"bus {list(made.buses)[-1]} joins what {like} does: one move more in a cycle" if made else ""


def other_order(machine, by):
    bus = by.choice(list(machine.buses))
    made = parts.with_first(machine, bus) if bus != next(iter(machine.buses)) else None
    return made, f"bus {bus} comes first: moves take the first that is free"


def registers(machine, by):
    """Another number of registers in a file, or the file is gone."""
    file = by.choice(list(machine.files))
    now = machine.files[file].size
    size = by.choice([now - 1, now - 1, now - 2, now - 4, now // 2, now * 3 // 4, now + 1, now + 4, 0])
    if size == 0:
        return parts.without_file(machine, file), f"file {file} is gone: what its {near.count(now, 'register')} held has room elsewhere"
    if size == now or size < 1:
        return None, ""
    what = "what the others held has room elsewhere" if size < now else "room for more variables"
    return parts.with_registers(machine, file, size), f"file {file} has {near.count(size, 'register')} in the place of {now}: {what}"


def short(machine, by):
    """Another width of a short field."""
    bus = by.choice(list(machine.buses))
    now = machine.buses[bus].short
    bits = max(1, now + by.choice([-8, -4, -2, -1, -1, 1, 2, 4]))
    return (parts.with_short(machine, bus, bits) if bits != now else None), f"the short field of bus {bus} has {bits} bits in the place of {now}"


def template(machine, by):
    """A template takes one bus less, one more, or is gone."""
    if not machine.templates:
        return None, ""
    name = by.choice(list(machine.templates))
    taken = machine.templates[name].buses
    way = by.choice(["fewer", "more", "gone"])
    if way == "gone":
        return parts.with_template(machine, name, []), f"template {name} is gone: one long immediate less"
    if way == "fewer":
        bus = by.choice(taken)
        left = [other for other in taken if other != bus]
        return (parts.with_template(machine, name, left) if left else None), f"template {name} leaves bus {bus} free"
    free = [bus for bus in machine.buses if bus not in taken]
    bus = by.choice(free) if free else None
    return (parts.with_template(machine, name, [*taken, bus]) if bus else None), f"template {name} takes bus {bus} too"


def guards(machine, by):
    """One guard less, or the guards of another bus on a bus."""
    if machine.guards and by.random() < 0.7:
        at = by.randrange(len(machine.guards))
        guard = machine.guards[at]
        return parts.without_guard(machine, at), f"bus {guard.bus} has no guard {guard.file}.{guard.index} {guard.way}"
    bus, like = by.choice(list(machine.buses)), by.choice(list(machine.buses))
    return parts.with_guards(machine, bus, like), f"bus {bus} has the guards of {like}: moves that only sometimes act can take it"


def address(machine, by):
    now = machine.control.address
    bits = now + by.choice([-1, -2, -4, 1])
    what = "the code needs no more, and an address is a shorter word" if bits < now else "room for longer code"
    return parts.with_address(machine, bits), f"addresses have {bits} bits in the place of {now}: {what}"


def twice(machine, by):
    """An operation of two units on one of them alone."""
    offered = {}
    for unit, part in machine.units.items():
        for operation in part.ops:
            offered.setdefault(operation, []).append(unit)
    pairs = [(unit, operation) for operation, units in offered.items() if len(units) > 1 for unit in units]
    if not pairs:
        return None, ""
    unit, operation = by.choice(pairs)
    return parts.without_operation(machine, unit, operation), f"{unit} does not offer {operation}, which another unit does"


def second(machine, by):
    """A second unit for an operation that one unit offers."""
    unit = by.choice(list(machine.units))
    operation = by.choice(list(machine.units[unit].ops))
    made, name = parts.with_second(machine, unit, [operation])
    return made, f"unit {name} offers {operation} beside {unit}: two at once"


def latency(machine, by):
    """A shorter or longer latency, or another number of delay slots."""
    unit = by.choice(list(machine.units))
    timed = [operation for operation, (_, now) in machine.units[unit].ops.items() if now]
    if not timed or by.random() < 0.2:
        slots = machine.control.delay + by.choice([-1, 1])
        return parts.with_delay(machine, slots), f"{slots} delay slots in the place of {machine.control.delay}"
    operation = by.choice(timed)
    now = machine.units[unit].ops[operation][1]
    cycles = now + by.choice([-1, -1, 1])
    return parts.with_latency(machine, unit, operation, cycles), f"{operation} of {unit} shows its word after {cycles} cycles in the place of {now}"


# How often each change is tried, of all.
WEIGHTS = [(leave, 20), (stay, 10), (come, 8), (fewer_buses, 3), (more_buses, 2), (other_order, 4), (registers, 12), (short, 10), (template, 6),
           (guards, 6), (address, 4), (twice, 3), (second, 2)]
WITH_LATENCIES = [*WEIGHTS, (latency, 10)]


def one(machine, by, weights):
    """A change by chance: another machine and what was changed, or None."""
    work = by.choices([work for work, _ in weights], [weight for _, weight in weights])[0]
    made, what = work(machine, by)
    return (made, what) if made else None


def without_unused(machine, needed):
    """The machine without the operations that no program uses, step by step: each with what was changed."""
    found = []
    for unit in list(machine.units):
        unused = [operation for operation in machine.units[unit].ops if operation not in needed]
        for operation in unused:
            machine = parts.without_operation(machine, unit, operation)
        if unused and unit not in machine.units:
            found.append((machine, f"unit {unit} is gone: no program uses {', '.join(unused)}"))
        elif unused:
            found.append((machine, f"{unit} has no {', '.join(unused)}: no program uses them"))
    return found
