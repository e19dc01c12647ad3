"""Changes of single parts of a machine. Each gives another machine, or None where there is no such one: a port on no bus, a number out of its
range. Whether the machine that comes of it is legal and covered is for the program to say."""
from designs import model
from texts import machine as reader

MOST_BUSES, MOST_REGISTERS, MOST_SHORT, MOST_UNITS, MOST_GUARDS = 16, 64, 32, 32, 64
# Operations of which one unit alone may have some.
ALONE = ("ldw", "stw", "ldf", "stf", "in", "out")


def without_operation(machine, unit, operation):
    """Without an operation, and without its unit where that has no other."""
    made = model.copy_of(machine)
    del made.units[unit].ops[operation]
    if not made.units[unit].ops:
        del made.units[unit]
    return model.tidied(made)


def without_port(machine, port, bus):
    """Where a port leaves a bus."""
    left = [other for other in model.buses_of(machine, port) if other != bus]
    return model.moved(machine, port, left) if left else None


def with_port(machine, port, bus):
    """Where a port comes onto a bus."""
    return model.moved(machine, port, [*model.buses_of(machine, port), bus])


def without_bus(machine, bus):
    """Without a bus: with its guards, and with the templates that would have no other."""
    if len(machine.buses) == 1 or any(socket.buses == [bus] for socket in machine.sockets.values()):
        return None
    made = model.copy_of(machine)
    del made.buses[bus]
    made.sockets = {name: socket._replace(buses=[other for other in socket.buses if other != bus]) for name, socket in made.sockets.items()}
    made.guards = [guard for guard in made.guards if guard.bus != bus]
    shorter = {name: template._replace(buses=[other for other in template.buses if other != bus]) for name, template in made.templates.items()}
    made.templates = {name: template for name, template in shorter.items() if template.buses}
    return made


def with_bus(machine, like):
    """With one bus more, which joins what another does and has no guards."""
    if len(machine.buses) == MOST_BUSES:
        return None
    made = model.copy_of(machine)
    name = model.new_name(made, like.rstrip("0123456789") + str(len(made.buses)))
    made.buses[name] = made.buses[like]
    made.sockets = {key: socket._replace(buses=[*socket.buses, name]) if like in socket.buses else socket for key, socket in made.sockets.items()}
    return made


def with_first(machine, bus):
    """With a bus before all others."""
    made = model.copy_of(machine)
    made.buses = {bus: machine.buses[bus], **machine.buses}
    made.sockets = {name: socket._replace(buses=[other for other in made.buses if other in socket.buses]) for name, socket in made.sockets.items()}
    return made


def with_registers(machine, file, size):
    """With so many registers in a file."""
    least = 1 + max((guard.index for guard in machine.guards if guard.file == file), default=0)
    if not least <= size <= MOST_REGISTERS:
        return None
    made = model.copy_of(machine)
    made.files[file] = made.files[file]._replace(size=size)
    return made


def without_file(machine, file):
    """Without a file that no guard reads."""
    if any(guard.file == file for guard in machine.guards):
        return None
    made = model.copy_of(machine)
    del made.files[file]
    return model.tidied(made)


def with_short(machine, bus, bits):
    """With so many bits in the short field of a bus."""
    if not 1 <= bits <= MOST_SHORT:
        return None
    made = model.copy_of(machine)
    made.buses[bus] = made.buses[bus]._replace(short=bits)
    return made


def with_address(machine, bits):
    """With so many bits of an address."""
    made = model.copy_of(machine)
    made.control = made.control._replace(address=bits)
    return made if 1 <= bits <= 16 else None


def with_delay(machine, slots):
    """With so many delay slots."""
    made = model.copy_of(machine)
    made.control = made.control._replace(delay=slots)
    return made if 0 <= slots <= 4 else None


def with_latency(machine, unit, operation, latency):
    """With another latency of an operation."""
    if not 1 <= latency <= 16:
        return None
    made = model.copy_of(machine)
    made.units[unit].ops[operation] = (0, latency)
    return made


def with_template(machine, template, buses):
    """With other buses of a template, or without it where these are none."""
    made = model.copy_of(machine)
    if buses:
        made.templates[template] = made.templates[template]._replace(buses=[bus for bus in made.buses if bus in buses])
        return made
    gone = made.templates.pop(template)
    # An immediate register that no template writes is none.
    left = [other.index for other in made.templates.values() if other.imm == gone.imm]
    if left:
        made.imms[gone.imm] = made.imms[gone.imm]._replace(size=max(left) + 1)
    else:
        del made.imms[gone.imm]
    return model.tidied(made)


def without_guard(machine, at):
    """Without one of the guards."""
    made = model.copy_of(machine)
    del made.guards[at]
    return made


def with_guards(machine, bus, like):
    """With the guards of another bus on one that has none."""
    there = {(guard.bus, guard.file, guard.index, guard.way) for guard in machine.guards}
    made = model.copy_of(machine)
    more = [guard._replace(bus=bus) for guard in machine.guards if guard.bus == like and (bus, *guard[2:]) not in there]
    made.guards += more
    return made if more and len(made.guards) <= MOST_GUARDS else None


def with_second(machine, unit, operations):
    """With a second unit for operations of one, at the same sockets."""
    operations = [op for op in operations if op in machine.units[unit].ops and op not in ALONE]
    if not operations or len(machine.units) == MOST_UNITS:
        return None, None
    made = model.copy_of(machine)
    name = model.new_name(made, unit)
    made.units[name] = reader.Unit(0, *made.units[unit][1:4], {op: made.units[unit].ops[op] for op in operations})
    return made, name
