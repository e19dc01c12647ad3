"""Machines that are changed: copies of what texts/machine.py reads, ports with the buses that they are on, and the text of a machine."""
from collections import namedtuple

from texts import machine as reader

MOST_NAME = 64
# A port of a part: where the part stands in a machine, its name, which port it is, and whether words go in or out there.
Port = namedtuple("Port", "where name field way")


def copy_of(machine):
    """A machine whose parts can be changed without the other."""
    made = reader.Machine()
    for part in ("buses", "sockets", "files", "imms", "units", "templates", "spaces"):
        setattr(made, part, dict(getattr(machine, part)))
    made.units = {name: unit._replace(ops=dict(unit.ops)) for name, unit in machine.units.items()}
    made.guards, made.control = list(machine.guards), machine.control
    return made


def ports(machine):
    """All ports, in the order of the text."""
    found = []
    for name in machine.files:
        found += [Port("files", name, "out", "out"), Port("files", name, "into", "in")]
    found += [Port("imms", name, "out", "out") for name in machine.imms]
    for name, unit in machine.units.items():
        found += [Port("units", name, field, "out" if field == "r" else "in") for field in "otr" if getattr(unit, field)]
    found.append(Port("control", "gcu", "t", "in"))
    return found + ([Port("control", "gcu", "ra", "out")] if machine.control.ra else [])


def part_of(machine, port):
    return machine.control if port.where == "control" else getattr(machine, port.where)[port.name]


def buses_of(machine, port):
    """The buses that a port is on."""
    return machine.sockets[getattr(part_of(machine, port), port.field)].buses


def told(port):
    """How a port is called: as assembly does, and a file or immediate unit by its name and the way."""
    return f"{port.name} ({port.way})" if port.where in ("files", "imms") else f"{port.name}.{port.field}"


def names(machine):
    """All names of a machine."""
    return {"gcu", *machine.buses, *machine.sockets, *machine.files, *machine.imms, *machine.units, *machine.templates}


def new_name(machine, wish):
    """A name that nothing has yet."""
    taken, wish = names(machine), wish[:MOST_NAME - 4]
    found = (wish if count == 0 else f"{wish}{count + 1}" for count in range(len(taken) + 1))
    return next(name for name in found if name not in taken)


def tidied(machine):
    """The machine without sockets that no port has."""
    used = {getattr(part_of(machine, port), port.field) for port in ports(machine)}
    machine.sockets = {name: socket for name, socket in machine.sockets.items() if name in used}
    return machine


def with_socket(machine, port, socket):
    """Puts a port at a socket."""
    part = part_of(machine, port)._replace(**{port.field: socket})
    if port.where == "control":
        machine.control = part
    else:
        getattr(machine, port.where)[port.name] = part


def moved(machine, port, buses):
    """A machine whose port is on these buses: at a socket that is on them already, else at one of its own."""
    made = copy_of(machine)
    buses = [bus for bus in made.buses if bus in buses]
    own = getattr(part_of(made, port), port.field)
    same = next((name for name, socket in made.sockets.items() if socket.way == port.way and socket.buses == buses), None)
    sharers = [other for other in ports(made) if getattr(part_of(made, other), other.field) == own]
    socket = same or (own if len(sharers) == 1 else new_name(made, f"{port.name}_{port.field}"))
    if not same:
        made.sockets[socket] = reader.Socket(0, port.way, buses)
    with_socket(made, port, socket)
    return tidied(made)


def lines_of(machine):
    """The text of a machine, a line each."""
    lines = [f"bus {name} short {bus.short} {bus.sign}" for name, bus in machine.buses.items()]
    lines += [" ".join(["socket", name, socket.way, *socket.buses]) for name, socket in machine.sockets.items()]
    lines += [f"file {name} width {f.width} size {f.size} read {f.reads} write {f.writes} out {f.out} in {f.into}" for name, f in machine.files.items()]
    lines += [f"imm {name} size {imm.size} out {imm.out}" for name, imm in machine.imms.items()]
    for name, unit in machine.units.items():
        lines.append(" ".join(["unit", name, *(f"{field} {getattr(unit, field)}" for field in "otr" if getattr(unit, field))]))
        lines += [f"op {name} {op}" + ("" if latency is None else f" {latency}") for op, (_, latency) in unit.ops.items()]
    lines += [f"guard {guard.bus} {guard.file}.{guard.index} {guard.way}" for guard in machine.guards]
    lines += [" ".join(["template", name, f"{t.imm}.{t.index}", *t.buses]) for name, t in machine.templates.items()]
    control = machine.control
    lines.append(f"control delay {control.delay} address {control.address} t {control.t}" + (f" ra {control.ra}" if control.ra else ""))
    return lines + [f"space {name} {space.words}" for name, space in machine.spaces.items()]
