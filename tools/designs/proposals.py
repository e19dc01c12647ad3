"""What might be changed on a machine for a program, by what its run shows: each proposal has what holds the program back, and the machine that
comes of the change. Whether it gains is for a run to say."""
from collections import namedtuple

from causes import near
from designs import hot, model, parts

# What is seen, in words, and the machine that is changed.
Proposal = namedtuple("Proposal", "seen machine")
# So many widths of short fields, units and operations are proposed.
MOST_WIDTHS, MOST_UNITS, MOST_LATENCIES = 4, 3, 4
WIDEST = 32


def widths(machine, seen):
    """Wider short fields, which hold words that long immediates carry."""
    longs = seen.longs()
    carried = sum(times for _, times in longs)
    for bus, part in machine.buses.items():
        needed = sorted({hot.width_of(word, part.sign) for word, _ in longs[:24]} - set(range(part.short + 1)))
        for bits in needed[:MOST_WIDTHS]:
            held = sum(times for word, times in longs if hot.width_of(word, part.sign) <= bits)
            told = f"{near.count(carried, 'long immediate')} are carried, of which a short field of {bits} bits on {bus} holds {held}"
            yield Proposal(told, parts.with_short(machine, bus, bits))


def address(machine, seen, words):
    """Addresses that are no longer than the code needs, since their words are shorter then."""
    least = max(1, (words - 1).bit_length())
    for bits in range(least, min(machine.control.address, least + 2)):
        jumps = sum(times for (unit, operation), times in seen.started().items() if unit == "gcu" and operation in hot.JUMPS)
        told = f"{near.count(jumps, 'jump')} and calls go to addresses of {machine.control.address} bits, and the code has {near.count(words, 'word')}"
        yield Proposal(told, parts.with_address(machine, bits))


def buses(machine, seen):
    """One bus more, and buses in another order."""
    moves = " and ".join(f"{name} has {count}" for name, count in seen.buses.items())
    for bus in machine.buses:
        yield Proposal(f"{moves} moves: a move may wait for a bus", parts.with_bus(machine, bus))
    for bus in list(machine.buses)[1:]:
        yield Proposal(f"moves take the first bus that is free, and {bus} is not the first", parts.with_first(machine, bus))
    guarded = {guard.bus for guard in machine.guards}
    for bus in machine.buses:
        if bus not in guarded and guarded:
            yield Proposal(f"{bus} has no guards, so moves that only sometimes act never take it", parts.with_guards(machine, bus, sorted(guarded)[0]))


def joints(machine, _seen):
    """Ports on all buses that are on some."""
    for port in model.ports(machine):
        lacking = [bus for bus in machine.buses if bus not in model.buses_of(machine, port)]
        if lacking:
            yield Proposal(f"{model.told(port)} is not on {' and '.join(lacking)}, so its moves wait for the others or go through a register",
                           model.moved(machine, port, list(machine.buses)))


def units(machine, seen):
    """A second unit for what the busiest units do, and one for each of the operations that they do most."""
    for unit, count in sorted(seen.units.items(), key=lambda one: -one[1])[:MOST_UNITS]:
        started = sorted(((times, operation) for (name, operation), times in seen.started().items() if name == unit), reverse=True)
        done = [operation for _, operation in started]
        for operations in dict.fromkeys([tuple(done), *((operation,) for operation in done[:MOST_UNITS])]):
            made, name = parts.with_second(machine, unit, operations)
            if made:
                does = ", ".join(made.units[name].ops)
                yield Proposal(f"{unit} starts {near.count(count, 'operation')}, one a cycle: a unit {name} does {does} beside it", made)


def registers(machine, seen):
    """More registers, where loads and stores of the frame are carried out."""
    spilled = sum(times for (_, operation), times in seen.started().items() if operation in ("ldf", "stf"))
    told = f"{near.count(spilled, 'load')} and stores go to the frame, where variables without a register stand"
    for file, part in machine.files.items():
        if spilled and part.width == WIDEST:
            for size in dict.fromkeys(min(parts.MOST_REGISTERS, size) for size in (part.size + 4, part.size * 2, part.size * 4)):
                if size > part.size:
                    yield Proposal(told, parts.with_registers(machine, file, size))


def accesses(machine, _seen):
    """More moves of a cycle that read or write a file."""
    for file, part in machine.files.items():
        for field, way in (("reads", "reads"), ("writes", "writes")):
            if getattr(part, field) < len(machine.buses):
                made = model.copy_of(machine)
                made.files[file] = part._replace(**{field: getattr(part, field) + 1})
                yield Proposal(f"an instruction {way} {file} at most {near.count(getattr(part, field), 'time')}", made)


def latencies(machine, seen):
    """Shorter latencies of what is started most, and fewer delay slots."""
    timed = [(times, unit, operation) for (unit, operation), times in seen.started().items()
             if unit in machine.units and (machine.units[unit].ops[operation][1] or 1) > 1]
    for times, unit, operation in sorted(timed, reverse=True)[:MOST_LATENCIES]:
        now = machine.units[unit].ops[operation][1]
        yield Proposal(f"{operation} of {unit} is started {near.count(times, 'time')}, and shows its word {now} cycles later",
                       parts.with_latency(machine, unit, operation, now - 1))
    jumps = sum(times for (unit, _), times in seen.started().items() if unit == "gcu")
    slots = machine.control.delay
    if slots:
        yield Proposal(f"{near.count(jumps, 'jump')} and calls have {near.count(slots, 'delay slot')} each", parts.with_delay(machine, slots - 1))


def templates(machine, _seen):
    """Other buses for a long immediate."""
    for name, part in machine.templates.items():
        told = f"a long immediate takes {' and '.join(part.buses)}, where no move goes then"
        for bus in part.buses if len(part.buses) > 1 else []:
            yield Proposal(told, parts.with_template(machine, name, [other for other in part.buses if other != bus]))
        for bus in part.buses:
            for other in machine.buses:
                if other not in part.buses:
                    taken = [other if taken == bus else taken for taken in part.buses]
                    yield Proposal(told, parts.with_template(machine, name, taken))


def of(machine, seen, words):
    """All proposals that make another machine, each machine once."""
    found, told = [], {"\n".join(model.lines_of(machine))}
    ways = [widths(machine, seen), address(machine, seen, words), buses(machine, seen), joints(machine, seen), units(machine, seen),
            registers(machine, seen), accesses(machine, seen), latencies(machine, seen), templates(machine, seen)]
    for proposal in (proposal for way in ways for proposal in way):
        text = proposal.machine and "\n".join(model.lines_of(proposal.machine))
        if text and text not in told:
            told.add(text)
            found.append(proposal)
    return found
