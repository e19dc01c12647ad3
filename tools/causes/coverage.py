"""What a machine lacks for `build`: the rule of coverage that it breaks, with the part that breaks it, and why no usable unit offers an
operation. The rules are those of docs/COMMANDS.md, section Coverage; the words of each begin as those of `info` do."""
from causes import near

RULES = {
    1: "no file of 32 bits with three registers or more is joined to itself",
    2: "not every word of 32 bits reaches the hub",
    3: "the hub is not joined to gcu.t, or no register of one bit can guard moves to it and within the hub",
    4: "gcu.ra is not joined to the hub",
    5: "no usable units offer both ldf and stf",
}


def hub_of(m):
    """The name of the first file that is the hub, or None."""
    return next((name for name, f in m.files.items() if f.width == 32 and f.size >= 3 and m.joins(f.out, f.into)), None)


def no_hub(m):
    """Rule 1: what each file of 32 bits lacks."""
    wide = {name: f for name, f in m.files.items() if f.width == 32}
    if not wide:
        return "the machine has no file of width 32"
    lacks = [f"`{name}` has {near.count(f.size, 'register')}" if f.size < 3 else f"no bus joins both sockets of `{name}`, `{f.out}` and `{f.into}`" for name, f in wide.items()]
    return "; ".join(lacks)


def no_words(m):
    """Rule 2: no wide short field, and no template whose immediate unit is joined to the hub."""
    hub = hub_of(m)
    if not m.templates:
        return f"no bus into `{hub}` has a short field of 32 bits, and the machine has no template for long immediates"
    units = near.listed(list(dict.fromkeys(template.imm for template in m.templates.values())), "or")
    return f"no bus into `{hub}` has a short field of 32 bits, and no bus joins an immediate unit that a template writes, {units}, to `{hub}`"


def no_guard(m):
    """Rule 3: the joint of the hub and the control unit, or what each register of one bit lacks."""
    hub = m.files[hub_of(m)]
    to_jump, within = m.joins(hub.out, m.control.t), m.joins(hub.out, hub.into)
    if not to_jump:
        return f"no bus joins `{hub_of(m)}` to `gcu.t`, whose socket is `{m.control.t}`"
    narrow = {name: f for name, f in m.files.items() if f.width == 1}
    if not narrow:
        return "the machine has no file of width 1"
    lacks = []
    for name, f in narrow.items():
        if not m.joins(hub.out, f.into):
            lacks.append(f"no bus joins `{hub_of(m)}` to `{name}`")
            continue
        for index in range(f.size):
            missing = [f"{way} on a bus {where}" for where, buses in (("to `gcu.t`", to_jump), (f"within `{hub_of(m)}`", within)) for way in ("plain", "inverted")
                       if not any(g.file == name and g.index == index and g.way == way and g.bus in buses for g in m.guards)]
            lacks.append(f"`{name}.{index}` is no guard {' or '.join(missing)}")
    return "; ".join(lacks[:3])


def no_return(m):
    """Rule 4."""
    if not m.control.ra:
        return "the line `control` has no `ra`"
    return f"no bus joins `gcu.ra`, whose socket is `{m.control.ra}`, to `{hub_of(m)}`"


def unit_fault(m, name):
    """Why a unit is not usable, or None."""
    hub, unit = m.files[hub_of(m)], m.units[name]
    for port in "ot":
        socket = getattr(unit, port)
        if socket and not m.joins(hub.out, socket):
            return f"no bus joins `{hub_of(m)}` to `{name}.{port}`"
    if unit.r and not m.joins(unit.r, hub.into):
        return f"no bus joins `{name}.r` to `{hub_of(m)}`"
    return None


def not_offered(m, op):
    """Why no usable unit offers an operation."""
    offering = [name for name, unit in m.units.items() if op in unit.ops]
    if not offering:
        return f"no unit of the machine offers `{op}`"
    return f"`{op}` is offered by no unit that is usable: " + "; ".join(f"{unit_fault(m, name)}" for name in offering)


def no_frame(m):
    """Rule 5."""
    return "; ".join(not_offered(m, op) for op in ("ldf", "stf") if not any(op in unit.ops and not unit_fault(m, name) for name, unit in m.units.items()))


def rule(m, number):
    """The rule in words, and what breaks it."""
    lacks = {1: no_hub, 2: no_words, 3: no_guard, 4: no_return, 5: no_frame}[number](m)
    return [f"rule {number}: {RULES[number]}", lacks]


NEEDS = {"load": "ldw", "store": "stw", "out": "out", "in": "in"}
CONDITION = {"eq": "eq", "ne": "eq", "lt": "lt", "ge": "lt", "ltu": "ltu", "geu": "ltu"}


def operation_of(step):
    """The operation that a step of a program needs, or None."""
    if step.kind == "operation":
        return step.name
    return CONDITION.get(step.relation) or NEEDS.get(step.kind)


def no_unit(m, step):
    """Why a step has no unit, and what comes near."""
    op = operation_of(step)
    if op is None:
        return None
    found = not_offered(m, op)
    if step.relation:
        found = f"the condition needs `{op}`, and " + found
    elif op in NEEDS.values() and op != step.kind:
        found = f"`{step.kind}` needs `{op}`, and " + found
    if not any(op in unit.ops for unit in m.units.values()):
        kin = {"mul": ["mulhu"], "divu": ["remu"], "remu": ["divu"], "sub": ["add", "neg"], "gt": ["lt"], "gtu": ["ltu"], "neg": ["sub"], "not": ["xor"],
               "shr": ["shru"], "shru": ["shr"], "in": ["out"], "stw": ["ldw"], "ldw": ["stw"]}.get(op, [])
        nearly = [f"`{name}` offers `{other}`" for other in kin for name, unit in m.units.items() if other in unit.ops]
        found += "".join(f"; {text}" for text in nearly[:2])
        takes = "" if op in ("stw", "stf", "out") else " 1"
        able = next((name for name, unit in m.units.items() if (unit.r or not takes) and (unit.o or op in ("in", "out", "neg", "not", "ldw"))), None)
        found += f"; a line `op {able} {op}{takes}` would add it" if able and op not in ("ldw", "stw", "in", "out") else ""
    return found
