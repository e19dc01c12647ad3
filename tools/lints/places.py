"""Addresses that are constants and lie outside the data space of a machine."""
from causes import near


def constants(proc):
    """The variables that one step alone assigns, and that with a constant, each with the token of it."""
    assigned = {}
    for step in proc.steps:
        if step.dest:
            assigned.setdefault(step.dest.text, []).append(step)
    return {name: steps[0].operands[0] for name, steps in assigned.items()
            if len(steps) == 1 and steps[0].kind == "copy" and steps[0].operands[0].kind == "number" and name not in proc.parameters}


def findings(program, machine):
    """The accesses of a program that lie outside the data space of the machine."""
    words = machine.words("data")
    accesses = [(step, step.operands[0], "") for step in program.data]
    for proc in program.procs:
        known = constants(proc)
        for step in proc.steps:
            if step.kind in ("load", "store"):
                address = step.operands[0]
                accesses.append((step, known.get(address.text, address), f" of `{address.text}`" if address.text in known else ""))
    found = []
    for step, address, whose in accesses:
        if address.kind == "number" and address.value >= words:
            what = {"load": "so it gives 0", "store": "so nothing is stored", "data": "so the program is refused"}[step.kind]
            found.append((step.number, f"the address {address.text}{whose} lies outside the data space of the machine, which has {near.count(words, 'word')}, {what}"))
    return found
