"""The text of a program."""
from ssa import OPPOSITE

RESERVED = set("ldw stw ldf stf jump proc end if goto when load store out call return halt data in main eq ne lt ge ltu geu gt gtu".split())

# The label to which a step leads that finds a stack full; all other labels have a number.
FULL = "full"


def word(w):
    if isinstance(w, str):
        return w
    if w >> 31 and w >= 0xFFFF0000:
        return str(w - (1 << 32))
    return str(w) if w < 65536 else hex(w)


def step(s):
    a = [word(x) for x in s.args]
    if s.kind == "op":
        return f"{s.dst} = {s.op} {' '.join(a)}"
    if s.kind == "copy":
        return f"{s.dst} = {a[0]}"
    if s.kind == "load":
        return f"{s.dst} = load {a[0]}"
    if s.kind == "store":
        return f"store {a[0]} {a[1]}"
    if s.kind == "out":
        return f"out {a[0]}"
    if s.kind == "in":
        return f"{s.dst} = in"
    if s.kind == "check":
        return f"if {s.op} {a[0]} {a[1]} goto {FULL}"
    if s.kind == "when":
        return f"when {s.op} {a[0]} {a[1]} {s.dst} = {a[2]}"
    if s.kind == "call":
        return (f"{s.dst} = " if s.dst else "") + " ".join(["call", s.op, *a])
    if s.kind == "ret":
        return f"return {a[0]}"
    if s.kind == "halt":
        return "halt"
    raise AssertionError(s.kind)


def procedure(o):
    """The lines of a procedure, each with the mark of its place in the source; its variables are numbered by first appearance."""
    number(o)
    targets, body = set(), []
    for k, b in enumerate(o.blocks):
        after = o.blocks[k + 1].name if k + 1 < len(o.blocks) else None
        end = b.steps[-1]
        text = [(step(s), s.at) for s in b.steps[:-1]]
        last, used = ending(end, after)
        targets.update(used)
        body.append((b.name, text + [(line, end.at) for line in last]))
    made = [(" ".join(["proc", o.name, *o.params]), None)]
    for name, text in body + ([(FULL, [(step(s), None) for s in o.full])] if o.full else []):
        made += ([(f"{name}:", None)] if name in targets or name == FULL else []) + text
    return made + [("end", None)]


def ending(end, after):
    """The lines of a block's last step, where the block `after` follows, and the labels that they use."""
    if end.kind == "goto":
        return ([], []) if end.to[0] == after else ([f"goto {end.to[0]}"], end.to)
    if end.kind != "if":
        return [step(end)], []
    (yes, no), rel = end.to, end.op
    a, b = (word(x) for x in end.args)
    if yes == after:
        rel, yes, no = OPPOSITE[rel], no, yes
    jump = f"if {rel} {a} {b} goto {yes}"
    return ([jump], [yes]) if no == after else ([jump, f"goto {no}"], [yes, no])


def number(o):
    names = {}
    get = lambda w: names.setdefault(w, f"v{len(names)}") if isinstance(w, str) else w
    o.params = [get(p) for p in o.params]
    for b in o.blocks:
        for s in b.steps:
            if s.dst:
                s.dst = get(s.dst)
            s.args = [get(w) for w in s.args]
    o.variables = len(names)
