"""Constants that no bus carries in a short field, as variables around loops.

Such a constant is a long immediate at each use, which takes the place of moves; a register is read as any other. A variable pays where the
loop calls nothing (what lives across calls stands in the frame) and a register is free for it: where, at each place of the loop, fewer
variables live than the machine has homes. So it is done last, on blocks in the order of the text, and only for a machine that is known. The
variable is assigned on each way into the loop and nowhere else; so wherever the loop uses it, it is the constant."""
import bisect

import flow
import share
from ssa import Step

# The registers that the compiler keeps for itself, and the homes that are left to it in any case.
KEPT, SPARE = 3, 2
# A constant is worth a variable from this many uses on, each counted by the loops that it stands in.
WORTH = 4


def homes_of(machine):
    """How many registers variables may have."""
    return machine.homes - KEPT - SPARE


def run(o, machine):
    """Puts constants into variables, the most used ones first, while homes are free."""
    homes = homes_of(machine)
    if homes <= 0 or not machine.shorts:
        return
    by = {b.name: b for b in o.blocks}
    names = [b.name for b in o.blocks]
    loops = flow.loops(flow.order(names[0], lambda n: by[n].targets()), lambda n: by[n].targets())
    depth = {n: sum(n in body for body in loops.values()) for n in names}
    places = Places(o)
    for head, body in sorted(loops.items(), key=lambda x: -len(x[1])):
        if any(s.kind == "call" for n in body for s in by[n].steps) or head == names[0]:
            continue
        uses = {}
        for n in body:
            for s in by[n].steps:
                for w in s.args:
                    if isinstance(w, int) and not machine.holds(w):
                        uses[w] = uses.get(w, 0) + 8 ** (depth[n] - 1)
        worth = [w for w in sorted(uses, key=lambda w: (-uses[w], w)) if uses[w] >= WORTH]
        for w in worth[:max(0, homes - places.pressure(body))] if worth else []:
            places.add(hold(o, by, head, body, w), head, body)


def hold(o, by, head, body, w):
    """Gives the loop a variable for a constant."""
    v = o.fresh() + "c"
    for b in o.blocks:
        if b.name in body:
            for s in b.steps:
                s.args = [v if x == w and isinstance(x, int) else x for x in s.args]
        elif head in b.targets():
            b.steps.insert(len(b.steps) - 1, Step("copy", v, None, [w]).marked(b.steps[-1].at))
    return v


class Places:
    """Where variables live, by the order of the text: each from its first place to its last."""

    def __init__(self, o):
        self.o, self.spans, self.calls, self.blocks, at = o, share.intervals(o), [], {}, 0
        for b in o.blocks:
            first = at
            at += 1
            for s in b.steps:
                at += 1
                if s.kind == "call":
                    self.calls.append(at)
            at += 1
            self.blocks[b.name] = first, at

    def pressure(self, body):
        """The greatest number of variables that live at one place between the first block of a loop and its last, but for those that stand in
        the frame."""
        low, high = min(self.blocks[n][0] for n in body), max(self.blocks[n][1] for n in body)
        events = []
        for a, z in self.spans.values():
            if z >= low and a <= high:
                k = bisect.bisect_right(self.calls, a)
                if k == len(self.calls) or self.calls[k] >= z:
                    events += [(max(a, low), 1), (min(z, high) + 0.1, -1)]
        most = now = 0
        for _, change in sorted(events):
            now += change
            most = max(most, now)
        return most

    def add(self, v, head, body, at_end=False):
        """Takes up a variable that is made on each way into a loop and lives throughout it, or up to a block at the end of the text; all other
        places stay what they are, since only their order counts."""
        last = max(q for _, q in self.blocks.values())
        ends = [self.blocks[n] for n in body]
        ways = [self.blocks.get(b.name, (last, last))[1] - 1.5 for b in self.o.blocks if b.name not in body and head in b.targets()]
        self.spans[v] = min([p for p, _ in ends] + ways), max([q for _, q in ends] + ways + [last] * at_end)
