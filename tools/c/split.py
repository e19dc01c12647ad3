"""Variables that live across calls, in registers while a loop calls nothing.

A variable that is needed after a call stands in the frame for the whole procedure. Where a loop that calls nothing uses it often, and a
register is free there (steady.py says when), the loop has a variable of its own in its place:

 1. On each way into the loop the loop's variable gets the word, if it is needed there. Within the loop it stands for the other in each step.
 2. On each way out on which the word is needed, and the loop assigns it, the other gets it back.
 3. Neither is used by anything else in between, since the loop calls nothing and variables belong to one procedure alone."""
import flow
import order
from ssa import Block, Step
from steady import Places, homes_of

# How many uses, each counted by its loops, a variable needs: what goes in and out costs an access of the frame each.
WORTH = 16


def run(o, machine):
    if homes_of(machine) <= 0 or not any(s.kind == "call" for b in o.blocks for s in b.steps):
        return
    by = {b.name: b for b in o.blocks}
    names = [b.name for b in o.blocks]
    succ = lambda n: by[n].targets()
    loops = flow.loops(flow.order(names[0], succ), succ)
    depth = {n: sum(n in body for body in loops.values()) for n in names}
    done, over, into, places = set(), crossing(o), order.liveness(o), Places(o)
    for head, body in sorted(loops.items(), key=lambda x: -len(x[1])):
        if head in done or head == names[0] or any(s.kind == "call" for n in body for s in by[n].steps):
            continue
        done |= body
        uses = {}
        for n in body:
            for s in by[n].steps:
                for w in [*s.args, s.dst]:
                    if isinstance(w, str):
                        uses[w] = uses.get(w, 0) + 8 ** (depth[n] - 1)
        worth = [v for v in sorted(uses, key=lambda v: (-uses[v], v)) if uses[v] >= WORTH and v in over]
        free = homes_of(machine) - places.pressure(body) if worth else 0
        for v in worth[:max(0, free)]:
            one = Split(o, head, body, v, into)
            one.run()
            places.add(one.own, head, body, one.at_end)


def crossing(o):
    """The variables that are needed after some call, and were there before it."""
    into, found = order.liveness(o), set()
    for b in o.blocks:
        now = set()
        for t in b.targets():
            now |= into[t]
        for s in reversed(b.steps):
            if s.dst and s.kind != "when":
                now.discard(s.dst)
            if s.kind == "call":
                found |= now
            now |= {w for w in s.args if isinstance(w, str)} | ({s.dst} if s.kind == "when" else set())
    return found


class Split:
    """One variable, in one loop. `into` has what is live at the begin of each block before all of this: of a variable that is not split it stays true."""

    def __init__(self, o, head, body, v, into):
        self.o, self.head, self.body, self.v, self.own, self.into = o, head, body, v, o.fresh() + "h", into
        # Whether a block has been added at the end of the text that uses the loop's variable.
        self.at_end = False

    def run(self):
        o, v, own, into = self.o, self.v, self.own, self.into
        inside = [b for b in o.blocks if b.name in self.body]
        assigned = any(s.dst == v for b in inside for s in b.steps)
        for b in inside:
            for s in b.steps:
                s.args = [own if w == v else w for w in s.args]
                s.dst = own if s.dst == v else s.dst
        if v in into[self.head]:
            for b in o.blocks:
                if b.name not in self.body and self.head in b.targets():
                    b.steps.insert(len(b.steps) - 1, Step("copy", own, None, [v]).marked(b.steps[-1].at))
        if assigned:
            for t in [t for t in o.blocks if t.name not in self.body and v in into[t.name]]:
                self.leave(t, [b for b in inside if t.name in b.targets()])

    def leave(self, t, before):
        """Gives the word back on the ways from these blocks to t."""
        if not before:
            return
        back = Step("copy", self.v, None, [self.own]).marked(t.steps[0].at)
        if all(b.name in self.body for b in self.o.blocks if t.name in b.targets()):
            t.steps.insert(0, back)
            return
        between = Block(self.o.fresh() + "e")
        between.steps = [back, Step("goto", to=[t.name]).marked(t.steps[0].at)]
        self.o.blocks.append(between)
        self.into[between.name], self.at_end = self.into[t.name], True
        for b in before:
            b.steps[-1].to = [between.name if n == t.name else n for n in b.steps[-1].to]
