"""Makes variables of values: phis become copies, values that never live at once and copy one another get one variable, and the
blocks get their order in the text."""
import flow
from ssa import OPPOSITE, Block, Step


def run(o):
    split_edges(o)
    by = {b.name: b for b in o.blocks}
    depth = layout(o, by)
    liveness(o, by)
    to_edges(o, by)
    live = liveness(o, by)
    sink(o, by, live)
    live = liveness(o, by)
    near = interference(o, live)
    find = coalesce(o, depth, near, live)
    lines(o, by, find)


def split_edges(o):
    """A block on each edge from a block with two ways to a block with phis and two ways in."""
    by = {b.name: b for b in o.blocks}
    pred = flow.predecessors([b.name for b in o.blocks], lambda n: by[n].targets())
    for b in list(o.blocks):
        if not b.phis or len(pred[b.name]) < 2:
            continue
        for p in pred[b.name]:
            if len(by[p].targets()) > 1:
                e = Block(f"e{o.count}")
                o.count += 1
                e.steps = [Step("goto", to=[b.name])]
                o.blocks.append(e)
                by[e.name] = e
                end = by[p].steps[-1]
                end.to = [e.name if t == b.name else t for t in end.to]
                for entry in b.phis:
                    if p in entry[1]:
                        entry[1][e.name] = entry[1].pop(p)


def layout(o, by):
    succ = lambda n: by[n].targets()
    names = flow.order(o.blocks[0].name, succ)
    depth = flow.depths(names, succ)
    names = flow.order(o.blocks[0].name, succ, lambda n: depth[n])
    o.blocks = [by[n] for n in names]
    return depth


def liveness(o, by):
    """The values that are live at the end of each block."""
    use, made = {}, {}
    for b in o.blocks:
        u, d = set(), {e[0] for e in b.phis}
        for s in b.steps:
            u |= {w for w in s.args if isinstance(w, str)} - d
            if s.dst:
                d.add(s.dst)
        use[b.name], made[b.name] = u, d
    into = {b.name: set() for b in o.blocks}
    ways = {b.name: b.targets() for b in o.blocks}
    # What phis of the blocks after it take from a block.
    out = {n: {e[1][n] for t in ways[n] for e in by[t].phis if isinstance(e[1].get(n), str)} for n in ways}
    before = flow.predecessors(list(ways), lambda n: ways[n])
    work = list(ways)
    waiting = set(work)
    while work:
        n = work.pop()
        waiting.discard(n)
        end = out[n]
        for t in ways[n]:
            end |= into[t]
        new = use[n] | (end - made[n])
        if new != into[n]:
            into[n] = new
            more = [p for p in before[n] if p not in waiting]
            work += more
            waiting.update(more)
    o.into = into
    return out


def to_edges(o, by):
    """A value that only one way out of a block needs is made on that way."""
    count = {}
    for b in o.blocks:
        for _, come in b.phis:
            for w in come.values():
                count[w] = count.get(w, 0) + 1
        for s in b.steps:
            for w in s.args:
                count[w] = count.get(w, 0) + 1
    pred = flow.predecessors([b.name for b in o.blocks], lambda n: by[n].targets())
    for e in o.blocks:
        if len(e.steps) != 1 or e.phis or e.steps[0].kind != "goto" or len(pred[e.name]) != 1:
            continue
        b = by[pred[e.name][0]]
        if b.steps[-1].kind != "if":
            continue
        end = b.steps[-1]
        other = [t for t in end.to if t != e.name]
        for d, come in by[e.steps[-1].to[0]].phis:
            w = come.get(e.name)
            if not (other and d in o.into[other[0]] or d in end.args):
                continue
            if isinstance(w, str) and count[w] == 1:
                for s in b.steps:
                    if s.dst == w and s.kind == "op":
                        b.steps.remove(s)
                        e.steps.insert(0, s)
                        break


def sink(o, by, live):
    """A value that follows another as a phi is made after the last use of that one, where nothing else needs it earlier."""
    for b in o.blocks:
        for t in b.targets():
            for d, come in by[t].phis:
                w = come.get(b.name)
                if not isinstance(w, str) or d in live[b.name] or d in b.steps[-1].args:
                    continue
                at = [k for k, s in enumerate(b.steps) if s.dst == w]
                uses = [k for k, s in enumerate(b.steps) if d in s.args]
                if not at or not uses or b.steps[at[0]].kind not in ("op", "sel", "copy") or uses[-1] <= at[0]:
                    continue
                if any(w in s.args for s in b.steps[at[0] + 1:uses[-1] + 1]):
                    continue
                s = b.steps.pop(at[0])
                b.steps.insert(uses[-1], s)


def interference(o, live):
    """Which values live at once."""
    near = {}

    def meet(a, others):
        mine = near.setdefault(a, set())
        for x in others:
            if x != a:
                mine.add(x)
                near.setdefault(x, set()).add(a)

    for p in o.params:
        near.setdefault(p, set())
    for b in o.blocks:
        now = set(live[b.name])
        for s in reversed(b.steps):
            if s.dst:
                now.discard(s.dst)
                meet(s.dst, now)
            now |= {w for w in s.args if isinstance(w, str)}
        made = {e[0] for e in b.phis}
        for d in made:
            meet(d, (now | made) - {d})
        if b is o.blocks[0]:
            for p in o.params:
                meet(p, (now | set(o.params)) - {p})
    return near


class Shared:
    """Classes of values that share a variable; `near` has what lives at once with each."""

    def __init__(self, near):
        self.near, self.up = near, {}

    def find(self, w):
        up = self.up
        while up.get(w, w) != w:
            up[w] = up.get(up[w], up[w])
            w = up[w]
        return w

    def join(self, a, b):
        """Joins the classes of two values, unless some of them live at once."""
        near, a, b = self.near, self.find(a), self.find(b)
        if a == b or b in near.get(a, ()) or a in near.get(b, ()):
            return
        if len(near.get(a, ())) < len(near.get(b, ())):
            a, b = b, a
        self.up[b] = a
        mine = near.setdefault(a, set())
        for x in near.pop(b, set()):
            x = self.find(x)
            mine.add(x)
            near[x].discard(b)
            near[x].add(a)


def coalesce(o, depth, near, live):
    """Values that copy one another share a variable where they can, within loops first: gives the value that stands for each class."""
    shared = Shared(near)
    for _, _, _, d, w in sorted(wishes(o, depth, live), key=lambda x: x[:3]):
        shared.join(d, w)
    return shared.find


def wishes(o, depth, live):
    """Pairs of values that would be copies of one another, the rank of each pair first."""
    found = []
    for k, b in enumerate(o.blocks):
        for d, come in b.phis:
            for p, w in come.items():
                if isinstance(w, str):
                    found.append((-depth.get(p, depth.get(b.name, 0)), 0, k, d, w))
        after = set(live[b.name])
        for s in reversed(b.steps):
            if s.kind == "sel":
                x, y, a, c = s.args
                for w in (c, a):
                    if isinstance(w, str) and w not in after:
                        found.append((-depth.get(b.name, 0), 1, k, s.dst, w))
            if s.dst:
                after.discard(s.dst)
            after |= {w for w in s.args if isinstance(w, str)}
    return found


def lines(o, by, find):
    """Steps with variables in place of values, copies in place of phis."""
    name = lambda w: find(w) if isinstance(w, str) else w
    for b in o.blocks:
        made = []
        for s in b.steps[:-1]:
            if s.kind == "sel":
                made += with_place(chosen(o, name(s.dst), s.op, [name(w) for w in s.args]), s.at)
            elif s.kind == "copy":
                if name(s.dst) != name(s.args[0]):
                    made.append(Step("copy", name(s.dst), None, [name(s.args[0])]).marked(s.at))
            else:
                made.append(Step(s.kind, name(s.dst) if s.dst else None, s.op, [name(w) for w in s.args]).marked(s.at))
        end = b.steps[-1]
        pairs = []
        for t in b.targets():
            for d, come in by[t].phis:
                if b.name in come and name(d) != name(come[b.name]):
                    pairs.append((name(d), name(come[b.name])))
        made += with_place(parallel(o, pairs), end.at)
        made.append(Step(end.kind, None, end.op, [name(w) for w in end.args], end.to).marked(end.at))
        b.steps = made
    o.params = [name(p) for p in o.params]
    for b in o.blocks:
        b.phis = []


def with_place(steps, at):
    for s in steps:
        s.at = at
    return steps


def chosen(o, d, rel, args):
    """A choice as a copy and a copy under a condition."""
    x, y, a, b = args
    if a == b:
        return [Step("copy", d, None, [a])] if d != a else []
    if d == b:
        return [Step("when", d, rel, [x, y, a])]
    if d == a:
        return [Step("when", d, OPPOSITE[rel], [x, y, b])]
    if d in (x, y):
        t = o.fresh()
        return [Step("copy", t, None, [b]), Step("when", t, rel, [x, y, a]), Step("copy", d, None, [t])]
    return [Step("copy", d, None, [b]), Step("when", d, rel, [x, y, a])]


def parallel(o, pairs):
    """Copies that are made at once, one after another."""
    made = []
    left = dict(pairs)
    while left:
        free = [d for d in left if d not in left.values()]
        if free:
            for d in free:
                made.append(Step("copy", d, None, [left.pop(d)]))
            continue
        d = next(iter(left))
        t = o.fresh()
        made.append(Step("copy", t, None, [d]))
        left = {k: t if v == d else v for k, v in left.items()}
    return made
