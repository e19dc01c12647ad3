"""Takes out what is not needed: blocks that nothing leads to, values that nothing uses, phis that choose between one value."""
import flow
from ssa import PURE


def run(o):
    reachable(o)
    trivial(o)
    unused(o)
    merge(o)


def reachable(o):
    by = {b.name: b for b in o.blocks}
    names = flow.order(o.blocks[0].name, lambda n: by[n].targets())
    kept = set(names)
    o.blocks = [b for b in o.blocks if b.name in kept]
    pred = flow.predecessors([b.name for b in o.blocks], lambda n: by[n].targets())
    for b in o.blocks:
        for entry in b.phis:
            entry[1] = {p: w for p, w in entry[1].items() if p in pred[b.name]}


def replace(o, change):
    def final(w):
        while w in change:
            w = change[w]
        return w
    for b in o.blocks:
        for entry in b.phis:
            entry[1] = {p: final(w) for p, w in entry[1].items()}
        for s in b.steps:
            s.args = [final(w) for w in s.args]


def trivial(o):
    on = True
    while on:
        on = False
        change = {}
        for b in o.blocks:
            kept = []
            for d, come in b.phis:
                others = {w for w in come.values() if w != d}
                if len(others) == 1:
                    change[d] = others.pop()
                else:
                    kept.append([d, come])
            b.phis = kept
        if change:
            on = True
            replace(o, change)


def unused(o):
    made = {}
    work = []
    for b in o.blocks:
        for d, come in b.phis:
            made[d] = [w for w in come.values() if isinstance(w, str)]
        for s in b.steps:
            words = [w for w in s.args if isinstance(w, str)]
            if s.kind in PURE or s.kind == "load":
                made[s.dst] = words
            else:
                work += words
    live = set()
    while work:
        w = work.pop()
        if w not in live:
            live.add(w)
            work += made.get(w, [])
    for b in o.blocks:
        b.phis = [e for e in b.phis if e[0] in live]
        b.steps = [s for s in b.steps if not ((s.kind in PURE or s.kind == "load") and s.dst not in live)]
        for s in b.steps:
            if s.kind in ("call", "inner") and s.dst not in live:
                s.dst = None


def merge(o):
    """Joins a block with the one that it alone leads to and that nothing else leads to."""
    by = {b.name: b for b in o.blocks}
    pred = flow.predecessors([b.name for b in o.blocks], lambda n: by[n].targets())
    gone = set()
    for b in o.blocks:
        while b.name not in gone and b.steps[-1].kind == "goto":
            t = by[b.steps[-1].to[0]]
            if t is b or t is o.blocks[0] or t.phis or pred[t.name] != [b.name]:
                break
            b.steps[-1:] = t.steps
            gone.add(t.name)
            for w in b.targets():
                pred[w] = [b.name if p == t.name else p for p in pred[w]]
                for e in by[w].phis:
                    if t.name in e[1]:
                        e[1][b.name] = e[1].pop(t.name)
    o.blocks = [b for b in o.blocks if b.name not in gone]
