"""Variables for more than one value each, where a machine's frame space has too few words for a variable of each value's own.

A variable keeps its register from its first use to its last, in the order of the text. So two values share one where the second begins
soon after the end of the first: then the register waits for few lines, and the frame needs one word less."""
import order


def run(o, room):
    """Names variables anew so that there are at most `room`, if it can be done; those that wait least are shared first."""
    if count(o) <= room:
        return
    spans = intervals(o)
    gaps = pairs(spans)
    need = len(spans) - room
    follow = {}
    for gap, a, b in sorted(gaps)[:need]:
        follow[b] = a
    name = {}
    for v in sorted(spans, key=lambda v: spans[v][0]):
        name[v] = name[follow[v]] if v in follow else v
    get = lambda w: name.get(w, w) if isinstance(w, str) else w
    o.params = [get(p) for p in o.params]
    for b in o.blocks:
        for s in b.steps:
            if s.dst:
                s.dst = get(s.dst)
            s.args = [get(w) for w in s.args]


def count(o):
    """How many variables a procedure has."""
    return len({w for b in o.blocks for s in b.steps for w in (*s.args, s.dst) if isinstance(w, str)}.union(o.params))


def intervals(o):
    """The first and the last place of each variable, a place for each step and one for the begin and the end of each block."""
    into = order.liveness(o)
    first, last, at = {}, {}, 0

    def seen(w, k):
        first.setdefault(w, k)
        last[w] = max(last.get(w, k), k)

    for p in o.params:
        seen(p, 0)
    for b in o.blocks:
        at += 1
        # What is seen first at one place is in one order, whatever order a set has.
        for w in sorted(into[b.name] - first.keys()):
            seen(w, at)
        for w in into[b.name]:
            last[w] = max(last[w], at)
        for s in b.steps:
            at += 1
            for w in s.args:
                if isinstance(w, str):
                    seen(w, at)
            if s.dst:
                seen(s.dst, at if s.kind == "when" else at + 0.5)
        for t in b.targets():
            for w in into[t]:
                seen(w, at + 0.75)
        at += 1
    return {v: (first[v], last[v]) for v in first}


def pairs(spans):
    """Which value may follow which in one variable: each value the one that ended last before it."""
    by_start = sorted(spans, key=lambda v: spans[v][0])
    ends = sorted(spans, key=lambda v: spans[v][1])
    free, k, found = [], 0, []
    for v in by_start:
        while k < len(ends) and spans[ends[k]][1] < spans[v][0]:
            free.append(ends[k])
            k += 1
        if free:
            a = free.pop()
            found.append((spans[v][0] - spans[a][1], a, v))
    return found
