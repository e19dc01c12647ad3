"""Orders of blocks, dominators, depths of loops, for any graph of blocks."""


def order(entry, succ, rank=lambda b: 0):
    """The blocks that are reached, each before those that only it leads to; of the ways on, those of low rank come last."""
    seen, done = {entry}, []
    stack = [(entry, iter(sorted(succ(entry), key=rank)))]
    while stack:
        b, ways = stack[-1]
        for w in ways:
            if w not in seen:
                seen.add(w)
                stack.append((w, iter(sorted(succ(w), key=rank))))
                break
        else:
            done.append(b)
            stack.pop()
    return done[::-1]


def predecessors(blocks, succ):
    found = {b: [] for b in blocks}
    for b in blocks:
        for w in succ(b):
            if b not in found[w]:
                found[w].append(b)
    return found


def dominators(blocks, pred):
    """The immediate dominator of each block; blocks are in reverse postorder."""
    at = {b: k for k, b in enumerate(blocks)}
    over = {blocks[0]: blocks[0]}
    changed = True
    while changed:
        changed = False
        for b in blocks[1:]:
            new = None
            for p in pred[b]:
                if p in over:
                    if new is None:
                        new = p
                    else:
                        x, y = p, new
                        while x != y:
                            while at[x] > at[y]:
                                x = over[x]
                            while at[y] > at[x]:
                                y = over[y]
                        new = x
            if over.get(b) != new:
                over[b] = new
                changed = True
    return over


def loops(blocks, succ):
    """The blocks of each loop, by the block at which it begins; blocks are in reverse postorder."""
    pred = predecessors(blocks, succ)
    over = dominators(blocks, pred)
    at = {b: k for k, b in enumerate(blocks)}
    found = {}
    for b in blocks:
        for h in succ(b):
            x = b
            while at[x] > at[h]:
                x = over[x]
            if x == h:
                body = found.setdefault(h, {h})
                stack = [b]
                while stack:
                    y = stack.pop()
                    if y not in body:
                        body.add(y)
                        stack.extend(pred[y])
    return found


def depths(blocks, succ):
    """How many loops each block stands in; blocks are in reverse postorder."""
    deep = {b: 0 for b in blocks}
    for body in loops(blocks, succ).values():
        for b in body:
            deep[b] += 1
    return deep
