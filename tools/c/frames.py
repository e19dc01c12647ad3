"""Where the arrays of functions stand that live no longer than a call.

 1. A function that is never called again before it has returned has its arrays at a fixed place, above those of all that may call it. So
    functions that do not call one another share words, and no run has two of them at once.
 2. Words that functions share are of one kind each: how many bytes they hold, and whether with their sign. So what holds of the words of a
    class (cells.py, 2) holds of them too, whoever wrote them last.
 3. Functions that call one another in a circle are a group. They become one procedure (recursion.py), which keeps what is needed
    again on a stack of its own, their arrays among it. The classes of these arrays are loose: each word of the stack has many uses.
 4. An array in a loop would be another one at each turn; it is refused."""
from ir import Refused, count_of
from sizes import size_of

# The greatest alignment, in bytes, that LLVM gives data and then relies on.
EVEN = 16
# The functions of library.c and float.c that steps are calls of, of which LLVM's text has no call. The steps of one need at most those that
# stand before it here, and all others of the library need these at most.
RUN_TIME = "@tta_lib_"
BELOW = [("shl32", "shru32"), ("mul32", "div32", "rem32"), ("udiv", "urem", "sdiv", "srem")]


def up(at, grain):
    return -(-at // grain) * grain


def rank(f):
    """How far above the least functions of the library one stands, or above the whole library: its steps call lower ones alone."""
    if not f.startswith(RUN_TIME):
        return len(BELOW) + 1
    return next((at for at, names in enumerate(BELOW) if f[len(RUN_TIME):] in names), len(BELOW))


def groups(calls):
    """The functions in lists, those that call one another together, each list before those that it calls."""
    found, low, number, stack, inside = [], {}, {}, [], set()

    def open_(f):
        number[f] = low[f] = len(number)
        stack.append(f)
        inside.add(f)
        return f, iter(sorted(calls[f]))

    for root in calls:
        if root in number:
            continue
        work = [open_(root)]
        while work:
            f, ways = work[-1]
            for g in ways:
                if g not in number:
                    work.append(open_(g))
                    break
                if g in inside:
                    low[f] = min(low[f], number[g])
            else:
                work.pop()
                if work:
                    low[work[-1][0]] = min(low[work[-1][0]], low[f])
                if low[f] == number[f]:
                    one = stack[stack.index(f):]
                    del stack[stack.index(f):]
                    inside.difference_update(one)
                    found.append(sorted(one))
    return found[::-1]


class Frames:
    """The part of Layout that gives arrays of functions their words."""

    def frames(self):
        calls = self.called()
        self.group, self.frame = {}, {}
        lists = groups(calls)
        for one in lists:
            if len(one) > 1 or one[0] in calls[one[0]]:
                self.group.update({f: one for f in one})
        local = {f: list(self.arrays(f)) for f in calls}
        for one in lists:
            if one[0] in self.group:
                self.on_stack(one, local)
        self.local = {}
        kinds = sorted({self.kind(c) for f in calls if f not in self.group for _, c, _ in local[f]})
        for kind in kinds:
            self.one_kind(kind, lists, calls, local)

    def called(self):
        """Which functions each function may call, those of the library among them that its steps may need."""
        calls = {f: set() for f in self.m.functions}
        for g, sites in self.memory.callers.items():
            for f, _ in sites:
                calls[f].add(g)
        library = {f for f in calls if f.startswith(RUN_TIME)}
        ranks = self.ranks(calls)
        for f in calls:
            calls[f] |= {g for g in library if rank(g) < ranks[f]}
        return calls

    def ranks(self, calls):
        """The rank of each function, which is no higher than that of a function of the library that calls it: at -O0 small functions of float.c stand
        for themselves, and if they ranked above the library, they and their callers would seem to call one another in a circle."""
        found = {f: rank(f) for f in calls}
        work = [f for f in calls if f.startswith(RUN_TIME)]
        while work:
            f = work.pop()
            for g in calls[f]:
                if found[g] > found[f]:
                    found[g] = found[f]
                    work.append(g)
        return found

    def arrays(self, f):
        """The arrays of a function: name, class and size in words."""
        for b in self.m.functions[f].blocks:
            for i in b.body:
                if i.op == "alloca":
                    if self.memory.depth[f, b.name]:
                        raise Refused("an array that is made anew at each turn of a loop", i.at)
                    c = self.memory.of_key((f, i.name))
                    yield i.name, c, max(1, -(-size_of(self.m, i.of) * count_of(i) // c.cell))

    def kind(self, c):
        return c.cell, c.signed, c.loose

    def one_kind(self, kind, lists, calls, local):
        """The arrays of one kind, of all functions whose calls do not go in circles."""
        size, begin, most, here = {}, {}, 0, {}
        for f in calls:
            at = 0
            for name, c, words in local[f] if f not in self.group else []:
                if self.kind(c) == kind:
                    here[f, name] = at = self.even(at, c)
                    at += words
            size[f] = up(at, EVEN)
        for one in lists:
            start = max(begin.get(f, 0) for f in one)
            for f in one:
                begin[f] = start
                most = max(most, start + size[f])
                for g in calls[f]:
                    begin[g] = max(begin.get(g, 0), start + size[f])
        self.next = up(self.next, EVEN)
        base = self.take(most)
        self.local.update({(f, name): base + begin[f] + at for (f, name), at in here.items()})

    def on_stack(self, one, local):
        """The arrays of a group: words from the begin of a call's part of the stack, and how many that has."""
        even = any(c.bytes for f in one for _, c, _ in local[f])
        for f in one:
            at = 0
            for name, c, words in local[f]:
                c.loose = True
                at = self.even(at, c)
                self.stacked[f, name] = at
                at += words
            self.frame[f] = up(at, EVEN) if even else at
        self.grain[tuple(one)] = EVEN if even else 1
