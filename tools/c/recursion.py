"""Functions that call one another in a circle as one procedure, since calls of a program's text form no circle.

 1. A group (frames.py) becomes one procedure with the blocks of all its functions, and a stack in the data space. No call of the group is
    under way when one comes from outside, for who is called by the group does not call it. So the stack begins anew there.
 2. The stack's word (`stack`) is, within a function, the one after that function's own part: its arrays, and before them the number of the
    place to which it returns. A call within the group keeps above that the values that are needed after it, then the number of its
    place and room for the arrays of the function that is called, and jumps to that function's begin.
 3. A return reads the number, and jumps to the place that it says; there `stack` is what it was before the call, and what was kept is
    read again. So `stack` is the same from a function's begin to its end, as lower.py takes it.
 4. The steps of a group are made of variables, not of values: a variable that is needed after a call is kept whatever it is assigned in
    between.
 5. No word above the stack is written: what a call from outside needs has room (else the program is refused), and a call within the group looks
    first whether all that it puts above `stack` ends within the stack. If not, the run outputs FULL, stores it in the stack's first word, and
    halts. This is left out where the program is made without the check."""
import names
import order
from ir import Refused
from ssa import M, STACK, Block, Builder, Step

# The words of a stack where nothing else is said, and the fewest that it has where a machine has little room.
WORDS, FEWEST = 1024, 32
# The last word that a run outputs whose stack is full.
FULL = 0xDEADBEEF


def run(program, made):
    """The procedures: functions as they are, and one for each group."""
    found, done = [], set()
    for f, o in made.items():
        group = program.layout.group.get(f)
        if group is None:
            found.append(o)
        elif tuple(group) not in done:
            done.add(tuple(group))
            found.append(Group(program, group, {g: made[g] for g in group if g in made}, stack_of(program, len(done))).run())
    return found


def stack_of(program, number):
    """The words of a group's stack, the groups being counted from 1: what is said, or its part of what the machine has left."""
    room, groups = program.machine.data, len({tuple(g) for f, g in program.layout.group.items() if f in program.live})
    if program.stack_words or room is None:
        return program.stack_words or WORDS
    left = groups - number + 1
    return next((words for words in range(WORDS, FEWEST, -1) if program.layout.have_room(left, words, room)), FEWEST)


class Group:
    def __init__(self, program, group, made, words):
        self.program, self.layout, self.group, self.made = program, program.layout, group, made
        self.o = Builder(program.group_name(group), program.extra)
        self.grain = self.layout.grain[tuple(group)]
        self.base, self.words = self.layout.stack(group, words), words
        # Of each function: the blocks to which it returns, each with its number; 0 is outside.
        self.back = {f: [] for f in made}
        self.count = 0

    def run(self):
        o = self.o
        entered = self.program.entered(self.group)
        words = max(map(self.program.words_of, entered))
        o.params = [f"a{k}" for k in range(words + (len(entered) > 1))]
        for k, (f, one) in enumerate(self.made.items()):
            self.rename(one, f"f{k}_")
        self.enter(entered)
        for f, one in self.made.items():
            self.calls(one)
        for f in entered:
            self.back[f].append((0, None))
        for f, one in self.made.items():
            self.returns(f, one)
        return o

    def rename(self, one, head):
        """Gives names of a function's own to its variables and blocks; the stack is common."""
        stack = one.params[-1]
        name = lambda w: STACK if w == stack else head + w if isinstance(w, str) else w
        one.params = [name(p) for p in one.params[:-1]]
        for b in one.blocks:
            b.name = head + b.name
            for s in b.steps:
                s.dst = name(s.dst) if s.dst else None
                s.args = [name(w) for w in s.args]
                s.to = [head + t for t in s.to]

    def block(self):
        return self.o.begin(f"g{self.count_up()}")

    def count_up(self):
        self.count += 1
        return self.count

    def enter(self, entered):
        """From outside: the arguments, an empty stack, and the function that is called."""
        o = self.o
        first = self.block()
        for k, f in enumerate(entered):
            here = first
            if k + 1 < len(entered):
                here, on = self.block(), self.block()
                rel = "ltu" if self.program.machine_has("ltu") else "lt"
                first.steps.append(Step("if", None, rel, [o.params[0], k + 1], [here.name, on.name]))
                first = on
            pairs = self.differing(self.made[f].params, o.params[len(entered) > 1:])
            here.steps += names.parallel(o, pairs)
            number, top = self.place_of(self.base, f, 0)
            if top > self.base + self.words and self.program.stack_checked:
                raise Refused(f"the stack has {self.words} words, and a first call of {f[1:]} needs {top - self.base} (--stack N gives it more)")
            here.steps += [Step("store", None, None, [number, 0]), Step("copy", STACK, None, [top]), Step("goto", to=[self.made[f].blocks[0].name])]

    def differing(self, params, words):
        return [(p, w) for p, w in zip(params, words) if p != w]

    def place_of(self, base, f, kept):
        """Above so many words that are kept: where the number of a place to return to stands, and the stack of the function."""
        top = -(-(base + kept + 1 + self.layout.frame[f]) // self.grain) * self.grain
        return top - self.layout.frame[f] - 1, top

    def calls(self, one):
        """Writes each call within the group as a jump, what is needed after it being kept."""
        into = order.liveness(one)
        for b in list(one.blocks):
            now = set()
            for t in b.targets():
                now |= into[t]
            for k in range(len(b.steps) - 1, -1, -1):
                s = b.steps[k]
                if s.kind == "inner":
                    self.call(one, b, k, s, sorted(now - {s.dst, STACK}))
                if s.dst and s.kind != "when":
                    now.discard(s.dst)
                now |= {w for w in s.args if isinstance(w, str)} | ({s.dst} if s.kind == "when" else set())

    def call(self, one, b, k, s, kept):
        o, f = self.o, s.op
        after = Block(f"g{self.count_up()}")
        one.blocks.append(after)
        number = self.count_up()
        self.back[f].append((number, after.name))
        where, top = self.place_of(0, f, len(kept))
        put, get = [], [Step("op", STACK, "add", [STACK, -top & M]).marked(s.at)]
        for n, v in enumerate(kept):
            put += self.at_stack(n, s) + [Step("store", None, None, [o_place(o, n), v]).marked(s.at)]
            get += self.at_stack(n, s) + [Step("load", v, None, [o_place(o, n)]).marked(s.at)]
        put += self.at_stack(where, s) + [Step("store", None, None, [o_place(o, where), number]).marked(s.at)]
        put.append(Step("op", STACK, "add", [STACK, top]).marked(s.at))
        put += names.parallel(o, self.differing(self.made[f].params, s.args[:-1]))
        put.append(Step("goto", to=[self.made[f].blocks[0].name]).marked(s.at))
        if s.dst:
            get.append(Step("copy", s.dst, None, ["result"]).marked(s.at))
        after.steps = get + b.steps[k + 1:]
        b.steps[k:] = self.check(top, s) + put

    def check(self, more, s):
        """A step that leads to the end of the run where so many words more have no room. It is no end of a block: the order of the blocks, and what
        lives where, is that of a program without it."""
        if not self.program.stack_checked:
            return []
        if not self.o.full:
            self.o.full = [Step("out", args=[FULL])] if self.program.machine_has("out") else []
            self.o.full += [Step("store", None, None, [self.base, FULL]), Step("halt")]
        rel = "geu" if self.program.machine_has("ltu") else "ge"
        return [Step("check", None, rel, [STACK, max(0, self.base + self.words - more + 1)]).marked(s.at)]

    def at_stack(self, n, s):
        return [Step("op", o_place(self.o, n), "add", [STACK, n]).marked(s.at)] if n else []

    def returns(self, f, one):
        """Writes each return of a function as a jump to one of the places from which it is called."""
        ways = sorted(self.back[f], key=lambda x: x[0])
        for b in one.blocks:
            s = b.steps[-1]
            if s.kind == "ret":
                b.steps.pop()
                word = s.args[0]
                outside = [n for n, to in ways if to is None]
                if word != "result" and len(ways) > len(outside):
                    b.steps.append(Step("copy", "result", None, [word]).marked(s.at))
                if len(ways) > 1:
                    b.steps.append(Step("op", "where", "add", [STACK, -self.layout.frame[f] - 1 & M]).marked(s.at))
                    b.steps.append(Step("load", "where", None, ["where"]).marked(s.at))
                self.search(b, ways, word, s.at)
        self.o.blocks += one.blocks

    def search(self, b, ways, word, at):
        """Leads on from a block by halves."""
        if len(ways) == 1:
            to = ways[0][1]
            b.steps.append(Step("ret", args=[word]).marked(at) if to is None else Step("goto", to=[to]).marked(at))
            return
        half = len(ways) // 2
        low, high = self.block(), self.block()
        rel = "ltu" if self.program.machine_has("ltu") else "lt"
        b.steps.append(Step("if", None, rel, ["where", ways[half][0]], [low.name, high.name]).marked(at))
        self.search(low, ways[:half], word, at)
        self.search(high, ways[half:], word, at)


def o_place(o, n):
    """The variable that has the address of a word of the stack."""
    return f"at{n}" if n else STACK
