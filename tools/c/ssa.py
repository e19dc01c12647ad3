"""Three-address code in which each value is assigned once: steps, blocks and procedures, and a builder that folds as it writes.

An operand is a number below 2^32 or the name of a value. A step has a kind: `op` (op, args), `copy`, `load`, `store`, `out`, `in`, `call`
(op is the procedure), `inner` (the call of a function of the same group), `sel` (op a relation; the third argument where it holds between
the first two, else the fourth), `check` (op a relation; a run ends where it holds: recursion.py). The last step of a block is `goto`, `if`
(op a relation, two ways), `ret` or `halt`.

The builder finds equal operations within a block alone (`seen`), since what an earlier block has made need not have been made here. A
folded operation has the words of the operation itself for all words, by the meaning of the program's text: shifts take their number
modulo 32, a division by 0 gives the greatest word. `made` tells how a value was made, and is not asked of operations of a machine's own."""
from bounds import FULL, M, OPPOSITE, Bounds, signed
from lacking import Lacking
from simple import Simple

COMMUTES = {"add", "mul", "mulhu", "and", "or", "xor", "eq", "ne"}
FOLDED = COMMUTES | {"sub", "shl", "shr", "shru", "lt", "gt", "ltu", "gtu", "divu", "remu"}
PURE = {"op", "copy", "sel"}
# The value that a function of a group has of the stack: the word after its own part.
STACK = "stack"


def fold(op, a, b):
    sa, sb = signed(a), signed(b)
    return {
        "add": lambda: a + b, "sub": lambda: a - b, "mul": lambda: a * b, "mulhu": lambda: a * b >> 32, "and": lambda: a & b,
        "or": lambda: a | b, "xor": lambda: a ^ b, "shl": lambda: a << (b & 31), "shr": lambda: sa >> (b & 31),
        "shru": lambda: a >> (b & 31), "eq": lambda: a == b, "ne": lambda: a != b, "lt": lambda: sa < sb, "gt": lambda: sa > sb,
        "ltu": lambda: a < b, "gtu": lambda: a > b, "ge": lambda: sa >= sb, "geu": lambda: a >= b,
        "divu": lambda: a // b if b else M, "remu": lambda: a % b if b else a}[op]() & M


class Step:
    __slots__ = ("kind", "dst", "op", "args", "to", "at")

    def __init__(self, kind, dst=None, op=None, args=(), to=()):
        self.kind, self.dst, self.op, self.args, self.to, self.at = kind, dst, op, list(args), list(to), None

    def marked(self, at):
        """The step with a mark of the place in the source."""
        self.at = at
        return self

    def __repr__(self):
        return f"{self.dst} = {self.kind} {self.op} {self.args} {self.to}"


class Block:
    def __init__(self, name):
        self.name, self.phis, self.steps = name, [], []

    def targets(self):
        return list(dict.fromkeys(self.steps[-1].to))


class Builder(Bounds, Lacking, Simple):
    """Writes the steps of one procedure."""

    def __init__(self, name, extra=()):
        self.name, self.blocks, self.count = name, [], 0
        self.range, self.made, self.extra = {}, {}, set(extra)
        # The block that is written, what it has made so far, and the mark of the place in the source.
        self.block, self.seen, self.at, self.params = None, {}, None, []
        # The steps with which a run ends whose stack is full (recursion.py): steps of the kind `check` lead there.
        self.full = []

    def fresh(self, most=FULL):
        self.count += 1
        v = f"v{self.count}"
        if most != FULL:
            self.range[v] = most
        return v

    def begin(self, name=None):
        self.count += 1
        b = Block(name or f"b{self.count}")
        self.blocks.append(b)
        return b

    def enter(self, b):
        self.block, self.seen = b, {}

    def put(self, step):
        step.at = self.at
        self.block.steps.append(step)
        return step.dst

    # Operations, folded.

    def op(self, op, a, b=None):
        if b is None:
            return self.one(op, a)
        if isinstance(a, int) and isinstance(b, int) and op not in self.extra:
            return fold(op, a, b)
        if op in COMMUTES and isinstance(a, int):
            a, b = b, a
        same = self.simple(op, a, b)
        if same is not None:
            return same
        key = op, a, b
        if key in self.seen:
            return self.seen[key]
        if op in self.lacks:
            self.seen[key] = d = self.instead(op, a, b)
            return d
        return self.written(op, a, b)

    def written(self, op, a, b):
        """The operation itself."""
        d = self.fresh(self.reach(op, a, b))
        self.made[d] = op, a, b
        self.seen[op, a, b] = d
        return self.put(Step("op", d, op, [a, b]))

    def one(self, op, a):
        if isinstance(a, int):
            if op == "neg":
                return -a & M
            if op == "not":
                return ~a & M
        key = op, a, None
        if key in self.seen:
            return self.seen[key]
        if op in self.lacks:
            self.seen[key] = d = self.instead(op, a, None)
            return d
        d = self.fresh(self.reach(op, a, None))
        self.made[d] = key
        self.seen[key] = d
        return self.put(Step("op", d, op, [a]))

    def load(self, a, most=FULL):
        d = self.fresh(most)
        return self.put(Step("load", d, None, [a]))

    def store(self, a, v):
        self.put(Step("store", None, None, [a, v]))

    def goto(self, b):
        self.put(Step("goto", to=[b.name]))

    def branch(self, rel, a, b, yes, no):
        rel, a, b = self.relation(rel, a, b)
        if isinstance(a, int) and isinstance(b, int):
            self.goto(yes if self.holds(rel, a, b) else no)
        elif yes is no:
            self.goto(yes)
        else:
            rel, a, b = self.relation_here(rel, a, b)
            self.put(Step("if", None, rel, [a, b], [yes.name, no.name]))

    def holds(self, rel, a, b):
        return bool(fold({"eq": "eq", "ne": "ne", "lt": "lt", "ge": "ge", "ltu": "ltu", "geu": "geu"}[rel], a, b))

    def relation(self, rel, a, b):
        """One of the six relations, a number being the second word where it can be."""
        if rel in ("gt", "gtu", "le", "leu"):
            rel, a, b = {"gt": "lt", "gtu": "ltu", "le": "ge", "leu": "geu"}[rel], b, a
        if isinstance(a, int) and not isinstance(b, int):
            if rel in ("eq", "ne"):
                a, b = b, a
            elif rel == "lt" and a != 0x7FFFFFFF:
                rel, a, b = "ge", b, a + 1 & M
            elif rel == "ge" and a != 0x7FFFFFFF:
                rel, a, b = "lt", b, a + 1 & M
            elif rel == "ltu" and a != M:
                rel, a, b = "geu", b, a + 1
            elif rel == "geu" and a != M:
                rel, a, b = "ltu", b, a + 1
        if rel == "ltu" and b == 1:
            rel, b = "eq", 0
        elif rel == "geu" and b == 1:
            rel, b = "ne", 0
        return rel, a, b

    def truth(self, rel, a, b):
        """1 where the relation holds, else 0."""
        rel, a, b = self.relation(rel, a, b)
        if isinstance(a, int) and isinstance(b, int):
            return int(self.holds(rel, a, b))
        if rel in ("ge", "geu"):
            if isinstance(b, int) and rel == "ge" and b != 1 << 31:
                return self.op("gt", a, b - 1 & M)
            if isinstance(b, int) and rel == "geu" and b != 0:
                return self.op("gtu", a, b - 1)
            if isinstance(a, int) and rel == "ge" and a != 0x7FFFFFFF:
                return self.op("lt", b, a + 1 & M)
            if isinstance(a, int) and rel == "geu" and a != M:
                return self.op("ltu", b, a + 1)
            return self.op("xor", self.op("lt" if rel == "ge" else "ltu", a, b), 1)
        return self.op(rel, a, b)

    def select(self, rel, x, y, a, b):
        rel, x, y = self.relation(rel, x, y)
        if a == b:
            return a
        if isinstance(x, int) and isinstance(y, int):
            return a if self.holds(rel, x, y) else b
        if a == 1 and b == 0:
            return self.truth(rel, x, y)
        if a == 0 and b == 1:
            return self.truth(OPPOSITE[rel], x, y)
        if a == M and b == 0:
            return self.one("neg", self.truth(rel, x, y))
        r = self.of_choice((rel, x, y), a, b)
        rel, x, y = self.relation_here(rel, x, y)
        d = self.fresh(r if r[1] - r[0] <= M else FULL)
        return self.put(Step("sel", d, rel, [x, y, a, b]))
