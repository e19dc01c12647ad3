"""Calls: of functions of the program, by pointer, of the library, and of what the machine offers.

 1. A procedure takes as many words as a call may carry; further words of arguments, and of results after the first, go through words of
    the data space of their own. The callee reads its arguments before it calls anything, the caller its results directly after the call,
    so it does not matter that a later call uses the same words.
 2. A call by pointer compares the number of the function with those of all that it may be (classes.py, 4). The last is not compared: a
    pointer to anything else is undefined in C.
 3. A call within a group (frames.py, 3) is marked `inner` and becomes a jump (recursion.py); one from outside enters the group's
    procedure, and says by a first word at which function, where several are entered."""
from frames import RUN_TIME
from ssa import FOLDED, STACK, Step

# The words that a call may carry.
ARGS = 8


class Calls:
    """The part of Lowering that calls and returns."""

    def do_ret(self, i):
        if self.f.name == "@main":
            self.o.put(Step("halt"))
            return
        words = self.value(i.v, i.ty) if i.v else []
        for k, w in enumerate(words[1:]):
            self.o.store(self.layout.reserve((self.f.name, "ret", k)), w)
        self.o.put(Step("ret", args=[words[0] if words else 0] + ([STACK] if self.f.name in self.layout.group else [])))

    def do_extractvalue(self, i):
        words = self.value(i.a, i.of)
        at, ty = self.path(i)
        return words[at:at + self.pieces(ty)]

    def do_insertvalue(self, i):
        words = list(self.value(i.a, i.of))
        at, ty = self.path(i)
        words[at:at + self.pieces(ty)] = self.value(i.item[1], i.item[0])
        return words

    def path(self, i):
        at, ty = 0, self.m.real(i.of)
        for k in i.path:
            if ty[0] == "struct":
                at += sum(self.pieces(x) for x in ty[1][:k])
                ty = self.m.real(ty[1][k])
            else:
                at += k * self.pieces(ty[2])
                ty = self.m.real(ty[2])
        return at, ty

    # Calls.

    def do_call(self, i):
        name = self.memory.callee(i)
        if name is None:
            return self.by_pointer(i)
        if name.startswith("@llvm."):
            import intrinsics
            return intrinsics.lower(self, i, name[6:])
        if name in self.m.functions:
            return self.call(i, name)
        return self.outside(i, name[1:])

    def call(self, i, name):
        o = self.o
        g = self.m.functions[name]
        if g.variadic:
            self.refuse(f"{name[1:]} takes any number of arguments")
        if len(g.params) != len(i.args):
            self.refuse(f"a call of {name[1:]} with another number of arguments")
        words = []
        for (pn, pty, attrs), (ty, v, _) in zip(g.params, i.args):
            if self.pieces(pty) != self.pieces(ty):
                self.refuse(f"a call of {name[1:]} with arguments of other types")
            n = self.bits(ty) if self.m.real(ty)[0] in ("int", "ptr") else 64
            if n < 32 and "zeroext" in attrs:
                words.append(self.plain(v, ty))
            elif n < 32 and "signext" in attrs:
                words.append(self.with_sign(v, ty))
            else:
                words += self.value(v, ty)
        return self.enter(name, words, self.pieces(i.ty) if i.name else 0)

    def enter(self, name, words, count):
        """Writes the call of a procedure with words, and gives so many words of its result."""
        o = self.o
        most = self.all.most_arguments(name)
        for k, w in enumerate(words[most:]):
            o.store(self.layout.reserve((name, "arg", k)), w)
        d = o.fresh() if count else None
        group = self.layout.group.get(name)
        if group is None:
            o.put(Step("call", d, self.all.names[name], words[:most]))
        elif self.f.name in group:
            o.put(Step("inner", d, name, [*words[:most], STACK]))
        else:
            o.put(Step("call", d, self.all.group_name(group), self.all.entering(group, name, words[:most])))
        if not count:
            return None
        return [d] + [o.load(self.layout.reserve((name, "ret", k))) for k in range(count - 1)]

    def run_time(self, name, words, results):
        """A call of a function of the library that no call of LLVM's text asks for."""
        if self.f.name == RUN_TIME + name:
            self.refuse("the machine lacks operations that stand for others that it lacks")
        self.all.asked.add(RUN_TIME + name)
        return self.enter(RUN_TIME + name, words, results)

    def by_pointer(self, i):
        """A call through a pointer: the functions that it may be, one after another."""
        o = self.o
        w = self.word(i.target, ("ptr",))
        targets = self.memory.targets(i)
        if not targets:
            self.refuse("a call through a pointer that no function fits")
        end = o.begin()
        count = self.pieces(i.ty) if i.name else 0
        results = [o.fresh() for _ in range(count)]
        entries = [[d, {}] for d in results]
        for k, g in enumerate(targets):
            if k + 1 < len(targets):
                here, next_ = o.begin(), o.begin()
                o.branch("eq", w, self.layout.ids[g], here, next_)
                o.enter(here)
            found = self.call(i, g) or []
            for (d, come), x in zip(entries, found):
                come[o.block.name] = x
            o.goto(end)
            if k + 1 < len(targets):
                o.enter(next_)
        o.enter(end)
        end.phis += entries
        return results if count else None

    def outside(self, i, name):
        """A function that no file defines: a step of the machine, or nothing that is known."""
        o = self.o
        args = [w for ty, v, _ in i.args for w in ([self.plain(v, ty)] if self.m.real(ty)[0] == "int" and self.bits(ty) < 32
                                                  else self.value(v, ty))]
        if name in ("tta_out", "tta_in") and not self.all.machine_has(name[4:]):
            self.refuse(f"{name}, since the machine lacks {name[4:]}")
        if name == "tta_out" and len(args) == 1:
            o.put(Step("out", args=args))
            return None
        if name == "tta_in" and not args:
            return [o.put(Step("in", o.fresh()))]
        if name == "tta_load" and len(args) == 1:
            return [o.load(args[0])]
        if name == "tta_store" and len(args) == 2:
            o.store(*args)
            return None
        if name in ("exit", "abort", "_Exit", "__assert_fail", "tta_halt"):
            o.put(Step("halt"))
            o.enter(o.begin())
            return [0] * self.pieces(i.ty)
        if name.startswith("tta_op_"):
            return self.operation(name[7:], args)
        self.refuse(f"a call of {name}, which no file defines")

    def operation(self, name, args):
        """An operation of the machine by its name."""
        if len(args) not in (1, 2):
            self.refuse(f"the operation {name} with {len(args)} words: an operation takes one or two")
        standard = 1 if name in ("neg", "not") else 2 if name in FOLDED else None
        if standard and len(args) != standard:
            self.refuse(f"the operation {name} with {len(args)} words, and not {standard}")
        if standard:
            return [self.o.op(name, *args)]
        if not self.all.machine_has(name):
            self.refuse(f"the operation {name}, which the machine lacks")
        return [self.o.put(Step("op", self.o.fresh(), name, args))]
