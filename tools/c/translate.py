"""A module of LLVM's representation as a program in three-address code.

What is worked out, in order: data (memory.py, layout.py), the steps of each function that a run can come to (lower.py), fewer of them
(tidy.py), variables (names.py), one procedure for each group of functions that call one another in a circle (recursion.py), the order of
the blocks (order.py), variables of loops' own (split.py) and for constants (steady.py), variables for several values where the frame is
small (share.py), and the text (printer.py)."""
import re
from collections import namedtuple

import names
import order
import printer
import recursion
import share
import split
import steady
import tidy
from calls import ARGS
from ir import Refused
from layout import Layout
from lower import Lowering
from memory import Memory
from module import Module

MOST_LINES, MOST_VARIABLES = 65536, 4096
# What a procedure other than main takes of the frame beside its variables.
KEPT = 2


class TooLong(Refused):
    """A text of more lines than may be."""


# Where data may begin, the words of the stack of each group of functions (nothing: as there is room), and whether a full one ends the run.
Room = namedtuple("Room", "base stack stack_checked", defaults=(16, None, True))


class Program:
    """A program on its way. `machine` says which operations there are and how much room, as far as it is known (machine.py)."""

    def __init__(self, text, machine, cell=None, room=Room()):
        self.machine, self.extra, self.stack_words, self.stack_checked = machine, machine.extra, room.stack, room.stack_checked
        self.module = Module(text)
        if "@main" not in self.module.functions:
            raise Refused("there is no function main")
        try:
            self.memory = Memory(self.module, cell)
            self.layout = Layout(self.module, self.memory, room.base)
        except Refused as e:
            if e.where and e.where.startswith("!"):
                e.where = self.module.place(e.where)
            raise
        if "@main" in self.layout.group:
            raise Refused("main is called by a function that it calls")
        # The functions that a run can come to; and of those of the library, which steps call, those that they do.
        self.live, self.asked = self.reached(["@main"]), set()
        self.names = self.procedure_names()

    def procedure_names(self):
        """A name for each function: its own, where that is a name of a program's text."""
        taken, found = set(printer.RESERVED) | {"main"} | self.machine.operations, {}
        for f in self.module.functions:
            n = re.sub(r"\W", "_", f[1:].strip('"'))
            n = "main" if f == "@main" else n if n not in taken and not n[0].isdigit() else f"f_{n}"
            while n in taken and f != "@main":
                n += "_"
            taken.add(n)
            found[f] = n
        return found

    # What the steps of a function ask of the whole.

    def machine_has(self, operation):
        return self.machine.has(operation)

    def most_arguments(self, f):
        """How many words a call of this function may carry: one less where it must say which function of a group it calls."""
        return ARGS - 1 if f in self.layout.group and len(self.entered(self.layout.group[f])) > 1 else ARGS

    def entered(self, group):
        """The functions of a group that others call."""
        return [f for f in group if any(g not in group and g in self.live for g, _ in self.memory.callers.get(f, []))]

    def group_name(self, group):
        return self.names[self.entered(group)[0]]

    def words_of(self, f):
        """How many words of a call its parameters take."""
        pieces = lambda ty: Lowering(self, self.module.functions[f]).pieces(ty)
        return min(sum(pieces(ty) for _, ty, _ in self.module.functions[f].params), self.most_arguments(f))

    def entering(self, group, f, words):
        """The arguments of a call of a group's procedure."""
        all_ = self.entered(group)
        words = words + [0] * (max(map(self.words_of, all_)) - len(words))
        return words if len(all_) == 1 else [all_.index(f), *words]

    # The text.

    def text(self):
        """The program's text, and for each of its lines the place in the source, or nothing."""
        made = {f.name: Lowering(self, f).run() for f in self.module.functions.values() if f.name in self.live}
        while self.asked - set(made):
            for f in sorted(self.reached(self.asked) - set(made)):
                made[f] = Lowering(self, self.module.functions[f]).run()
        for o in made.values():
            tidy.run(o)
            names.run(o)
        procedures = recursion.run(self, made)
        data = [(f"data {a} {printer.word(w)}", None) for a, w in self.layout.lines()]
        room = self.machine.data
        if room is not None and self.layout.top > room:
            raise Refused(f"the data need {self.layout.top} words, and the machine has {room}; the largest are {self.largest_data()}")
        # Before more is done, by what a text has at least: a line for each step but those that only lead on.
        self.check_length([(o.name, sum(len(b.steps) - 1 for b in o.blocks)) for o in procedures], "at least ")
        for o in procedures:
            order.run(o)
            split.run(o, self.machine)
            steady.run(o, self.machine)
        self.fit(procedures)
        texts = [printer.procedure(o) for o in procedures]
        lines = data + [line for text in texts for line in text]
        self.check_length([(o.name, len(text)) for o, text in zip(procedures, texts)] + [("the data", len(data))])
        self.steps = len(lines) - len(data)
        place = {at: self.module.place(at) for at in {at for _, at in lines}}
        return "".join(line + "\n" for line, _ in lines), [place[at] for _, at in lines]

    def check_length(self, sizes, about=""):
        count = sum(n for _, n in sizes)
        if count > MOST_LINES:
            told = ", ".join(f"{name} with {n}" for name, n in sorted(sizes, key=lambda x: -x[1])[:3])
            raise TooLong(f"the program has {about}{count} lines, and a text has at most {MOST_LINES}; the largest functions are {told}")

    def largest_data(self):
        sizes = [(self.layout.cells(d), d.name[1:]) for d in self.module.data.values()]
        sizes += [(words, f"the stack of {' and '.join(f[1:] for f in group)}") for group, (_, words) in self.layout.stacks.items()]
        largest = sorted(sizes, reverse=True)[:3]
        hint = "; --heap N gives malloc fewer bytes" if any(name == "heap" for _, name in largest) else ""
        return ", ".join(f"{name} with {n}" for n, name in largest) + hint

    def fit(self, made):
        """Lets values share variables until the frame has room for all."""
        counts = [share.count(o) for o in made]
        room = None if self.machine.frame is None else self.machine.frame - KEPT * (len(made) - 1)
        cap = MOST_VARIABLES
        while room is not None and cap > 8 and sum(min(n, cap) for n in counts) > room:
            cap -= max(1, cap // 16)
        for o in made:
            share.run(o, cap)
        counts = [share.count(o) for o in made]
        self.frame = sum(counts) + KEPT * (len(made) - 1)
        if self.machine.frame is not None and self.frame > self.machine.frame:
            raise Refused(f"the frame needs {self.frame} words, and the machine has {self.machine.frame}")
        if max(counts) > MOST_VARIABLES:
            raise Refused(f"{made[counts.index(max(counts))].name} needs {max(counts)} variables, and a procedure has at most {MOST_VARIABLES}")

    def reached(self, begin):
        """The functions that a run can come to from some."""
        found, work = set(), list(begin)
        while work:
            f = work.pop()
            if f in found:
                continue
            found.add(f)
            for b in self.module.functions[f].blocks:
                for i in b.body:
                    if i.op == "call":
                        work += self.memory.targets(i)
        return found

    def told(self):
        """A line for each kind of data: how many bytes a word holds, what a pointer counts, and which data they are."""
        for c in sorted((c for c in self.memory.classes() if c.objects), key=lambda c: min(map(self.begin, c.objects))):
            named = ", ".join(map(self.named, sorted(c.objects, key=self.begin)))
            counts = "words" if c.unit == c.cell else "bytes"
            sign = ", with their sign" if c.signed and c.cell < 4 else ""
            yield f"bytes a word {c.cell}{sign}, pointers count {counts}: {named}"
        for group, (at, words) in self.layout.stacks.items():
            yield f"a stack of {words} words: {', '.join(f[1:] for f in group)} at {at}"

    def begin(self, x):
        """Where an object begins: data, or an array of a function, those of the stack last."""
        if not isinstance(x, tuple):
            return self.layout.at[x.name]
        return self.layout.local.get((x[0], x[1].name), 1 << 32)

    def named(self, x):
        if not isinstance(x, tuple):
            return f"{x.name[1:]} at {self.layout.at[x.name]}"
        at = self.layout.local.get((x[0], x[1].name))
        return f"{x[1].name[1:]} of {x[0][1:]} " + ("on its stack" if at is None else f"at {at}")
