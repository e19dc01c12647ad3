"""The data of a program: classes of what pointers may point to, and how each class stands in the words of the data space.

It is worked out in order: definitions and uses (`scan`), classes (classes.py and joins.py), places that are numbers (places.py), what is
known of places (rests.py), and the choice (cells.py). Each part names what the later ones rest on."""
from cells import Cells
from classes import PointsTo
from joins import Joins
from places import Numbers
from rests import Rests


class Memory(PointsTo, Joins, Numbers, Rests, Cells):
    def __init__(self, module, cell=None):
        # `only` is a number of bytes for all classes, for tests.
        self.m, self.only = module, cell
        # The class of each value; what is stored where; definitions and uses of values; how many loops each block stands in; functions
        # whose address is used; which numbers are made of which.
        self.var, self.sites, self.defs, self.uses, self.depth = {}, [], {}, {}, {}
        self.taken, self.flows = set(), []
        for d in module.data.values():
            k = self.of_key(("g", d.name))
            k.objects.append(d)
        for f in module.functions.values():
            self.of_key(("g", f.name)).functions.add(f.name)
            self.scan(f)
        for d in module.data.values():
            if d.init:
                self.initial(self.of_key(("g", d.name)), d.ty, d.init)
        self.calls()
        for f in module.functions.values():
            for b in f.blocks:
                for i in b.body:
                    self.instruction(f, b, i)
        self.arithmetic()
        self.rests()
        self.choose()
