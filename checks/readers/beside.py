"""Modules beside a core, which make operations in stages: one that stands in the text, and one of the designer's, as it is allowed to be."""
from readers.verilog_forms import Name, Refused
PORTS = ["clk", "enable", "a", "b", "word"]


class Told:
    """A module of the text. What it shows hangs on its registers alone."""

    def __init__(self, circuit):
        self.circuit = circuit

    def word(self):
        return self.circuit.shows({"enable": 0, "a": 0, "b": 0})[0]["word"]

    def clock(self, enable, a, b):
        self.circuit.shows({"enable": enable, "a": a, "b": b})[1]()


class Delayed:
    """What an operation makes of the words of so many enabled clocks before; any word before there were as many."""

    def __init__(self, made, stages, by):
        self.made, self.stages, self.by, self.kept = made, stages, by, []

    def word(self):
        return self.made(*self.kept[0]) if len(self.kept) == self.stages else self.by.getrandbits(32)

    def clock(self, enable, a, b):
        if enable:
            self.kept = [*self.kept, (a, b)][-self.stages:]


def beside(core, it, by, own, made):
    """What makes the words of an instance: `own` are the operations of the designer's by their names, and `made` makes what a module of
    the text is."""
    if list(it.joined) != PORTS or it.joined["clk"] != Name("clk") or type(it.joined["word"]) is not Name:
        raise Refused(f"{core.name}: {it.name} is joined as {it.joined}")
    if it.stages is None:
        return Told(made(it.module))
    if it.stages < 1 or not it.module.startswith("box_"):
        raise Refused(f"{core.name}: {it.name} has {it.stages} stages")
    return Delayed(own[it.module[len("box_"):]], it.stages, by)
