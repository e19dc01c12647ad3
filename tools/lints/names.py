"""Variables that are read and never assigned, or assigned and never read, names that differ by one letter, and procedures that nothing calls."""
import re

# A pair of names is told where both have so many letters.
SHORTEST, SHORTEST_ALONE, LONGEST_NAME = 3, 4, 64


class Uses:
    """Where each variable of a procedure is assigned and read, by the lines."""

    def __init__(self, proc):
        self.assigned, self.read = {}, {}
        for name in proc.parameters:
            self.assigned.setdefault(name, []).append(proc.line)
        for step in proc.steps:
            for token in step.operands:
                if token.kind == "name":
                    self.read.setdefault(token.text, []).append(step.number)
            if step.dest:
                self.assigned.setdefault(step.dest.text, []).append(step.number)

    def names(self):
        return list(dict.fromkeys([*self.assigned, *self.read]))

    def count(self, name):
        return len(self.assigned.get(name, [])) + len(self.read.get(name, []))


def is_near(one, other):
    """Whether two names differ by one letter: another one, one more, one less, or two that changed places. Digits do not count."""
    if re.sub("[0-9]", "", one) == re.sub("[0-9]", "", other) or min(len(one), len(other)) < SHORTEST:
        return False
    if len(one) == len(other):
        places = [at for at, (a, b) in enumerate(zip(one, other)) if a != b]
        if len(places) == 1:
            return one[places[0]].isalpha() and other[places[0]].isalpha()
        return len(places) == 2 and places[1] == places[0] + 1 and one[places[0]] == other[places[1]] and one[places[1]] == other[places[0]]
    short, long = sorted((one, other), key=len)
    return len(long) == len(short) + 1 and any(long[:at] + long[at + 1:] == short and long[at].isalpha() for at in range(len(long)))


class Nearness:
    """Which names are near to which: two that are have a text in common that lacks one byte of each, or one lacks it of the other."""

    def __init__(self, names):
        self.names_with = {}
        for name in names:
            for text in self.parts(name):
                self.names_with.setdefault(text, []).append(name)

    @staticmethod
    def parts(name):
        return {name} | {name[:at] + name[at + 1:] for at in range(min(len(name), LONGEST_NAME))}

    def near(self, name):
        found = dict.fromkeys(other for text in self.parts(name) for other in self.names_with.get(text, []))
        return sorted(other for other in found if other != name and is_near(name, other))


def of_proc(proc):
    """What is found of the names of a procedure."""
    uses, told = Uses(proc), set()
    nearness = Nearness(uses.names())

    def instead(name):
        """Which name may be meant, or nothing."""
        near = nearness.near(name)
        return f"; is it `{max(near, key=uses.count)}`?" if near else ""

    for name, lines in uses.read.items():
        if name not in uses.assigned:
            told.add(name)
            yield lines[0], f"`{name}` is read, and no line of `{proc.name}` assigns it, so it is 0{instead(name)}"
    for name, lines in uses.assigned.items():
        if name in uses.read:
            continue
        told.add(name)
        if name in proc.parameters:
            yield lines[0], f"`{proc.name}` never reads its parameter `{name}`{instead(name)}"
            continue
        step = next(step for step in proc.steps if step.number == lines[0])
        value = f"; `call {step.name}` drops the value" if step.kind == "call" and not instead(name) else ""
        yield lines[0], f"`{name}` is assigned, and no line of `{proc.name}` reads it{instead(name)}{value}"
    for one in uses.names():
        for other in nearness.near(one) if one not in told and len(one) >= SHORTEST_ALONE else []:
            if one < other and other not in told and len(other) >= SHORTEST_ALONE:
                rarer, kept = sorted((one, other), key=uses.count)
                line = min(uses.assigned.get(rarer, []) + uses.read.get(rarer, []))
                yield line, f"`{rarer}` differs from `{kept}` by one letter"


def uncalled(program):
    """Procedures that `main` does not come to by calls."""
    seen, left = set(), ["main"]
    while left:
        proc = program.proc(left.pop())
        if proc and proc.name not in seen:
            seen.add(proc.name)
            left += [step.name for step in proc.steps if step.kind == "call"]
    return [(proc.line, f"no call leads from `main` to the procedure `{proc.name}`") for proc in program.procs if proc.name not in seen]


def findings(program):
    return [found for proc in program.procs for found in of_proc(proc)] + uncalled(program)
