"""Follows a run cycle by cycle by what `debug` and `dis` say: registers and result ports are asked for, and what the debugger does not tell is
kept here."""
import os
import re

from built import PROGRAM
from folders import run


def replies_of(folder, m, words, stream, most):
    """The lines that the debugger replies where it is asked for all of a state, then makes a cycle, and so on."""
    registers = [f"reg {name} {k}" for name, f in m.files.items() for k in range(f[1])]
    asked = ["where"] + registers + [f"port {name}" for name in m.units]
    with open(os.path.join(folder, "script"), "w") as f:
        f.write("\n".join((asked + ["step 1"]) * most + asked) + "\n")
    return iter(run(folder, PROGRAM, "debug", *words, "script", *([stream] if stream else []))[1].split("\n"))


def code_of(folder, words):
    """The text of each instruction."""
    run(folder, PROGRAM, "dis", *words[:2], "shown")
    with open(os.path.join(folder, "shown")) as f:
        return [line for line in f.read().split("\n") if line and not line.startswith("data ")]


class Kept:
    """What a machine keeps that the debugger does not tell: immediate registers, operand ports and the return address, by the names of
    signals. It is followed from instruction to instruction."""

    def __init__(self, m):
        self.m, self.words = m, {"n_ra": None}
        self.words.update({f"imm_{name}_{k}": None for name, i in m.imms.items() for k in range(i[0])})
        self.words.update({f"kept_{name}": None for name in m.units})

    def source(self, text, seen):
        """The word of a source, which may be a register or a port that the debugger told."""
        if text.isdigit():
            return int(text)
        name, part = text.split(".")
        if name == "gcu":
            return self.words["n_ra"]
        if name in self.m.imms:
            return self.words[f"imm_{name}_{part}"]
        return seen[f"shown_{name}" if name in self.m.units else f"reg_{name}_{part}"]

    def write(self, moves, long, address):
        """Follows an instruction that is carried out: what its moves brought, its long immediate, and its address."""
        for target, word in moves:
            if target.endswith(".o"):
                self.words[f"kept_{target[:-2]}"] = word
            elif target == "gcu.t.call":
                self.words["n_ra"] = address + 1 + self.m.control[0]
        if long:
            imm, index = self.m.templates[long[1]][:2]
            self.words[f"imm_{imm}_{index}"] = int(long[2])


def told_by(m, replies):
    """The address of a state where the debugger says it, its cycle, and its registers and result ports."""
    place = re.search(r"^(?:at (\d+) )?.*cycle (\d+)$", next(replies))
    names = [f"reg_{name}_{k}" for name, f in m.files.items() for k in range(f[1])] + [f"shown_{name}" for name in m.units]
    words = [next(replies) for _ in names]
    return place[1], int(place[2]), {name: int(word) if word.isdigit() else None for name, word in zip(names, words)}


def carried(m, kept, seen, text):
    """What the buses do in a state that comes to an instruction: the signals of buses and of operations that start, and what the moves
    bring."""
    slots = text.split(" ;")[0].split(" [")[0].split(" , ") if text else ["..."] * len(m.buses)
    signals = {f"start_{name}_{k}": 0 for name, unit in m.units.items() for k in range(len(unit["ops"]))}
    moves = []
    for bus, slot in zip(m.buses, slots):
        guard, source, target = re.fullmatch(r"(?:([?!]\S+) )?(\S+) -> (\S+)", slot).groups() if slot != "..." else (None, None, None)
        word = seen["reg_{}_{}".format(*guard[1:].split("."))] if guard else 1
        acts = source is not None and word is not None and (word != 0) == (not guard or guard[0] == "?")
        signals[f"acts_{bus}"] = int(acts)
        signals[f"bus_{bus}"] = kept.source(source, seen) if acts else None
        if acts:
            moves.append((target, signals[f"bus_{bus}"]))
            unit, _, op = target.partition(".t.")
            if unit in m.units:
                signals[f"start_{unit}_{list(m.units[unit]['ops']).index(op)}"] = 1
    return signals, moves


def cycles(folder, m, words, stream, most):
    """For each cycle that is carried out the address of its instruction, the registers and result ports before it, what its moves bring, and
    what is kept after it."""
    code, replies, kept = code_of(folder, words), replies_of(folder, m, words, stream, most), Kept(m)
    for _ in range(most):
        address, _, seen = told_by(m, replies)
        text = code[int(address)] if address is not None and int(address) < len(code) else None
        if text is None:
            return
        _, moves = carried(m, kept, seen, text)
        while (line := next(replies)).startswith("out "):
            pass
        if re.match(r"waiting|fault \d+", line):
            return
        kept.write(moves, re.search(r"\[(\w+)=(\d+)\]", text), int(address))
        yield int(address), seen, moves, kept.words
