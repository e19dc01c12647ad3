"""Machines, code for them, programs, and the words of data spaces and inputs, made by chance: the same for the same generator."""
import subprocess

from built import PROGRAM
from readers.assembly import assembly
from readers.machine import dests_on, guards_on, sources_on
from readers.tokens import ARITY, answer

WORDS = [0, 1, 2, 3, 5, 31, 32, 33, 127, 2**31 - 1, 2**31, 2**32 - 2, 2**32 - 1]
BOUNDS = [0, 1, 5, 20, 60, 300]
OPERATIONS = list(ARITY)


def write(name, data):
    with open(name, "wb") as f:
        f.write(data)


def tool(*words):
    r = subprocess.run([PROGRAM, *words], capture_output=True, timeout=120, stdin=subprocess.DEVNULL)
    return r.returncode, r.stdout.decode(), r.stderr.decode()


def subset(by, things):
    return " ".join(by.sample(things, by.randint(1, len(things))))


def machine_text(by):
    """A machine's text, which may still be refused: its buses can be too narrow for its templates."""
    buses = [f"b{i}" for i in range(by.randint(1, 5))]
    lines = [f"bus {bus} short {by.choice([1, 2, 5, 8, 9, 16, 31, 32])} {by.choice(['signed', 'unsigned'])}" for bus in buses]
    everywhere = " ".join(buses)
    lines += [f"socket i0 in {everywhere}", f"socket i1 in {subset(by, buses)}", f"socket o0 out {everywhere}", f"socket o1 out {subset(by, buses)}"]
    into, out = (lambda: by.choice(["i0", "i0", "i1"])), (lambda: by.choice(["o0", "o0", "o1"]))
    for name, width in (("R", 32), ("G", 1), ("S", 32), ("H", 1))[:by.randint(1, 4)]:
        lines.append(f"file {name} width {width} size {by.randint(1, 5)} read {by.randint(1, 3)} write {by.randint(1, 3)} out {out()} in {into()}")
    imms = ["K", "L"][:by.randint(0, 2)]
    lines += [f"imm {name} size {by.randint(1, 3)} out {out()}" for name in imms]
    for i in range(by.randint(1, 3)):
        lines.append(f"unit U{i} o {into()} t {into()} r {out()}")
        lines += [f"op U{i} {op} {by.choice([1, 1, 2, 3, 16])}" for op in by.sample(OPERATIONS, by.randint(1, 6))]
        if i == 0:
            lines += [f"op U0 ldw {by.randint(1, 3)}", "op U0 stw", "op U0 ldf 2", "op U0 stf"][:by.randint(0, 4)]
    lines += by.choice([[f"unit IO t {into()}", "op IO out"], [f"unit IO t {into()} r {out()}", "op IO out", f"op IO in {by.randint(1, 3)}"]])
    for bus in buses:
        for file in [line.split()[1] for line in lines if "width 1 " in line]:
            lines += [f"guard {bus} {file}.0 {way}" for way in ("plain", "inverted") if by.random() < 0.6]
    lines += [f"template T{i} {name}.0 {subset(by, buses)}" for i, name in enumerate(imms * 2) if by.random() < 0.7]
    lines.append(f"control delay {by.randint(0, 4)} address {by.choice([5, 8, 16])} t {into()}" + by.choice(["", " ra o0"]))
    lines += [f"space data {by.choice([0, 1, 4, 16])}", f"space frame {by.choice([0, 2])}"]
    return "\n".join(lines) + "\n"


def some_slot(by, m, bus, dest=None):
    """A slot of a bus: nothing, or a move over it."""
    dests, sources = dests_on(m, bus), sources_on(m, bus)
    if not dests or (dest is None and by.random() < 0.3):
        return "..."
    dest = dest or by.choice(dests)
    short, sign = m.buses[bus]
    word = by.choice([0, 1, 2, 3, by.getrandbits(32)]) % 2 ** (short - (sign == "signed"))
    if sign == "signed" and by.random() < 0.2:
        word -= 2 ** (short - 1)
    if dest.startswith("gcu") and by.random() < 0.8:
        word, sources = by.randint(0, 20) % 2 ** (short - (sign == "signed")), []
    guards = guards_on(m, bus)
    guard = by.choice(guards) + " " if guards and by.random() < 0.3 else ""
    return f"{guard}{by.choice(sources) if sources and by.random() < 0.5 else word} -> {dest}"


def instruction(by, m):
    """The canonical text of an instruction that the machine can carry out."""
    while True:
        slots, long = {bus: some_slot(by, m, bus) for bus in m.buses}, ""
        if m.templates and by.random() < 0.15:
            name = by.choice(list(m.templates))
            slots.update({bus: "..." for bus in m.templates[name][2]})
            long = f" [{name}={by.choice(WORDS)}]"
        text = answer(assembly, (" , ".join(slots.values()) + long + " ;").encode(), m)
        if isinstance(text, str):
            return text


def code(by, m):
    """Code that first moves words into most registers and ports and starts most units, so that its end comes late."""
    lines = []
    for bus in m.buses:
        for dest in dests_on(m, bus) if bus == list(m.buses)[0] else []:
            if by.random() < 0.9 and not dest.startswith(("gcu", "IO")):
                text = answer(assembly, (" , ".join([f"{by.randint(0, 1)} -> {dest}"] + ["..."] * (len(m.buses) - 1)) + " ;").encode(), m)
                lines += [text] if isinstance(text, str) else []
    lines += [" , ".join(["..."] * len(m.buses)) + " ;\n"] * by.choice([0, 3, 16])
    lines += [instruction(by, m) for _ in range(by.randint(3, 15))]
    return "".join(data_lines(by, m.spaces["data"], " ;") + lines[:2 ** m.control[1]])


def some_words(by, most):
    return [by.choice(WORDS + [by.getrandbits(32)]) for _ in range(by.randint(0, most))]


def data_lines(by, size, last=""):
    """Lines with data for some addresses of a space, upwards; half of the time none."""
    addresses = sorted(by.sample(range(size), min(by.choice([0, 0, 1, 3]), size)))
    return [f"data {address} {by.choice(WORDS)}{last}\n" for address in addresses]


def write_words(name, words):
    write(name, "".join(f"{word:08x}\n" for word in words).encode())


def given_words(by, size):
    """The words of the data space, and of the input, where one is named, with the words of a command that name it."""
    words, stream = some_words(by, size), some_words(by, 4)
    write_words("IN", words)
    write_words("STREAM", stream)
    memory = words + [0] * (size - len(words))
    return (memory, stream, ["STREAM"]) if by.random() < 0.8 else (memory, [], [])


def some_step(by, i, arities, labels):
    """A line of the procedure of number i, which calls only those before it."""
    variables = ["a", "b", "c", "x0"]

    def v():
        return by.choice([*variables, str(by.choice(WORDS)), str(by.choice([0, 1, 2, 3]))])
    d, relation = by.choice(variables), by.choice(["eq", "ne", "lt", "ge", "ltu", "geu"])
    one = by.choice([op for op in OPERATIONS if ARITY[op] == 1])
    two = [f"{d} = {by.choice([op for op in OPERATIONS if ARITY[op] == 2])} {v()} {v()}" for _ in range(4)]
    lines = [*two, f"{d} = {v()}", f"{d} = {one} {v()}", f"{d} = load {v()}", f"store {v()} {v()}", f"out {v()}", f"out {d}", f"{d} = in",
             f"when {relation} {v()} {v()} {d} = {v()}", f"if {relation} {v()} {v()} goto {by.choice(labels)}", f"if {relation} {v()} {v()} goto {by.choice(labels)}"]
    if i:
        called = by.randint(0, i - 1)
        lines += [f"{by.choice(['', d + ' = '])}call p{called} " + " ".join(v() for _ in range(arities[called]))] * 2
    if by.random() < 0.1:
        lines += [f"goto {by.choice(labels)}", "return", f"return {v()}", "halt"]
    return by.choice(lines)


def some_triangle(by, k):
    """A branch over a copy, and another branch; there may be a label before the copy, which the other branch may name."""
    variables, relations = ["a", "b", "c", "x0"], ["eq", "ne", "lt", "ge", "ltu", "geu"]

    def condition():
        return f"{by.choice(relations)} {by.choice(variables)} {by.choice([*variables, str(by.choice(WORDS))])}"
    between = by.choice([[], [], [], [f"m{k}:"]])
    end = by.choice([f"t{k}", f"t{k}", f"t{k}", f"s{k}"])
    named = f"m{k}" if between and by.random() < 0.7 else f"t{k}"
    copy = by.choice([f"{by.choice(variables)} = {by.choice([*variables, str(by.choice(WORDS))])}"] * 5 + [f"a = add a {by.choice(WORDS)}"])
    branch = [f"if {condition()} goto {end}", *between, copy, f"t{k}:", f"out {by.choice(variables)}", f"s{k}:"]
    return branch, f"if {condition()} goto {named}"


def program_text(by, size):
    """The text of a program for a data space of so many words; now and then its data lie outside."""
    count = by.randint(1, 4)
    arities = [by.randint(0, 3) for _ in range(count - 1)] + [0]
    procs = []
    for i in range(count):
        labels = [f"l{k}" for k in range(by.randint(1, 3))]
        lines = [some_step(by, i, arities, labels) for _ in range(by.randint(1, 12))]
        for label in labels:
            lines.insert(by.randint(0, len(lines)), f"{label}:")
        for k in range(by.randint(0, 3)):
            triangle, branch = some_triangle(by, k)
            at = by.randint(0, len(lines))
            lines[at:at] = triangle
            lines.insert(by.choice([0, len(lines)]), branch)
        name = "main" if i == count - 1 else f"p{i}"
        procs.append("\n".join([" ".join(["proc", name] + [f"x{k}" for k in range(arities[i])]), *lines, "end", ""]))
    parts = procs + data_lines(by, size if by.random() < 0.9 else 2 * size + 1)
    by.shuffle(parts)
    return "".join(parts)
