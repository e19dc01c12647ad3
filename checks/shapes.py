"""Machines of many shapes, made by chance: most of them keep the rules of coverage."""
from by_chance import OPERATIONS


def more_units(by, buses, ops):
    """Units that offer some of the operations once more, mostly on fewer buses and with other latencies."""
    lines = []
    for i in range(by.choice([0, 0, 1, 2, 3])):
        some, same = " ".join(by.sample(buses, by.randint(1, len(buses)))), by.random() < 0.4
        ports = ("I", "O") if same else (f"I{i}", f"O{i}")
        lines += [] if same else [f"socket I{i} in {some}", f"socket O{i} out {some}"]
        lines.append(f"unit V{i} o {ports[0]} t {ports[0]} r {ports[1]}")
        lines += [f"op V{i} {op} {by.choice([1, 1, 2, 3, 5])}" for op in by.sample(ops, by.randint(1, len(ops)))]
    return lines


def machine_text(by):
    """A machine that is covered most of the time."""
    buses = [f"b{i}" for i in range(by.randint(1, 4))]
    every = " ".join(buses)
    lines = [f"bus {bus} short {by.choice([4, 8, 12, 16, 32])} {by.choice(['signed', 'unsigned'])}" for bus in buses]
    lines += [f"bus w short 32 {by.choice(['signed', 'unsigned'])}", f"socket I in {every} w", f"socket O out {every} w"]
    lines += [f"file R width 32 size {by.choice([2, 3, 4, 8, 8])} read 2 write 1 out O in I", "file G width 1 size 2 read 1 write 1 out O in I"]
    lines += ["file S width 32 size 3 read 1 write 1 out O in I"] * by.randint(0, 1)
    ops, units = OPERATIONS[:], by.randint(1, 3)
    by.shuffle(ops)
    if by.random() < 0.2:
        ops.pop()
    for i in range(units):
        lines.append(f"unit U{i} o I t I r O")
        lines += [f"op U{i} {op} {by.choice([1, 2, 3, 5])}" for op in ops[i::units]]
    lines += more_units(by, buses, ops)
    lines += ["unit L o I t I r O", f"op L ldw {by.randint(1, 3)}", "op L stw"]
    lines += ([] if by.random() < 0.5 else ["unit F o I t I r O"])
    frame = lines[-1].split()[1] if lines[-1].startswith("unit F") else "L"
    lines += [f"op {frame} ldf {by.randint(1, 3)}", f"op {frame} stf"][:2 if by.random() < 0.95 else 1]
    lines += ["unit IO t I r O", "op IO out"] + [f"op IO in {by.randint(1, 3)}"] * (by.random() < 0.9)
    ways = ("plain", "inverted") if by.random() < 0.95 else ("plain",)
    lines += [f"guard {bus} G.0 {way}" for bus in buses for way in ways]
    lines.append(f"control delay {by.randint(0, 4)} address {by.choice([6, 16, 16, 16])} t I" + (" ra O" if by.random() < 0.95 else ""))
    return "\n".join([*lines, f"space data {by.choice([0, 4, 16])}", f"space frame {by.choice([4, 64, 64, 64])}"]) + "\n"


def outcome(printed):
    """The words of the output, and the outcome with the memory after it."""
    lines = printed.split("\n")[:-2]
    at = next(k for k, line in enumerate(lines) if not line.isdigit())
    return lines[:at], lines[at:]
