"""The texts that the commands are measured on, each of the size that is asked for."""
import os

EXAMPLES = os.path.join(os.path.dirname(os.path.abspath(__file__)), "..", "examples")
OPERATIONS = "add sub mul mulhu neg and or xor not shl shr shru eq ne lt gt ltu gtu divu remu".split()
ONE_BUS = "bus B short 8 unsigned\nsocket I in B\nunit OUT t I\nop OUT out\ncontrol delay 0 address 8 t I\n"
SMALL_PROGRAM = "proc main\nout 7\nhalt\nend\n"


def three_buses():
    """The machine of the examples, with addresses for 65,536 instructions."""
    with open(os.path.join(EXAMPLES, "three_buses.machine")) as f:
        return f.read().replace("address 12", "address 16")


def comments(size):
    """A small machine, and then comments and blank lines up to so many bytes."""
    line = "# a comment, and then a blank line\n \t\n"
    return ONE_BUS + line * ((size - len(ONE_BUS)) // len(line))


def largest_machine():
    """A machine near every limit of the format: 16 buses, each of which reaches all that there is."""
    buses = [f"bus b{i} short 32 signed" for i in range(16)]
    every = " ".join(f"b{i}" for i in range(16))
    sockets = [f"socket i{i} in {every}\nsocket o{i} out {every}" for i in range(64)]
    files = [f"file f{i} width {1 if i == 7 else 32} size 64 read 16 write 16 out o{i} in i{i}" for i in range(8)]
    imms = [f"imm l{i} size 16 out o{i}" for i in range(4)]
    units = [f"unit u{i} o i{i} t i{i} r o{i}" for i in range(32)]
    offered = [f"op u{i} {name} 16" for i in range(32) for name in OPERATIONS]
    spaces = [f"op u0 {name}" for name in ["ldw 3", "stw", "ldf 3", "stf", "out"]]
    guards = [f"guard b{i % 16} f7.{i} plain" for i in range(64)]
    templates = [f"template t{i} l{i % 4}.0 b{i}" for i in range(8)]
    control = ["control delay 4 address 16 t i0 ra o0"]
    return "\n".join(buses + sockets + files + imms + units + offered + spaces + guards + templates + control) + "\n"


def procedures(lines):
    """A program of so many lines at most: procedures of twelve lines, each of which calls the one before it."""
    parts = ["proc work0 x y\nend\n"]
    for k in range(1, (lines - 5) // 12 + 1):
        parts.append(
            f"proc work{k} x y\ncount = 0\nagain{k}:\nsum = add x y\nproduct = mul sum 17\nvalue = load {k}\n"
            f"store sum product\ncount = add count 1\nif ltu count 1000 goto again{k}\n"
            f"left = call work{k - 1} value product\nreturn left\nend\n")
    return "".join(parts) + "proc main\nhalt\nend\n"


def constants(lines):
    """A program of so many lines that outputs a word in each line but three."""
    return "proc main\n" + "".join(f"out {k % 256}\n" for k in range(lines - 3)) + "halt\nend\n"


def triangles(lines):
    """A program of so many lines, of which each four have a branch over a copy."""
    turns = [f"if lt a {k % 100} goto l{k}\na = {k}\nl{k}:\nout a\n" for k in range((lines - 4) // 4)]
    return "".join(["proc main\n", *turns, "halt\nend\n"])


def arithmetic(lines):
    """A program of so many lines: one block of operations over twenty variables, thirteen of which can have a home register."""
    steps = [f"v{k} = {k}" for k in range(20)]
    steps += [f"v{(k * 7 + 3) % 20} = {['add', 'sub', 'xor', 'and', 'or', 'mul'][k % 6]} v{k % 20} v{(k * 3 + 1) % 20}" for k in range(lines - 23)]
    return "\n".join(["proc main", *steps, "out v3", "end"]) + "\n"


def backward(lines):
    """A program of so many lines at most: blocks each of which jumps to the one before it in the text, over 100 variables."""
    blocks = (lines - 106) // 4
    parts = ["proc main", *(f"v{k} = {k}" for k in range(100)), "w = 1", "goto block0"]
    for k in reversed(range(blocks)):
        parts += [f"block{k}:", f"v{k % 100} = add v{k % 100} 1", f"w = add w v{k % 100}", f"goto block{k + 1}"]
    return "\n".join([*parts, f"block{blocks}:", "out w", "end"]) + "\n"


def tangled(lines):
    """A program of so many lines at most: loops each of which jumps back into the one before it, over many variables that all live long."""
    variables = lines // 14
    loops = (lines - 2 * variables - 2) // 4
    parts = ["proc main", *(f"v{k} = {k}" for k in range(variables))]
    for k in range(loops):
        parts += [f"v{k % variables} = add v{7 * k % variables} 1", f"m{k}:", f"v{3 * k % variables} = add v{5 * k % variables} 1"]
        parts.append(f"if ltu v{11 * k % variables} 9 goto m{max(k - 1, 0)}")
    return "\n".join([*parts, *(f"out v{k}" for k in range(variables)), "end"]) + "\n"


def buses(count):
    """A machine of so many buses, each of which reaches all that there is."""
    every = " ".join(f"b{i}" for i in range(count))
    lines = [f"bus b{i} short 32 signed" for i in range(count)]
    lines += [f"socket I in {every}", f"socket O out {every}", "file R width 32 size 24 read 4 write 4 out O in I"]
    lines += ["file G width 1 size 2 read 2 write 2 out O in I", "imm L size 1 out O"]
    for k in range(4):
        lines += [f"unit A{k} o I t I r O", *(f"op A{k} {op} 1" for op in ["add", "sub", "and", "or", "xor", "eq", "lt", "ltu"]), f"op A{k} mul 3"]
    lines += ["unit M o I t I r O", "op M ldw 2", "op M stw", "op M ldf 2", "op M stf", "op M out"]
    lines += [f"guard b{i} G.0 {way}" for i in range(count) for way in ("plain", "inverted")]
    return "\n".join([*lines, "control delay 1 address 16 t I ra O", "space data 64", "space frame 64"]) + "\n"


def chain(lines):
    """A program of so many lines: one block in which each step takes the result of the one before it."""
    return "proc main\nv = 1\n" + "v = add v 1\n" * (lines - 4) + "out v\nend\n"


def fan(lines):
    """A program of so many lines: one block of sixteen chains beside each other, all of which read one variable."""
    steps = [f"v{k % 16} = {['add', 'xor', 'sub', 'or'][k // 16 % 4]} v{k % 16} a" for k in range(lines - 19)]
    return "\n".join(["proc main", "a = 3", *steps, *(f"out v{k}" for k in range(16)), "end"]) + "\n"


STEPS = """proc main
a = 1
b = 2
next:
a = add a b
c = mul a 17
b = xor b c
d = shru c 3
b = sub b d
a = and a 16777215
goto next
end
"""

CYCLES = """
1 -> R.1 , 2 -> R.2 , ... ;
again:
R.1 -> ALU.o , R.2 -> ALU.t.add , ... ;
ALU.r -> R.3 , R.1 -> MUL.o , R.2 -> MUL.t.mul ;
R.3 -> ALU.o , R.1 -> ALU.t.xor , ... ;
ALU.r -> S.0 , 5 -> LSU.o , R.3 -> LSU.t.stw ;
MUL.r -> R.4 , 5 -> LSU.t.ldw , ... ;
R.4 -> ALU.o , R.3 -> ALU.t.sub , ... ;
ALU.r -> R.5 , LSU.r -> S.1 , ... ;
R.5 -> ALU.o , S.0 -> ALU.t.and , ... ;
ALU.r -> S.2 , ... , ... ;
S.2 -> ALU.o , 1 -> ALU.t.or , ... ;
again -> gcu.t.jump , ALU.r -> R.6 , ... ;
R.6 -> ALU.o , R.5 -> ALU.t.add , ... ;
ALU.r -> R.7 , ... , ... ;
"""

SIX_LINES = [
    "again%d: R.1 -> ALU.o , R.2 -> ALU.t.add , ... ;",
    "ALU.r -> R.3 , R.1 -> MUL.o , R.2 -> MUL.t.mul ;",
    "?G.0 R.3 -> ALU.o , !G.0 R.1 -> ALU.t.xor , ... ;",
    "ALU.r -> S.0 , -5 -> LSU.o , R.3 -> LSU.t.stw ;",
    "MUL.r -> R.4 , 0x1f -> LSU.t.ldw , ... ; # a word of the memory",
    "... , ... , ... [L=again%d] ;",
]


def assembly(instructions):
    """Assembly for the machine of three buses, with a label for each six instructions."""
    lines = (SIX_LINES[k % 6] for k in range(instructions))
    return "".join((line % (k // 6) if "%d" in line else line) + "\n" for k, line in enumerate(lines))


def products(instructions):
    """Assembly that starts a product in each instruction and keeps the one that shows, and halts."""
    none = "... , ... , ... ;\n"
    lines = ["1 -> MUL.o , 2 -> MUL.t.mul , ... ;\n", none, none]
    lines += [f"MUL.r -> R.{at % 8} , 3 -> MUL.o , {at % 100} -> MUL.t.mul ;\n" for at in range(instructions - 6)]
    return "".join([*lines, "0 -> gcu.t.halt , ... , ... ;\n", none, none])


def wide_assembly(instructions):
    """Assembly for the machine near every limit: 16 moves in each instruction, into registers and triggers in turn."""
    def slot(k, bus):
        place = 37 * k + 11 * bus
        if bus % 2:
            return f"f{bus // 2}.{place % 64}->f{bus // 2}.{place % 59}"
        return f"u{place % 32}.r->u{2 * bus}.t.{OPERATIONS[place % 20]}"
    return "".join(",".join(slot(k, bus) for bus in range(16)) + ";\n" for k in range(instructions))


def labels(size):
    """Labels one after another, up to so many bytes, and no instruction."""
    parts, length, k = [], 0, 0
    while length < size:
        parts.append(f"a{k:x}:\n")
        length += len(parts[-1])
        k += 1
    return "".join(parts[:-1])
