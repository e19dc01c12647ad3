"""A decoder of images for the machine of three buses, which shares nothing with the program."""
import hashlib
import os

EXAMPLES = os.path.join(os.path.dirname(os.path.abspath(__file__)), "..", "examples")

with open(os.path.join(EXAMPLES, "three_buses.machine"), "rb") as example:
    MACHINE = example.read()
REGISTERS = [f"R.{i}" for i in range(8)] + [f"S.{i}" for i in range(8)] + ["G.0", "G.1"]
SOURCES = REGISTERS + ["I.0", "ALU.r", "MUL.r", "LSU.r", "gcu.ra"]
ALU = ["add", "sub", "and", "or", "xor", "not", "shl", "shr", "shru", "eq", "lt", "ltu"]
DESTS = (REGISTERS + ["ALU.o"] + [f"ALU.t.{op}" for op in ALU] + ["MUL.o", "MUL.t.mul", "MUL.t.add", "LSU.o"]
         + [f"LSU.t.{op}" for op in ("ldw", "stw", "ldf", "stf")] + ["IO.t.out", "gcu.t.jump", "gcu.t.call", "gcu.t.halt"])
GUARDS = ["", "?G.0 ", "!G.0 "]
READS = {"R": 2, "S": 1, "G": 1, "I": 1}
WRITES = {"R": 2, "S": 1, "G": 1}
HEAD = 48
WIDTH, ADDRESSES, DATA_WORDS = 50, 4096, 1024


class Refused(Exception):
    """The number of a refusal, with its word and its bus."""


def take(bits, width):
    return int(bits[:width], 2), bits[width:]


def slot(bits, has_guard, word, bus):
    """A slot as its guard, source and destination, or None, and the bits after it."""
    guard = 0
    if has_guard:
        guard, bits = take(bits, 2)
    tag, bits = take(bits, 1)
    payload, bits = take(bits, 8)
    dest, bits = take(bits, 6)
    if dest == 0:
        if guard or tag or payload:
            raise Refused(45, word, bus)
        return None, bits
    if guard >= len(GUARDS) or dest > len(DESTS) or (tag == 0 and payload >= len(SOURCES)):
        raise Refused(45, word, bus)
    source = str((payload - 256) % 2**32 if payload >= 128 else payload) if tag else SOURCES[payload]
    return (GUARDS[guard], source, DESTS[dest - 1]), bits


def place(dest):
    """What a destination occupies: a register, an operand port, or the trigger port of a unit or of control."""
    return dest.split(".")[0] + ".t" if ".t." in dest else dest


def is_legal(moves):
    """Whether the machine can carry out these moves in one cycle."""
    there = [m for m in moves if m]
    for name, limit in READS.items():
        if sum(source.startswith(name + ".") for _, source, _ in there) > limit:
            return False
    for name, limit in WRITES.items():
        if sum(dest.startswith(name + ".") for _, _, dest in there) > limit:
            return False
    places = [place(dest) for _, _, dest in there]
    return len(places) == len(set(places))


def instruction(bits, word):
    """The moves and the long immediate of an instruction by its bits."""
    template, bits = take(bits, 1)
    long = None
    if template:
        long = int(bits[17:49], 2)
        first, _ = slot(bits, True, word, 0)
        moves = [first, None, None]
    else:
        first, bits = slot(bits, True, word, 0)
        second, bits = slot(bits, True, word, 1)
        third, bits = slot(bits, False, word, 2)
        moves = [first, second, third]
    if not is_legal(moves):
        raise Refused(46, word, 0)
    text = " , ".join("..." if m is None else f"{m[0]}{m[1]} -> {m[2]}" for m in moves)
    return text + ("" if long is None else f" [L={long}]") + " ;\n"


def number(data, at):
    return int.from_bytes(data[at:at + 4], "big")


def pairs(data):
    """The addresses and values of an image with data, as text."""
    found = [(number(data, at), number(data, at + 4)) for at in range(HEAD + 4, HEAD + 4 + 8 * number(data, HEAD), 8)]
    for k, (address, _) in enumerate(found):
        if address >= DATA_WORDS or k and address <= found[k - 1][0]:
            raise Refused(48, k, 0)
    if not found:
        raise Refused(48, 0, 0)
    return "".join(f"data {address} {value} ;\n" for address, value in found)


def decoded(data):
    """The canonical text of an image, or its refusal."""
    if data[:4] != b"TTAI":
        raise Refused(40, 0, 0)
    version = number(data, 4)
    if len(data) < 8 or version not in (1, 2):
        raise Refused(41, 0, 0)
    if data[16:48] != hashlib.sha256(MACHINE).digest():
        raise Refused(42, 0, 0)
    if number(data, 8) != WIDTH:
        raise Refused(43, 0, 0)
    count, begin = number(data, 12), HEAD
    if version == 2 and len(data) >= HEAD + 4:
        begin += 4 + 8 * number(data, HEAD)
    if count > ADDRESSES or version == 2 and len(data) < HEAD + 4 or len(data) != begin + (count * WIDTH + 7) // 8:
        raise Refused(44, 0, 0)
    text = pairs(data) if version == 2 else ""
    bits = "".join(format(byte, "08b") for byte in data[begin:])
    text += "".join(instruction(bits[k * WIDTH:(k + 1) * WIDTH], k) for k in range(count))
    if "1" in bits[count * WIDTH:]:
        raise Refused(47, 0, 0)
    return text
