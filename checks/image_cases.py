"""Images that are written by hand, field by field, for the machines of examples/, each with what its run answers."""
import hashlib
import os

EXAMPLES = os.path.join(os.path.dirname(os.path.abspath(__file__)), "..", "examples")

SOURCES = [f"R.{i}" for i in range(8)] + [f"S.{i}" for i in range(8)] + ["G.0", "G.1", "I.0", "ALU.r", "MUL.r", "LSU.r", "ra"]
ALU = ["add", "sub", "and", "or", "xor", "not", "shl", "shr", "shru", "eq", "lt", "ltu"]
DESTS = (SOURCES[:18] + ["ALU.o"] + [f"ALU.{op}" for op in ALU] + ["MUL.o", "MUL.mul", "MUL.add", "LSU.o"]
         + ["LSU.ldw", "LSU.stw", "LSU.ldf", "LSU.stf", "IO.out", "jump", "call", "halt"])
GUARDS = {None: 0, "?": 1, "!": 2}


def field(value, width):
    return format(value, f"0{width}b") if width else ""


def slot(move, guard_width):
    """The bits of a slot: its guard, source and destination."""
    if move is None:
        return "0" * (guard_width + 9 + 6)
    guard, source, dest = move
    if isinstance(source, int):
        source_bits = "1" + field(source % 256, 8)
    else:
        source_bits = "0" + field(SOURCES.index(source), 8)
    return field(GUARDS[guard], guard_width) + source_bits + field(1 + DESTS.index(dest), 6)


def word(*moves, long=None):
    """The 50 bits of an instruction: the template's bit, and three slots, of which a long immediate takes the last two."""
    moves = list(moves) + [None] * (3 - len(moves))
    if long is None:
        return "0" + slot(moves[0], 2) + slot(moves[1], 2) + slot(moves[2], 0)
    return "1" + slot(moves[0], 2) + field(long, 32)


def move(source, dest, guard=None):
    return (guard, source, dest)


def numbers(*values):
    return b"".join(value.to_bytes(4, "big") for value in values)


def image(machine, width, words, data=None):
    """An image, of version 2 where pairs of an address and a value are given for it."""
    bits = "".join(words)
    bits += "0" * (-len(bits) % 8)
    body = bytes(int(bits[i:i + 8], 2) for i in range(0, len(bits), 8))
    head = b"TTAI" + numbers(1 if data is None else 2, width, len(words)) + hashlib.sha256(machine).digest()
    return head + (b"" if data is None else numbers(len(data), *[number for pair in data for number in pair])) + body


def example(name):
    with open(os.path.join(EXAMPLES, name), "rb") as f:
        return f.read()


ONE = example("one_bus.machine")
THREE = example("three_buses.machine")
FOUR_WORDS = ONE + b"space data 4\n"
OUT_7_HALT = ["100000111001", "100000000100"]
SEVEN = image(ONE, 12, OUT_7_HALT)


def with_data(*pairs, words=OUT_7_HALT):
    """The image of the constant with data, for the machine of one bus with a data space of four words."""
    return image(FOUR_WORDS, 12, words, pairs)


LAID = with_data((2, 9))
PAUSE = word()
STOP = [word(move(0, "halt")), PAUSE, PAUSE]
LONG = image(THREE, 50, [word(move(-1, "R.1")), word(long=1 << 31)])
SWAP = image(THREE, 50, [
    word(move(1, "R.1")), word(move(2, "R.2")), word(move("R.1", "R.2"), move("R.2", "R.1")),
    word(move("R.1", "IO.out")), word(move("R.2", "IO.out")), *STOP])
START = word(move(5, "MUL.o"), move(6, "MUL.mul"))
PRODUCT = image(THREE, 50, [START, PAUSE, PAUSE, word(move("MUL.r", "IO.out")), *STOP])
EARLY = image(THREE, 50, [START, PAUSE, word(move("MUL.r", "IO.out")), *STOP])


def guarded(condition):
    put = [word(move(n, "IO.out")) for n in (10, 11, 12)]
    last = word(move(13, "IO.out"))
    return image(THREE, 50, [word(move(condition, "G.0")), word(move(8, "jump", "?")), *put, *STOP, last, *STOP])


def refused(code, word=0, bus=0):
    return 8, "", f"tta: image: code {code}, word {word}, bus {bus}\n"


def faulted(text, code, cycle):
    return 11, text, f"tta: machine fault: code {code}, cycle {cycle}\n"


def inverted(data, at, bit):
    changed = bytearray(data)
    changed[at] ^= bit
    return bytes(changed)


def header_code(at):
    """The refusal of an image of which this byte of the header is wrong."""
    return 40 if at < 4 else 41 if at < 8 else 43 if at < 12 else 44 if at < 16 else 42


def prefix_code(length):
    """The refusal of a prefix of an image: what is missing counts as wrong, and the digest is looked at before the width."""
    return 40 if length < 4 else 41 if length < 8 else 42 if length < 48 else 44


def cases():
    """Each case: its name, the machine, the image, the bound, and the status, output and error that are expected."""
    going = (12, "tta: running\n")
    yield "the constant", ONE, SEVEN, "2", (0, "7\nhalted\ncycles 2\n", "")
    yield "the constant, one cycle", ONE, SEVEN, "1", (12, "7\nrunning\ncycles 1\n", going[1])
    yield "the constant, no cycle", ONE, SEVEN, "0", (12, "running\ncycles 0\n", going[1])
    yield "a bound of 2 to the 48th", ONE, SEVEN, "281474976710656", (1, "", "tta: usage\n")
    yield "the greatest bound", ONE, SEVEN, "281474976710655", (0, "7\nhalted\ncycles 2\n", "")
    yield "cut by a byte", ONE, SEVEN[:-1], "9", refused(44)
    yield "of another machine", THREE, SEVEN, "9", refused(42)
    yield "an unused destination", ONE, SEVEN[:-1] + b"\x05", "9", refused(45, 1, 0)
    yield "a filling bit", THREE, LONG[:-1] + b"\x01", "9", refused(47)
    yield "another mark", ONE, b"\x55" + SEVEN[1:], "9", refused(40)
    yield "an empty file", ONE, b"", "9", refused(40)
    yield "another version", ONE, SEVEN[:7] + b"\x09" + SEVEN[8:], "9", refused(41)
    yield "another width", ONE, SEVEN[:11] + b"\x0d" + SEVEN[12:], "9", refused(43)
    yield from run_cases()
    yield from data_cases()
    yield from changed_cases()


def run_cases():
    """Images that are run, in the same form, and the order in which faults count."""
    going = (12, "tta: running\n")
    yield "a long immediate and no end", THREE, LONG, "5", faulted("fault 65 2\ncycles 2\n", 65, 2)
    yield "a long immediate, as far as it goes", THREE, LONG, "2", (12, "running\ncycles 2\n", going[1])
    yield "two registers swapped", THREE, SWAP, "20", (0, "2\n1\nhalted\ncycles 8\n", "")
    yield "a product in flight", THREE, PRODUCT, "100", (0, "30\nhalted\ncycles 7\n", "")
    yield "a product read too early", THREE, EARLY, "100", faulted("fault 61 2\ncycles 2\n", 61, 2)
    yield "a fault at the bound", THREE, EARLY, "2", (12, "running\ncycles 2\n", going[1])
    yield "a guard that holds", THREE, guarded(1), "100", (0, "10\n11\n13\nhalted\ncycles 8\n", "")
    yield "a guard that does not hold", THREE, guarded(0), "100", (0, "10\n11\n12\nhalted\ncycles 8\n", "")
    unset = image(THREE, 50, [word(move("R.3", "IO.out"))])
    yield "a register that was never written", THREE, unset, "9", faulted("fault 60 0\ncycles 0\n", 60, 0)
    both = image(THREE, 50, [word(move("MUL.r", "S.1"), move("R.3", "IO.out"))])
    yield "an unset register comes before an unset port", THREE, both, "9", faulted("fault 60 0\ncycles 0\n", 60, 0)
    lacking = image(THREE, 50, [word(move(1, "ALU.add"))])
    yield "an operation without its operand", THREE, lacking, "9", faulted("fault 62 0\ncycles 0\n", 62, 0)
    clash = image(THREE, 50, [START, PAUSE, word(move(7, "MUL.add")), *STOP])
    yield "two results at one time", THREE, clash, "9", faulted("fault 63 2\ncycles 2\n", 63, 2)
    again = image(THREE, 50, [word(move(9, "jump")), word(move(9, "jump"))])
    yield "a jump in the delay of another", THREE, again, "9", faulted("fault 64 1\ncycles 1\n", 64, 1)
    stored = image(THREE, 50, [word(move(3, "LSU.o"), move(9, "LSU.stw")), *STOP])
    yield "a word is stored", THREE, stored, "9", (0, "halted\nmem 3 9\ncycles 4\n", "")
    none = image(THREE, 50, [])
    yield "no instruction", THREE, none, "9", faulted("fault 65 0\ncycles 0\n", 65, 0)
    two = image(THREE, 50, [word(move("S.0", "R.1"), move("S.1", "R.2"))])
    yield "a file read more often than it can be", THREE, two, "9", refused(46, 0, 0)


def changed_cases():
    """Images of which a byte of the header is another, and the prefixes of images, in the same form."""
    for at in range(48):
        yield f"byte {at} changed", ONE, inverted(SEVEN, at, 1), "9", refused(header_code(at))
        yield f"byte {at} changed, with data", FOUR_WORDS, inverted(LAID, at, 1), "9", refused(header_code(at))
    for length in range(len(LONG)):
        yield f"the first {length} bytes", THREE, LONG[:length], "9", refused(prefix_code(length))
    for length in range(len(LAID)):
        yield f"the first {length} bytes, with data", FOUR_WORDS, LAID[:length], "9", refused(prefix_code(length))


def data_cases():
    """Images of version 2, in the same form."""
    yield "a datum", FOUR_WORDS, LAID, "2", (0, "7\nhalted\nmem 2 9\ncycles 2\n", "")
    every = with_data((0, 1), (1, 0), (2, 4294967295), (3, 256))
    yield "a datum at each address", FOUR_WORDS, every, "2", (0, "7\nhalted\nmem 0 1\nmem 2 4294967295\nmem 3 256\ncycles 2\n", "")
    yield "no pair", FOUR_WORDS, with_data(), "9", refused(48)
    yield "an address twice", FOUR_WORDS, with_data((2, 9), (2, 8)), "9", refused(48, 1)
    yield "a lower address", FOUR_WORDS, with_data((0, 1), (3, 1), (1, 1)), "9", refused(48, 2)
    yield "an address at the space's end", FOUR_WORDS, with_data((4, 1)), "9", refused(48)
    yield "the greatest address", FOUR_WORDS, with_data((0, 1), (4294967295, 1)), "9", refused(48, 1)
    yield "two bad pairs", FOUR_WORDS, with_data((0, 1), (0, 1), (4, 1)), "9", refused(48, 1)
    yield "a datum without a data space", ONE, image(ONE, 12, OUT_7_HALT, [(0, 1)]), "9", refused(48)
    yield "a bad pair comes before a bad field", FOUR_WORDS, with_data((4, 1), words=["100000111001", "100000000101"]), "9", refused(48)
    yield "a bad field with data", FOUR_WORDS, with_data((3, 1), words=["100000111001", "100000000101"]), "9", refused(45, 1, 0)
    yield "no cycle, with data", FOUR_WORDS, LAID, "0", (12, "running\nmem 2 9\ncycles 0\n", "tta: running\n")
    yield "a filling bit after data", FOUR_WORDS, with_data((2, 9), words=OUT_7_HALT[:1])[:-1] + b"\x91", "9", refused(47)
    yield "a byte too many comes before a bad pair", FOUR_WORDS, with_data((4, 1)) + b"\0", "9", refused(44)
    yield "no pair and a byte too few", FOUR_WORDS, with_data()[:-1], "9", refused(44)
    yield "more pairs than there are", FOUR_WORDS, LAID[:51] + b"\2" + LAID[52:], "9", refused(44)
    yield "as many pairs as a number can say", FOUR_WORDS, LAID[:48] + b"\xff" * 4 + LAID[52:], "9", refused(44)
    yield "data in version 1", FOUR_WORDS, LAID[:7] + b"\1" + LAID[8:], "9", refused(44)
    yield "no data in version 2", ONE, SEVEN[:7] + b"\2" + SEVEN[8:], "9", refused(44)
    yield "version 0", ONE, SEVEN[:7] + b"\0" + SEVEN[8:], "9", refused(41)
    yield "version 3", FOUR_WORDS, LAID[:7] + b"\3" + LAID[8:], "9", refused(41)
    yield "another width comes before the data", FOUR_WORDS, with_data()[:11] + b"\x0d" + with_data()[12:], "9", refused(43)
    full = [OUT_7_HALT[0]] * 257
    yield "one instruction more than addresses, with data", FOUR_WORDS, with_data((2, 9), words=full), "9", refused(44)
    yield "one instruction more than addresses", ONE, image(ONE, 12, full), "9", refused(44)
