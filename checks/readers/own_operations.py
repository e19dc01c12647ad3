"""What the operations of ./tta --with bits make of two words; one that takes one word makes it of the second."""
WORD = 2**32
# Those that take two words.
ARITY = {name: 2 for name in "rotl divs rems min max".split()}


def signed(a):
    return a - WORD if a >> 31 else a


def quotient(a, b):
    whole = abs(signed(a)) // abs(signed(b))
    return -whole if (signed(a) < 0) != (signed(b) < 0) else whole


def extended(width, b):
    low = b % 2**width
    return (low - 2**width if low >> (width - 1) else low) % WORD


MADE = {
    "rotl": lambda a, b: (a << b % 32 | a >> 32 - b % 32) % WORD,
    "clz": lambda a, b: 32 - b.bit_length(),
    "popcount": lambda a, b: bin(b).count("1"),
    "bitrev": lambda a, b: int(f"{b:032b}"[::-1], 2),
    "sext8": lambda a, b: extended(8, b),
    "sext16": lambda a, b: extended(16, b),
    "divs": lambda a, b: quotient(a, b) % WORD if b else WORD - 1,
    "rems": lambda a, b: (signed(a) - quotient(a, b) * signed(b)) % WORD if b else a,
    "min": lambda a, b: b if signed(b) < signed(a) else a,
    "max": lambda a, b: b if signed(a) < signed(b) else a,
}
