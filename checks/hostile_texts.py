"""Texts that are cut, changed or no texts at all, and those at limits that no other check has: each with its kind, and where its answer is that on
another text, with that one."""
import hashlib
import re

from decoder import MACHINE as THREE

# How many bytes the longest texts have.
MOST = 2**24
# A session that looks at a product on its way.
SCRIPT = b"step 1\nflight\nbreak 3\ngo 100\nport MUL\nstep 1\njump\nreg R 9\nquit\nstep 1\n"
# A procedure squares its parameter and is called twice.
CALLS = b"""proc sq x
y = mul x x
return y
end
proc main
a = 3
b = call sq a
c = call sq 5
d = add a b
d = add d c
out d
halt
end
"""
# The same with a line of each form.
SQUARES = b"""data 2 9
data 0x3 -1
proc sq x
y = mul x x
return y
end
proc main
a = 3
b = call sq a
c = call sq 5
d = add a b
loop:
d = add d c
when ltu d 9 d = 0
if eq d 0 goto loop
store 8 d
e = load 8
out e
e = in
out e
halt
end
"""
SWAP = b"""data 2 9 ;
data 0x3 -1 ;
1 -> R.1 , ... , ... ;
2 -> R.2 , ... , ... ;
R.1 -> R.2 , R.2 -> R.1 , ... ;
R.1 -> IO.t.out , ... , ... ;
R.2 -> IO.t.out , ... , ... ;
0 -> gcu.t.halt , ... , ... ;
... , ... , ... ;
... , ... , ... ;
"""


def header(count, version=1):
    """The header of an image of so many instructions."""
    return b"TTAI" + bytes([0, 0, 0, version, 0, 0, 0, 50]) + count.to_bytes(4, "big") + hashlib.sha256(THREE).digest()


# The image of a short word -1 into R.1 and then of a long immediate; and the same with the data 9 at 2 and -1 at 3.
BODY = bytes.fromhex("1ff08000000020000800000000")
LONG = header(2) + BODY
LAID = header(2, 2) + bytes.fromhex("00000002 00000002 00000009 00000003 ffffffff") + BODY
SEVEN = b"proc main\nout 7\nhalt\nend\n"
# What is put in the place of each token of a text.
ODD = {
    "machine": "0 17 65 4294967296 B0 RI RO gcu R in out .".split(),
    "program": "0 -2147483648 4294967296 x sq main = halt not : in data 1024".split() + ["data 0 1"],
    "assembly": "0 -129 300 S R ALU r o ra gcu x : ; , ... -> [L=1] ?G.0 data 1024".split() + ["1 -> S.1", "x:", "x: x", "data 2 9 ;"],
}
# A piece of a text: a comment, blanks, a token, or any other byte.
PIECE = re.compile(rb"#[^\n]*|[ \t\r]+|\n|[A-Za-z_]\w*|-?[0-9]\w*|->|\.\.\.|[][.,;:=?!]|.", re.S)
TEXTS = {"machine": THREE, "program": SQUARES, "assembly": SWAP, "image": LAID}


def prefixes():
    """Every prefix of a text of each kind."""
    for kind, text in [*TEXTS.items(), ("program", CALLS), ("image", LONG)]:
        for end in range(len(text) + 1):
            yield f"the first {end} bytes of the {kind}", kind, text[:end]


def tokens_changed():
    """Each token of a text left out, doubled, and with some others in its place, of which each token gets every third."""
    for kind, odd in ODD.items():
        pieces = PIECE.findall(TEXTS[kind])
        for at, piece in enumerate(pieces):
            others = [b"", piece + b" " + piece] + [other.encode() for other in odd[at % 3::3] if piece.strip()]
            for other in others if not piece.startswith(b"#") else []:
                text = b"".join(pieces[:at]) + other + b"".join(pieces[at + 1:])
                yield f"the {kind} with {other!r} for its piece {at}, {piece!r}", kind, text


def lines_changed():
    """Each line of a text left out, doubled, and moved to the begin, to the end and after the next."""
    for kind in ODD:
        lines = TEXTS[kind].split(b"\n")[:-1]
        for at, line in enumerate(lines):
            rest = lines[:at] + lines[at + 1:]
            changes = [rest, [*lines[:at], line, *lines[at:]], [line, *rest], [*rest, line], [*rest[:at + 1], line, *rest[at + 1:]]]
            for number, changed in enumerate(changes):
                yield f"the {kind}, change {number} of {line!r}", kind, b"\n".join(changed) + b"\n"


def bytes_put_in():
    """Each of the 256 bytes within the second line of a text and after it; and odd ends of its lines."""
    for kind in ("machine", "program", "assembly"):
        text = TEXTS[kind]
        for at in [text.index(b"\n") + 4, len(text)]:
            for byte in range(256):
                yield f"the {kind} with byte {byte} at {at}", kind, text[:at] + bytes([byte]) + text[at:]
        for end in [b"\r\n", b"\r", b"\t\n", b"\n\r", b"\0\n", b"\x0b\n", b"\x0c\n", b"\xc2\x85", b"\xe2\x80\xa8"]:
            yield f"the {kind} with line ends {end!r}", kind, text.replace(b"\n", end)


def foreign():
    """What is no text of ours: other encodings, other files, and noise."""
    noise = [b"".join(hashlib.sha256(bytes([k, i])).digest() for i in range(8)) for k in range(16)]
    others = [b"\0" * 4096, b"\xff" * 4096, bytes(range(256)), b"\x7fELF" + bytes(60), b"\x89PNG\r\n\x1a\n", b"PK\3\4", b"#!/bin/sh\necho\n",
              b"{}\n", b"<html>\n", b"%PDF-1.7\n", b"\n", b"\r\n", b" ", b"#", b"\xef\xbb\xbf", b"\xff\xfe", *noise]
    for kind, text in TEXTS.items():
        coded = text.decode("latin-1")
        changes = [coded.encode("utf-16"), coded.encode("utf-16-le"), coded.encode("utf-32"), b"\xef\xbb\xbf" + text, text.upper(),
                   text + text, text + b"\0", text.replace(b" ", b"\xc2\xa0"), text.replace(b"->", "→".encode()),
                   text.replace(b"B0", "Bé".encode()).replace(b"sq", "carré".encode()).replace(b"R", "ℝ".encode()),
                   b"# \xff\xfe \0 # ->\n" + text, *[other for name, other in TEXTS.items() if name != kind]]
        for number, data in enumerate(changes + others):
            yield f"the {kind}, change {number}: {data[:40]!r}", kind, data


def limits():
    """Names, numbers and counts at limits that no other check has, each with the next that is refused."""
    for line in ["bus %s short 8 signed", "socket %s in B0", "file %s width 1 size 1 read 1 write 1 out RO in RI", "imm %s size 1 out RO",
                 "unit %s t UI", "template %s I.0 B0 B1"]:
        for count in (64, 65):
            yield f"{line} of {count} bytes", "machine", THREE + (line % ("n" * count)).encode()
    for line in ["guard B1 G.%d inverted", "guard B2 G.%d plain"]:
        for index in (0, 1, 2, 63, 64, 2**32 - 1, 2**32):
            yield line % index, "machine", THREE + (line % index).encode()
    for index in (0, 1, 2**32 - 1):
        yield f"template of I.{index}", "machine", THREE + b"template T I.%d B1 B2" % index
    for count in (8, 9):
        names = " ".join(f"x{i}" for i in range(count))
        yield f"{count} parameters", "program", f"proc f {names}\nend\n".encode() + SEVEN
        yield f"{count} arguments", "program", f"proc main\ncall f {names}\nend\n".encode()
        yield f"{count} arguments, with a destination", "program", f"proc main\nx = call f {names}\nend\n".encode()
    for count in (4096, 4097):
        lines = [f"out x{i}" for i in range(count)]
        yield f"{count} variables", "program", "\n".join(["proc main", *lines, "end"]).encode()
        lines = [f"when eq x{i} y{i} z{i} = w{i}" for i in range(count // 4)] + ["out last"] * (count % 4)
        yield f"{count} variables, four a line", "program", "\n".join(["proc main", *lines, "end"]).encode()
    for count in (65_534, 65_535):
        yield f"{count} lines within", "program", b"proc main\n" + b"\n# and\nout 7" * count + b"\nend\n"
    for last in ("out 7", "out", "goto nowhere", "x = add 1"):
        yield f"{last!r} as a line too many", "program", b"proc main\n" + b"halt\n" * 65_535 + last.encode() + b"\nend\n"
    for count in (4096, 4097):
        yield f"{count} instructions", "assembly", b"... , ... , ... ;\n" * count
        yield f"an image of {count} instructions", "image", header(count) + bytes((50 * count + 7) // 8)
    for words in (1023, 1024, 1025):
        addresses = range(words)
        yield f"{words} lines of data", "program", "".join(f"data {k} {k}\n" for k in addresses).encode() + SEVEN
        yield f"{words} declarations", "assembly", "".join(f"data {k} {k} ;\n" for k in addresses).encode()
        pairs = b"".join(number.to_bytes(4, "big") for k in addresses for number in (k, 2**32 - 1 - k))
        yield f"{words} pairs", "image", header(2, 2) + words.to_bytes(4, "big") + pairs + BODY
    for number in ("127", "128", "-128", "-129", "0x7f", "0x80", "4294967168", "4294967167", "4294967295", "4294967296", "0xffffffff", "0x100000000"):
        yield f"{number} as a short word", "assembly", f"... , ... , {number} -> R.1 ;".encode()
        yield f"{number} as a long one", "assembly", f"... , ... , ... [L={number}] ;".encode()
        yield f"{number} in a program", "program", SEVEN.replace(b"7", number.encode())


def scripts():
    """Every prefix of a script of the debugger, and scripts of 16 MiB."""
    for end in range(len(SCRIPT) + 1):
        yield f"the first {end} bytes of a script", "script", SCRIPT[:end]
    lines = MOST // len(b"step 0\n")
    yield "16 MiB of blank lines as script", "script", b"\n" * MOST, b""
    yield "16 MiB of comments as script", "script", b"# here\n" * lines, b""
    yield "16 MiB of steps that are none as script", "script", b"step 0\n" * lines, b"at 0 cycle 0\n" * lines
    for piece in [b"n", b"7", b"step 1 ", b"\0"]:
        yield f"a line of {piece!r} of 16 MiB as script", "script", (piece * (MOST // len(piece) + 1))[:MOST], b"refused 70\n"


def large():
    """Texts of 16 MiB. One that repeats a piece is answered like a short one that does."""
    for kind in ("machine", "program", "assembly"):
        for piece in [b"n", b"7", b" ", b"\0", b"...", b"bus "]:
            text = (piece * (MOST // len(piece) + 1))[:MOST]
            yield f"16 MiB of {piece!r} as {kind}", kind, text, text[:3000]
    name = b"n" * (MOST - 100)
    yield "a long name of a bus", "machine", b"bus " + name + b" short 8 unsigned\n"
    yield "a long name of a variable", "program", b"proc main\nout " + name + b"\nhalt\nend\n"
    yield "a long name of a procedure", "program", b"proc " + name + b"\nend\n" + SEVEN
    yield "a long name of a label", "assembly", name + b" : ... , ... , ... ;"
    yield "a long comment", "program", SEVEN + b"#" + name
    yield "as many pairs of data as 16 MiB have room for", "image", header(0, 2) + (2**21 - 7).to_bytes(4, "big") + bytes(8 * (2**21 - 7))
    yield "an image of zeros", "image", bytes(MOST)
    yield "an image and zeros after it, of 16 MiB", "image", LAID + bytes(MOST - len(LAID))
