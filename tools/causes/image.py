"""What is wrong with the bytes of an image that is refused, as far as the image, the text of its machine and the place that the program
names tell it."""
import hashlib
from collections import namedtuple

from causes import near
from texts import machine as machine_reader
from texts.tokens import lines_of

DIGEST_AT, DIGEST_END, BITS_AT, COUNT_AT = 16, 48, 8, 12
VERSION_AT, WITH_DATA, NUMBER, DATUM = 7, 2, 4, 8
LONGEST_FILE = 1 << 24

# An image and its machine's text, by their bytes and file; the word and the bus that the program names, if it does.
Refused = namedtuple("Refused", "data machine word bus")


def bytes_of(path):
    with open(path, "rb") as f:
        return f.read(LONGEST_FILE)


def number_at(data, at):
    return int.from_bytes(data[at:at + NUMBER], "big")


def has_data(data):
    return data[VERSION_AT:VERSION_AT + 1] == bytes([WITH_DATA])


def no_image(of):
    """Why a file is no image: how it begins."""
    if not of.data:
        return "the file is empty: an image begins with the bytes `TTAI`"
    begin = of.data[:16].split(b"\n")[0].decode("latin-1")
    is_text = all(31 < byte < 127 or byte in b"\t\r\n" for byte in of.data[:16])
    what = f"it begins with {begin!r}, as a text does: `build` or `asm` makes an image of it" if is_text else "it begins with others"
    return f"an image begins with the bytes `TTAI`, and {what}"


def other_machine(of):
    if len(of.data) < DIGEST_END:
        return "the file ends within the header of an image"
    ours = hashlib.sha256(bytes_of(of.machine)).hexdigest()
    return (f"the image was made for another machine, or for this one before its text was changed: it has the digest {of.data[DIGEST_AT:DIGEST_END].hex()[:12]}.., "
            f"and that of the machine is {ours[:12]}..; build it again")


def other_width(of):
    return f"the header says that an instruction has {near.count(number_at(of.data, BITS_AT), 'bit')}, and one of this machine has another number, which `info` tells"


def other_length(of):
    """How long the image would be by its header, where it is not, or None."""
    data = of.data
    if len(data) < DIGEST_END + (NUMBER if has_data(data) else 0):
        return None
    bits, count, data_words = number_at(data, BITS_AT), number_at(data, COUNT_AT), number_at(data, DIGEST_END) if has_data(data) else 0
    wanted = DIGEST_END + (NUMBER + DATUM * data_words if has_data(data) else 0) + (bits * count + 7) // 8
    if len(data) == wanted:
        return None
    return f"an image of {count} instructions of {bits} bits and {data_words} data words has {wanted} bytes, and this file has {len(data)}"


def field_without_meaning(of):
    """Where a field of an instruction has bits without a meaning."""
    if of.word is None:
        return None
    buses = list(machine_reader.read(lines_of(of.machine)).buses)
    where = f"of the bus {buses[of.bus]}" if of.bus < len(buses) else "of the template"
    return (f"in the instruction {of.word} a field {where} has bits that mean nothing on this machine: a code of no guard, source or destination, "
            "or a bit that is 1 where the others leave none; `build` and `asm` write none such")


def not_legal(of):
    if of.word is None:
        return None
    return (f"each field of the instruction {of.word} has a meaning, but the machine cannot carry them out at once: two moves into one place, "
            "more reads or writes of a file than it has ports, or a long immediate on a bus that has a move")


def bit_after_end(of):
    return f"the last byte is {of.data[-1]:02x} in hexadecimal: a bit after the last instruction is 1, and all of them have to be 0" if of.data else None


def wrong_data(of):
    """Which datum has an address that it may not have, or None."""
    if of.word is None or not has_data(of.data):
        return None
    if not number_at(of.data, DIGEST_END):
        return "the image has version 2, that of an image with data, and has no datum"
    at, before = (number_at(of.data, DIGEST_END + NUMBER + DATUM * n) for n in (of.word, of.word - 1))
    words = machine_reader.read(lines_of(of.machine)).words("data")
    if at >= words:
        return f"the datum {of.word} has the address {at}, and the data space has {near.count(words, 'word')}"
    return f"the datum {of.word} has the address {at}, which is not above {before}, that of the datum before it"


CAUSES = {40: no_image, 42: other_machine, 43: other_width, 44: other_length, 45: field_without_meaning, 46: not_legal, 47: bit_after_end, 48: wrong_data}


def cause(image, machine, code, word=None, bus=None):
    """Why the file of an image is none for the file of a machine, or None where the table says it."""
    return CAUSES[code](Refused(bytes_of(image), machine, word, bus)) if code in CAUSES else None
