"""What is wrong with a line of input words, or of links, that is refused."""
import re

from causes import Cause
from texts.tokens import bad_token, shown, tokens_of

DIGITS = 8


def cause(lines, number, space=None):
    """The cause of a refusal of a line that has to be a word; `space` is how many the data space has, where the words fill it."""
    line = lines[number - 1] if number <= len(lines) else ""
    text = line.removesuffix("\r")
    if re.fullmatch("[0-9A-Fa-f]{8}", text) and space is not None:
        return Cause(number, f"the data space has {space} words, and this line is one more: its size is the line `space data` of the machine")
    form = "a line is one word, eight hexadecimal digits and nothing else"
    if not text:
        return Cause(number, f"{form}, and this one is empty")
    if text != text.strip():
        return Cause(number, f"{form}, and here is a blank beside it")
    if text.lower().startswith("0x"):
        return Cause(number, f"{form}, without `0x`" + as_word(int(text, 16) if re.fullmatch("0[xX][0-9A-Fa-f]+", text) else None))
    if re.fullmatch("-?[0-9]+", text) and len(text) != DIGITS:
        return Cause(number, form + as_word(int(text)) + f", where {text} is a decimal number")
    if re.fullmatch("[0-9A-Fa-f]+", text):
        return Cause(number, f"{form}, and here are {len(text)} digits")
    wrong = next((c for c in text if c not in "0123456789abcdefABCDEF"), "")
    return Cause(number, f"{form}, and here is {'`' + wrong + '`' if wrong.isprintable() and wrong.isascii() else f'the byte 0x{ord(wrong):02x}'}")


def as_word(value):
    return f", as {value % 2**32:08x}" if value is not None and -(2**31) <= value < 2**32 else ""


def links(lines, number, code, cores):
    """The cause of a refusal of a line of links, for so many cores."""
    tokens = tokens_of(lines[number - 1])
    if code == 82:
        form = "a line is `link A B`, with the numbers of two cores"
        wrong = next((token for token in tokens if token.kind == "bad"), None)
        if wrong:
            return Cause(number, bad_token(wrong))
        if tokens[0].text != "link":
            return Cause(number, f"{form}, and here is {shown(tokens[0])}")
        return Cause(number, f"{form}, and here {'is one alone' if len(tokens) == 2 else f'are {len(tokens) - 1} tokens after `link`' if len(tokens) != 3 else 'one is no number'}")
    first, second = tokens[1].value, tokens[2].value
    if code == 83:
        wrong = next(value for value in (first, second) if value >= cores)
        return Cause(number, f"there is no core {wrong}: the command names {cores}, and cores are counted from 0")
    for at, line in enumerate(lines[:number - 1], 1):
        before = tokens_of(line)
        if len(before) == 3 and before[1].value == first:
            return Cause(number, f"core {first} feeds core {before[2].value} by line {at} already, and a core feeds at most one")
        if len(before) == 3 and before[2].value == second:
            return Cause(number, f"core {second} is fed by core {before[1].value} by line {at} already, and by one at most")
    return None
