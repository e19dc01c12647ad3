"""Lines and tokens of texts, as docs/FORMATS.md has them, each with the place where it stands."""
import re
from collections import namedtuple

# The kind is name, number, mark or bad. The value is that of a number; `text` is as it stands in the line, from the place `at` on.
Token = namedtuple("Token", "kind text value at")
TOKEN = re.compile(r"(?P<name>[A-Za-z_][A-Za-z0-9_]*)|(?P<run>-?[0-9][A-Za-z0-9_]*)|(?P<mark>->|\.\.\.|[][.,;:=?!])|(?P<bad>.)", re.S)
BLANKS = " \t\r"
WORDS = 2**32
LONGEST_FILE = 1 << 24
MOST_TOKENS = 10_000


def of_run(text, at):
    """The token of a run that begins with a digit, or with a minus directly before one."""
    value = None
    if re.fullmatch("[0-9]{1,10}", text) and int(text) < WORDS:
        value = int(text)
    elif re.fullmatch("-[0-9]{1,10}", text) and int(text) >= -WORDS // 2:
        value = int(text) % WORDS
    elif re.fullmatch("0x[0-9A-Fa-f]{1,8}", text):
        value = int(text, 16)
    return Token("bad" if value is None else "number", text, value, at)


def tokens_of(line, most=MOST_TOKENS):
    """The tokens of a line without its comment, at most so many: no line of a form has more."""
    found, at, line = [], 0, line.split("#")[0]
    while at < len(line) and len(found) < most:
        if line[at] in BLANKS:
            at += 1
            continue
        match = TOKEN.match(line, at)
        found.append(of_run(match[0], at) if match.lastgroup == "run" else Token(match.lastgroup, match[0], None, at))
        at = match.end()
    return found


def split(data):
    """The lines of a text; each byte is a character."""
    lines = data.decode("latin-1").split("\n")
    return lines if lines[-1] else lines[:-1]


def lines_of(path):
    """The lines of a file."""
    with open(path, "rb") as f:
        return split(f.read(LONGEST_FILE))


def shown(token):
    """A token as it is told."""
    text = token.text if token.text.isprintable() and token.text.isascii() else f"byte 0x{ord(token.text[0]):02x}"
    return f"`{text}`" if text == token.text else f"the {text}"


def bad_token(token):
    """Why a token has no meaning in any text."""
    text = token.text
    if text.lstrip("-").isdecimal():
        least = f"the least is -{WORDS // 2}" if text.startswith("-") else f"the greatest is {WORDS - 1}"
        return f"`{text}` is no word of 32 bits: {least}"
    if re.match("-?0[xX]", text):
        return f"`{text}` is no number: after 0x come one to eight hexadecimal digits, and no minus stands before it"
    if re.match("-?[0-9]", text):
        return f"`{text}` is neither a number nor a name: a name begins with a letter"
    if text in "\"'":
        return f"{shown(token)} begins no text: a word is a number"
    if not text.isascii():
        return f"{shown(token)} stands outside a comment, where letters, digits and marks of ASCII alone may stand"
    return f"{shown(token)} has no meaning here"


def mark_of_order(lines, number):
    """What is said where a text begins with a byte order mark, and its first line is refused, or None."""
    if number == 1 and lines and lines[0].startswith("\u00ef\u00bb\u00bf"):
        return "the file begins with a byte order mark (the bytes ef bb bf), which no text has: save it as UTF-8 without one"
    return None
