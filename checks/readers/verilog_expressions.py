"""The tokens and the expressions of the texts of circuits, as `verilog.py` reads them within the modules."""
import re

from readers.verilog_forms import Binary, Call, Constant, Invert, Join, Name, Not, Part, Read, Refused, Repeat, Select

TOKEN = re.compile(r"\s*(?:(//[^\n]*\n)|([`$]\w+)|(\d+'[db][0-9]+)|([\x22]\w+\.(?:v|hex)[\x22])|(\d+)|([A-Za-z_]\w*)|(<=|\+:|&&|\|\||==|!=|<<|>>|[][(){}?:;,.=<>+\-*&|^~!@#]))")
# Operators from the loosest to the tightest.
LEVELS = (("||",), ("&&",), ("|",), ("^",), ("&",), ("==", "!="), ("<", ">"), ("<<", ">>"), ("+", "-"), ("*",))


class Tokens:
    """The tokens of a text, and where in them the reader is."""

    def __init__(self, text):
        self.text, self.at, self.tokens = text, 0, []
        place = 0
        while text[place:].strip():
            found = TOKEN.match(text, place)
            if not found:
                raise Refused(f"line {text.count(chr(10), 0, place) + 1}: {text[place:place + 20]!r}")
            if not found[1]:
                self.tokens.append((found[0].strip(), found.start(found.lastindex)))
            place = found.end()

    def next(self):
        return self.tokens[self.at][0] if self.at < len(self.tokens) else ""

    def refuse(self, wanted):
        place = self.tokens[self.at][1] if self.at < len(self.tokens) else len(self.text)
        raise Refused(f"line {self.text.count(chr(10), 0, place) + 1}: {wanted} and not {self.next()!r}")

    def takes(self, word):
        """Whether the next token is this one, which is then passed."""
        if self.next() != word:
            return False
        self.at += 1
        return True

    def want(self, *words):
        for word in words:
            if not self.takes(word):
                self.refuse(repr(word))

    def matching(self, pattern, what):
        found = re.fullmatch(pattern, self.next())
        if not found:
            self.refuse(what)
        self.at += 1
        return found

    def name(self):
        return self.matching(r"[A-Za-z_]\w*", "a name")[0]

    def number(self):
        return int(self.matching(r"\d+", "a number")[0])

    def constant(self):
        found = self.matching(r"(\d+)'([db])(\d+)", "a constant")
        width, word = int(found[1]), int(found[3], 10 if found[2] == "d" else 2)
        if not width or word >> width:
            raise Refused(f"{found[0]}: no word of so many bits")
        return Constant(width, word)

    def range(self):
        """How many bits a range says."""
        self.want("[")
        high = self.number()
        self.want(":", "0", "]")
        return high + 1


class Expressions(Tokens):
    """Reads expressions, each by the level of its operator."""

    def expression(self):
        """Reads an expression: a choice, or the operators from the loosest on."""
        test = self.level(0)
        if not self.takes("?"):
            return test
        on = self.expression()
        self.want(":")
        return Select(test, on, self.expression())

    def level(self, k):
        """Reads the operators from a level on."""
        if k == len(LEVELS):
            return self.operand()
        left = self.level(k + 1)
        while self.next() in LEVELS[k]:
            sign = self.next()
            self.at += 1
            is_distance = sign in ("<<", ">>") and re.fullmatch(r"\d+", self.next())
            left = Binary(sign, left, Constant(32, self.number()) if is_distance else self.level(k + 1))
        return left

    def operand(self):
        """Reads an operand of the tightest operator."""
        if self.takes("!"):
            return Not(self.operand())
        if self.takes("~"):
            return Invert(self.operand())
        if self.takes("("):
            inside = self.expression()
            self.want(")")
            return inside
        if self.takes("{"):
            return self.joined()
        if "'" in self.next():
            return self.constant()
        name = self.name()
        if self.takes("("):
            given = [self.expression()]
            while self.takes(","):
                given.append(self.expression())
            self.want(")")
            return Call(name, given)
        return self.part(name) if self.takes("[") else Name(name)

    def joined(self):
        """What stands in braces, of which the first is passed: words that are joined, or one that is repeated."""
        if re.fullmatch(r"\d+", self.next()):
            times = self.number()
            self.want("{")
            part = self.expression()
            self.want("}", "}")
            return Repeat(times, part)
        parts = [self.expression()]
        while self.takes(","):
            parts.append(self.expression())
        self.want("}")
        return Join(parts)

    def part(self, name):
        """A part of what has a name, or the word of a memory at an address; the bracket is passed."""
        first = self.number() if re.fullmatch(r"\d+", self.next()) else self.expression()
        if self.takes("+:"):
            part = Part(name, first, self.number())
        elif self.takes(":"):
            low = self.number()
            part = Part(name, low, first - low + 1)
        else:
            part = Part(name, first, 1) if isinstance(first, int) else Read(name, first)
        self.want("]")
        if isinstance(part, Part) and not (isinstance(part.low, int) and part.width > 0):
            self.refuse("a part from a number on, of one bit or more")
        return part
