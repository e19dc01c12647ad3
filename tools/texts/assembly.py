"""A reader of assembly for the script's tools: the declarations, labels and instructions of a text, up to the first token that does not fit."""
from collections import namedtuple

from texts.tokens import tokens_of

# A line may have a whole text of assembly.
MOST_TOKENS = 1 << 24
# Lines stand beside tokens; that of the end is the line after the text.
Placed = namedtuple("Placed", "line token")
Datum = namedtuple("Datum", "line address")
Label = namedtuple("Label", "line name")
# A source is a word, a label, or a place `NAME.PART`; a destination is a place, or a trigger with its operation.
Source = namedtuple("Source", "kind name part")
Dest = namedtuple("Dest", "name part operation")
Slot = namedtuple("Slot", "line guard source dest")
Long = namedtuple("Long", "line template source")
Instruction = namedtuple("Instruction", "slots long line")


class Misfit(Exception):
    """A token that does not fit, and what has to stand there."""

    def __init__(self, placed, before, wanted):
        super().__init__(wanted)
        self.placed, self.before, self.wanted = placed, before, wanted


class Reader:
    """The tokens of a text, taken one by one, and what they were found to be."""

    def __init__(self, lines):
        self.all = [Placed(number, token) for number, line in enumerate(lines, 1) for token in tokens_of(line, MOST_TOKENS)]
        self.end, self.at = len(lines) + 1, 0
        self.data, self.items, self.misfit = [], [], None

    def text(self, ahead=0):
        return self.all[self.at + ahead].token.text if self.at + ahead < len(self.all) else None

    def kind(self, ahead=0):
        return self.all[self.at + ahead].token.kind if self.at + ahead < len(self.all) else None

    def line(self):
        return self.all[self.at].line if self.at < len(self.all) else self.end

    def take(self, wanted, *kinds_or_texts):
        """The next token, which has to be one of these kinds, marks or names."""
        kind = "negative" if self.kind() == "number" and self.text().startswith("-") else self.kind()
        if kind not in kinds_or_texts and self.text() not in kinds_or_texts or self.at >= len(self.all):
            placed = self.all[self.at] if self.at < len(self.all) else Placed(self.end, None)
            raise Misfit(placed, self.all[self.at - 1] if self.at else None, wanted)
        self.at += 1
        return self.all[self.at - 1].token

    # ---- what a text is made of

    def declaration(self):
        """Reads a line with a datum."""
        line = self.line()
        self.take("`data`", "data")
        address = self.take("an address, which is a number", "number")
        self.take("a word", "number", "negative")
        self.take("`;`", ";")
        self.data.append(Datum(line, address.value))

    def source(self):
        """Reads the source of a move."""
        token = self.take("a source: a word, the name of a label, `FILE.INDEX`, `IMM.INDEX`, `UNIT.r` or `gcu.ra`", "number", "negative", "name")
        if token.kind == "number":
            return Source("word", None, token.value)
        if self.text() != ".":
            return Source("label", token.text, None)
        self.take("`.`", ".")
        is_gcu = token.text == "gcu"
        part = self.take("`ra`" if is_gcu else "the number of a register, or `r`", "number", "r", *(["ra"] if is_gcu else []))
        return Source("place", token.text, part.text)

    def dest(self):
        """Reads the destination of a move."""
        name = self.take("a destination: `FILE.INDEX`, `UNIT.o`, `UNIT.t.OPERATION`, `gcu.t.jump`, `gcu.t.call` or `gcu.t.halt`", "name").text
        self.take("`.`, and the register or port", ".")
        part = self.take("the number of a register, `o`, or `t`", "number", "o", "t").text
        if part != "t":
            return Dest(name, part, None)
        self.take("`.`, and the operation", ".")
        return Dest(name, part, self.take("the name of an operation", "name").text)

    def slot(self):
        """Reads what stands for a bus: a move, or nothing."""
        line = self.line()
        if self.text() == "...":
            self.take("`...`", "...")
            return Slot(line, None, None, None)
        guard = None
        if self.text() in ("?", "!"):
            mark = self.take("a guard", "?", "!").text
            name = self.take("the name of a file", "name").text
            self.take("`.`", ".")
            guard = (mark, name, self.take("the number of a register", "number").value)
        source = self.source()
        self.take("`->`", "->")
        return Slot(line, guard, source, self.dest())

    def long(self):
        """Reads a long immediate."""
        line = self.line()
        self.take("`[`", "[")
        name = self.take("the name of a template", "name").text
        self.take("`=`", "=")
        token = self.take("a word, or the name of a label", "number", "negative", "name")
        self.take("`]`", "]")
        return Long(line, name, Source("word", None, token.value) if token.kind == "number" else Source("label", token.text, None))

    def instruction(self):
        """Reads an instruction."""
        slots, long = [self.slot()], None
        while self.text() == ",":
            self.take("`,`", ",")
            slots.append(self.slot())
        if self.text() == "[":
            long = self.long()
        line = self.line()
        self.take("`;`" if long else "`,` and the next slot, a long immediate, or `;`", ";")
        return Instruction(slots, long, line)

    def read(self):
        """Takes the text up to its end, or to the first token that does not fit."""
        try:
            while self.text() == "data" and self.kind(1) == "number" and not self.text(1).startswith("-"):
                self.declaration()
            while self.at < len(self.all):
                if self.kind() == "name" and self.text(1) == ":":
                    self.items.append(Label(self.line(), self.text()))
                    self.at += 2
                else:
                    self.items.append(self.instruction())
        except Misfit as misfit:
            self.misfit = misfit
        return self


def labels_of(lines):
    """All labels of a text with their lines, also below a token that does not fit."""
    found, before = [], ";"
    placed = Reader(lines).all
    for (line, token), (_, after) in zip(placed, placed[1:]):
        if before in (";", ":") and token.kind == "name" and after.text == ":":
            found.append(Label(line, token.text))
        before = token.text
    return found
