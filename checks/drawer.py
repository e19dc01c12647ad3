"""Draws machines and code as docs/OUTPUT.md says in the section Pictures, but for the look of the classes. It shares nothing with
the program."""
import re


# ---- elements

def box(look, x, y, width, height):
    return f'<rect class="{look}" x="{x}" y="{y}" width="{width}" height="{height}"/>\n'


def dot(look, x, y):
    return f'<circle class="{look}" cx="{x}" cy="{y}" r="4"/>\n'


def label(look, x, y, text):
    return f'<text class="{look}" x="{x}" y="{y}">{text}</text>\n'


def whole(width, height, *elements):
    size = f'width="{width}" height="{height}" viewBox="0 0 {width} {height}"'
    return f'<svg xmlns="http://www.w3.org/2000/svg" {size}>\n' + box("ground", 0, 0, width, height) + "".join(elements) + "</svg>\n"


def wide(text):
    """How much room a text takes."""
    return 7 * len(text) + 8


def legend(first, x, *rows):
    """A row of elements each, 18 pixels high, and what they mean."""
    return "".join("".join(elements).replace("\n", "") + label("note", x, first + 18 * k, text) for k, (elements, text) in enumerate(rows))


# ---- a machine

def line(look, k, joined=True):
    return [box(look, 8, 37 + 18 * k, 44, 2)] + [dot(look, 30, 38 + 18 * k)] * joined


MACHINE = legend(
    42, 64,
    (line("bus", 0, False), "A bus. Beside its name stands how many bits its short words have."),
    (line("in", 1), "A socket that leads words from buses into a port. A dot joins it to a bus; its name stands beside it."),
    (line("out", 2), "A socket that leads words from a port to buses."),
    (line("takes", 3), "The buses that a template takes for a long word."),
    ([label("port", 30, 114, "in out")], "The ports of registers, and the port of immediate registers."),
    ([label("port", 30, 132, "o t r")], "The operand port of a unit, its trigger port, whose moves start operations, and its result port."),
    ([label("port", 30, 150, "t ra")], "The trigger port of control, whose moves jump, call and halt, and the port of the return address."),
    ([label("line", 12, 168, "add 1")], "An operation, and after how many cycles its result shows."))


class Row:
    """The parts of a machine, side by side under its buses. A part has a name, lines, and up to three places for ports."""

    def __init__(self, m):
        self.m, self.heights, self.drawn, self.lines = m, {bus: 196 + 28 * k for k, bus in enumerate(m.buses)}, [], 4
        self.under = 196 + 28 * len(m.buses) + 16
        self.short = max([72, *map(wide, m.buses)]) + 4
        self.left = self.short + 88 + 16

    def stem(self, look, x, buses):
        dots = "".join(dot(look, x + 1, y) for bus, y in self.heights.items() if bus in buses)
        return box(look, x, 196, 2, self.under - 196) + dots

    def part(self, name, lines, *ports, room=0, looks={}, taken=None):
        """Each place is the name of a port and its socket, or None; each line that may have a number has room for its digits."""
        x, joined = self.left + 20, ""
        for place in ports:
            if place and place[1]:
                way, buses = self.m.sockets[place[1]]
                joined += label("port", x + 1, self.under + 15, place[0]) + self.stem(way, x, buses)
                joined += label("note", x + 6, self.under - 5, place[1])
            x += max(40, wide(place[1])) if place and place[1] else 40
        width = max(124, max(room, wide(name) if name != "gcu" else 0) + 8, x - self.left - 20 + 4)
        text = box("part", self.left, self.under, width, 48 + 18 * len(lines))
        for k, told in enumerate([name, *lines]):
            look = "title" if k == 0 else looks.get(told, "line")
            text += label(look, self.left + 8, self.under + 35 + 18 * k, told)
        self.drawn += [text, joined, self.stem("takes", self.left + 60, taken) if taken else ""]
        self.left, self.lines = self.left + width + 16, max(self.lines, len(lines))


def machine_picture(m):
    """The picture of a machine alone."""
    row = Row(m)
    for name, (width, size, reads, writes, out, into) in m.files.items():
        row.part(name, [f"registers {size}", f"bits {width}", f"reads {reads}", f"writes {writes}"], ("in", into), None, ("out", out))
    for name, (size, out) in m.imms.items():
        row.part(name, [f"registers {size}"], None, None, ("out", out))
    for name, (imm, index, buses, _) in m.templates.items():
        row.part(name, ["long word to", f"{imm}.{index}"], None, None, None, room=wide(imm) + 21, looks={"long word to": "note"}, taken=buses)
    for name, unit in m.units.items():
        ops = [op if latency is None else f"{op} {latency}" for op, latency in unit["ops"].items()]
        row.part(name, ops, *[(port, unit[port]) for port in "otr"], room=max([wide(op) + 21 for op in unit["ops"]], default=0))
    delay, address, t, ra = m.control
    row.part("gcu", [f"delay {delay}", f"address bits {address}"], None, ("t", t), ("ra", ra))
    width = max(800, row.left)
    spaces = "".join(label("note", 8 + 160 * k, 20, f"{name} words {m.spaces.get(name, 0)}") for k, name in enumerate(["data", "frame"]))
    buses = "".join(label("title", 8, y + 4, bus) + label("note", row.short + 4, y + 4, "{} {}".format(*m.buses[bus]))
                    + box("bus", row.short + 88, y - 1, width - row.short - 88 - 16, 2) for bus, y in row.heights.items())
    return whole(width, row.under + 48 + 18 * row.lines + 16, spaces, MACHINE, buses, *row.drawn)


# ---- code

def sample(look, k, text):
    return [box(look, 8, 7 + 18 * k, 112, 16), label("line", 12, 19 + 18 * k, text)]


CODE = legend(
    19, 132,
    (sample("move", 0, "!G.0 x -&gt; y"), "A move from x to y in the column of its bus. With !G.0 it acts if G.0 is 0, with ?G.0 if it is 1."),
    (sample("u0", 1, "x -&gt; ALU.t.add"), "A move that starts an operation, in the colour of its unit."),
    ([box("b0", 62, 43, 4, 12), dot("b0", 64, 55)],
     "Its result on the way, in the column of the unit: it shows from the row of the dot on, if no jump comes between."),
    (sample("control", 3, "x -&gt; gcu.t.jump"), "A jump, call or halt."),
    ([box("slot", 8, 79, 112, 16)], "The delay slots after it, which are carried out before it takes effect."),
    ([box("arrow", 20, 104, 80, 2), '<path class="arrow" d="M108 105l-8-4v8z"/>'],
     "A jump or call takes effect: from its last delay slot to its target, a word or the last long immediate above."),
    ([box("taken", 8, 115, 54, 16), box("long", 66, 115, 54, 16), label("line", 70, 127, "L=7")],
     "The buses that a long immediate takes, its template and its word."),
    ([label("title", 12, 145, "L7"), label("note", 66, 145, "7")], "The label of a row, if it is the first or a target, and the address of the row."))
REMARKS = legend(163, 132, ([label("remark", 12, 163, "b1 lines 3 5")], "The block of the program that begins in a row, and the lines that it stands for."))


def split(line):
    """The moves of a canonical line, and its long immediate, or None."""
    long = re.search(r" \[((\w+)=\d+)\] ;$", line)
    return line[:long.start() if long else -2].split(" , "), long


def triggered(m, move):
    """The unit and operation that a move triggers, or None."""
    to = move.split(" -> ")[-1].split(".")
    return (to[0], to[2]) if len(to) == 3 and to[0] in m.units else None


class Sheet:
    """Where the columns of the code of a machine stand."""

    def __init__(self, m, lines, remarks):
        self.m, self.words, self.numbers = m, [split(line) for line in lines], {name: k for k, name in enumerate(m.units)}
        self.remarks, self.lines = remarks, lines
        self.bus = max([60, *map(wide, m.buses), *(wide(move) for moves, _ in self.words for move in moves if move != "...")])
        self.long = max([106, *(wide(long[1]) for _, long in self.words if long)])
        self.first = 170 + max([0, *(wide(text) for _, text in remarks)])
        self.right = self.first + (self.bus + 4) * len(m.buses)
        self.lanes = {name: max([1, *(latency or 0 for latency in unit["ops"].values())]) for name, unit in m.units.items()}
        self.lefts, left = {}, self.right + self.long + 12
        for name in m.units:
            self.lefts[name], left = left, left + self.width_of(name) + 8
        self.width = max(920, left)

    def width_of(self, unit):
        return max(wide(unit), 8 * self.lanes[unit] + 8)

    def cell(self, look, x, y, width, text):
        return box(look, x, y, width, 20) + label("line", x + 4, y + 15, text)

    def row(self, k):
        """The row of an instruction."""
        (moves, long), y = self.words[k], 208 + 24 * k
        text = box("row", 4, y, self.width - 8, 1) + label("note", 130, y + 17, k)
        columns = [self.first + (self.bus + 4) * bus for bus in range(len(self.m.buses))]
        if long:
            text += "".join(box("taken", x, y + 2, self.bus, 20) for x, bus in zip(columns, self.m.buses) if bus in self.m.templates[long[2]][2])
            text += self.cell("long", self.right, y + 2, self.long, long[1])
        for x, move in zip(columns, moves):
            unit = triggered(self.m, move)
            look = f"u{self.numbers[unit[0]] % 6}" if unit else "control" if " -> gcu." in move else "move"
            text += self.cell(look, x, y + 2, self.bus, move) if move != "..." else ""
        return text

    def grounds(self):
        """A row is a delay slot where one of the rows right above it, as many as the delay, has a move into control."""
        turns = {k for k, (moves, _) in enumerate(self.words) if any(" -> gcu." in move for move in moves)}
        slots = [k for k in range(len(self.words)) if turns & set(range(max(0, k - self.m.control[0]), k))]
        return "".join(box("slot", 122, 209 + 24 * k, self.right - 124, 23) for k in slots)

    def column(self, unit):
        """The name of a unit, and a bar for each of its results, in the first of its lanes where no other is on the way."""
        look, left = f"b{self.numbers[unit] % 6}", self.lefts[unit]
        text = label("title", left + 4, 190, unit) + box(look, left + 4, 196, self.width_of(unit) - 8, 4)
        due = [0] * self.lanes[unit]
        for k, (moves, _) in enumerate(self.words):
            for at in filter(None, (triggered(self.m, move) for move in moves)):
                latency = self.m.units[unit]["ops"][at[1]] if at[0] == unit else None
                if latency:
                    lane = next((n for n, row in enumerate(due) if row <= k), len(due) - 1)
                    due[lane] = max(due[lane], k + latency)
                    x, end = left + 4 + 8 * lane, 208 + 24 * (k + latency) + 8
                    text += box(look, x, 208 + 24 * k + 16, 4, end - (208 + 24 * k + 16)) + dot(look, x + 2, end)
        return text

    def jumps(self):
        """The pairs of the last delay slot of a jump or call and the row that it leads to, where the text shows that: the move has a
        word of its own, or reads an immediate register, into which the last long immediate above that writes it has brought a word."""
        for row, line in enumerate(self.lines):
            move = re.search(r"(?:^| )(\S+) -> gcu\.t\.(?:jump|call)\b", line)
            target = move[1] if move else ""
            if re.fullmatch(r"\w+\.\d+", target):
                template = "|".join(name for name, (imm, index, *_) in self.m.templates.items() if f"{imm}.{index}" == target)
                above = re.findall(rf" \[(?:{template})=(\d+)\] ;$", "\n".join(self.lines[:row]), flags=re.M) if template else []
                target = above[-1] if above else ""
            slot = row + self.m.control[0]
            if re.fullmatch(r"-?\d+", target) and max(int(target) % 2**32, slot) < len(self.lines):
                yield slot, int(target) % 2**32


def arrows(found):
    """An arrow in the first of seven lanes that is empty beside it and below, and in the eighth if none is."""
    drawn, lanes = [], [-1] * 8
    for row, to in found:
        top, bottom = sorted((row, to))
        lane = next((k for k in range(7) if lanes[k] < top), 7)
        lanes[lane] = max(lanes[lane], bottom)
        x, tail, tip = 58 - 7 * lane, 208 + 24 * row + 16, 208 + 24 * to + 8
        upper, lower = sorted((tail, tip))
        drawn.append(box("arrow", x, tail, 68 - x, 2) + box("arrow", x, upper, 2, lower + 2 - upper) + box("arrow", x, tip, 68 - x, 2)
                     + f'<path class="arrow" d="M76 {tip + 1}l-8-4v8z"/>\n')
    return drawn


def code_picture(m, canonical, remarks=()):
    """The picture of code by its canonical text. A remark is a row and a text."""
    sheet = Sheet(m, [line for line in canonical.split("\n")[:-1] if not line.startswith("data ")], remarks)
    names = [label("title", sheet.first + (sheet.bus + 4) * k + 4, 190, bus) for k, bus in enumerate(m.buses)]
    rows = [sheet.row(k) for k in range(len(sheet.words))]
    found = list(sheet.jumps())
    marked = sorted({0, *(to for _, to in found)} if rows else set())
    labels = [label("title", 82, 208 + 24 * row + 17, f"L{row}") for row in marked]
    beside = [REMARKS] * bool(remarks) + [label("remark", 174, 208 + 24 * row + 17, text) for row, text in remarks]
    return whole(sheet.width, 208 + 24 * len(rows) + 16, CODE, *names, label("title", sheet.right + 4, 190, "long immediate"), sheet.grounds(),
                 *rows, *map(sheet.column, m.units), *labels, *arrows(found), *beside)
