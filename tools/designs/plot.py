"""A plot of a front as SVG: the area to the right, the cycles upwards, a point for each machine with its number, and a line through the front."""
WIDTH, HEIGHT, LEFT, BELOW, EDGE = 720, 440, 80, 56, 24
MARKS = (1, 2, 2.5, 5, 10)
HEAD = """<svg xmlns="http://www.w3.org/2000/svg" width="{w}" height="{h}" viewBox="0 0 {w} {h}" font-family="sans-serif" font-size="12">
<rect width="{w}" height="{h}" fill="white"/>"""


def step_of(span, count):
    """A round step, of which about so many fill a span."""
    raw, unit = span / count, 1.0
    while unit * 10 <= raw:
        unit *= 10
    while unit > raw:
        unit /= 10
    return next(unit * mark for mark in MARKS if unit * mark >= raw)


def marks_of(least, most, count=6):
    """Round numbers from below the least to above the most."""
    step = step_of((most - least) or abs(most) or 1, count)
    first = int(least // step)
    found = [first * step]
    while found[-1] < most:
        found.append((first + len(found)) * step)
    return found


def shown(number):
    return f"{number:.6g}"


def escaped(text):
    return text.replace("&", "&amp;").replace("<", "&lt;").replace(">", "&gt;")


class Axes:
    """Where numbers stand on the picture."""

    def __init__(self, points):
        self.across, self.up = (marks_of(min(values), max(values)) for values in zip(*((x, y) for x, y, _ in points)))

    def x(self, value):
        first, last = self.across[0], self.across[-1]
        return round(LEFT + (value - first) / (last - first) * (WIDTH - LEFT - EDGE), 1)

    def y(self, value):
        first, last = self.up[0], self.up[-1]
        return round(HEIGHT - BELOW - (value - first) / (last - first) * (HEIGHT - BELOW - 2 * EDGE), 1)

    def lines(self):
        """The lines of round numbers, with these."""
        low, high, right = self.y(self.up[0]), self.y(self.up[-1]), self.x(self.across[-1])
        found = []
        for value in self.across:
            at = self.x(value)
            found.append(f'<path d="M{at} {low}V{high}" stroke="#ddd"/><text x="{at}" y="{low + 18}" text-anchor="middle">{shown(value)}</text>')
        for value in self.up:
            at = self.y(value)
            found.append(f'<path d="M{LEFT} {at}H{right}" stroke="#ddd"/><text x="{LEFT - 8}" y="{at + 4}" text-anchor="end">{shown(value)}</text>')
        return found


def drawn(first, points, title, across, up):
    """The picture. A point is its place to the right, upwards, and its name; the first is that of the machine with which the search began."""
    axes = Axes([first, *points])
    lines = [HEAD.format(w=WIDTH, h=HEIGHT), f'<text x="{LEFT}" y="{EDGE}" font-size="14">{escaped(title)}</text>', *axes.lines()]
    lines.append(f'<text x="{(LEFT + WIDTH) / 2}" y="{HEIGHT - 12}" text-anchor="middle">{escaped(across)}</text>')
    lines.append(f'<text x="18" y="{HEIGHT / 2}" text-anchor="middle" transform="rotate(-90 18 {HEIGHT / 2})">{escaped(up)}</text>')
    places = [(axes.x(x), axes.y(y)) for x, y, _ in points]
    # A front goes in steps: no machine between two of it is as good as both.
    path = f"M{places[0][0]} {places[0][1]}" + "".join(f"H{x}V{y}" for x, y in places[1:])
    lines.append(f'<path d="{path}" fill="none" stroke="#2a6fb0"/>')
    for (x, y), (_, _, name) in zip(places, points):
        lines.append(f'<circle cx="{x}" cy="{y}" r="4" fill="#2a6fb0"/><text x="{x + 6}" y="{y - 6}">{escaped(name)}</text>')
    x, y, name = axes.x(first[0]), axes.y(first[1]), first[2]
    lines.append(f'<circle cx="{x}" cy="{y}" r="5" fill="none" stroke="#c0392b" stroke-width="2"/>')
    lines.append(f'<text x="{x - 8}" y="{y - 8}" text-anchor="end">{escaped(name)}</text>')
    return "\n".join([*lines, "</svg>", ""])
