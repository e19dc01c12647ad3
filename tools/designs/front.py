"""The machines of a search of which none is both smaller and faster than another: the front of area against cycles."""
from collections import namedtuple

# A machine that was built and run: what it came to, its area, its cycles relative to those of the first machine, and the changes that led to
# it, each with the area and the cycles after it.
Point = namedtuple("Point", "machine trial area slow changes")
# So many machines of a front are reported.
MOST = 16


def covers(one, other):
    """Whether one is no larger and no slower than the other."""
    return one.area <= other.area and one.slow <= other.slow


class Front:
    """The points, from the smallest to the fastest."""

    def __init__(self, first):
        self.first, self.points = first, [first]

    def take(self, point):
        """Takes a point, unless one that is there covers it."""
        if not any(covers(other, point) for other in self.points):
            self.points = sorted([other for other in self.points if not covers(point, other)] + [point], key=lambda one: (one.area, one.slow))

    def best(self):
        """The smallest machine that takes no more cycles than the first."""
        return next(point for point in self.points if point.slow <= self.first.slow)

    def reported(self):
        """At most so many of the points: the smallest, the fastest, the smallest that is no slower than the first, and those between whose
        neighbours are farthest away."""
        found = list(self.points)
        kept = (found[0], found[-1], self.best())
        while len(found) > MOST:
            gaps = [(apart(found[at - 1], found[at + 1]), at) for at in range(1, len(found) - 1) if found[at] not in kept]
            del found[min(gaps)[1]]
        return found


def apart(one, other):
    """How far two points are from each other."""
    return max(other.area / one.area, one.area / other.area) * max(one.slow / other.slow, other.slow / one.slow)
