"""Cores that are joined by queues, written apart from the program as plainly as can be: a reader of links, and machines or programs of
which each goes on by one cycle or step at a turn, in any order."""
from readers.meaning import Fault, Frame, Waits, begun, cycle, laid, step, steps_of, waits
from readers.tokens import Refused, lines_of, tokens_of


def links(text, count):
    """The core whose outputs are the input of each of so many cores, or None where no line feeds it; or the first line that is refused,
    with its number."""
    feeds = [None] * count
    for number, line in enumerate(lines_of(text), 1):
        tokens = tokens_of(line)
        if not tokens:
            continue
        if [kind for kind, _ in tokens] != ["name", "number", "number"] or tokens[0][1] != "link":
            raise Refused(number, 82)
        first, second = tokens[1][1], tokens[2][1]
        if first >= count or second >= count:
            raise Refused(number, 83)
        if first in feeds or feeds[second] is not None:
            raise Refused(number, 84)
        feeds[second] = first
    return feeds


class Queues:
    """Cores that feed one another. What a core is, says the class that stands on this one: `outputs[k]` is what core k has output, and
    `move(k, rest)` lets it go on with this rest of its input, and gives the rest that is left and how the core stands. A core's input is
    what its feeder has output so far, less the words that it has taken; that of a core which no other feeds is `given[k]`, less those."""

    def __init__(self, feeds, given=None):
        self.feeds, self.taken, self.given = feeds, [0] * len(feeds), given or [[] for _ in feeds]

    def turn(self, k):
        """Lets a core go on by one, and answers how it stands. A core that waits changes nothing."""
        feeder = self.feeds[k]
        rest = (self.given[k] if feeder is None else self.outputs[feeder])[self.taken[k]:]
        left, stands = self.move(k, list(rest))
        self.taken[k] += len(rest) - len(left)
        return stands

    def is_at_rest(self):
        """Whether no turn changes anything. Only a turn of a core that runs does, so once each core has had one that did not."""
        return all(self.turn(k) != "running" for k in range(len(self.feeds)))


class Cluster(Queues):
    """Cores of machines, each with the canonical text of its code and the words of its data space at first. One turn is one cycle; one
    that faults changes nothing but that the core is at that fault from then on."""

    def __init__(self, cores, feeds, given=None):
        super().__init__(feeds, given)
        self.cores = [begun(canonical, m, memory, []) for m, canonical, memory in cores]
        self.outputs = [state.output for state, _ in self.cores]

    def move(self, k, rest):
        state, code = self.cores[k]
        if state.is_halted:
            return rest, "halted"
        state.rest = rest
        try:
            cycle(state, code)
        except Fault as fault:
            return rest, f"fault {fault.args[0]} {state.cycle}"
        except Waits:
            return rest, "waiting"
        return state.rest, "running"


class Programs(Queues):
    """Programs, each a text with the words of its data memory at first. One turn is one step."""

    def __init__(self, programs, feeds):
        super().__init__(feeds)
        self.runs, self.outputs = [], [[] for _ in programs]
        for text, memory in programs:
            procs, data = steps_of(text)
            self.runs.append((procs, [Frame(procs["main"], [], None)], laid(data.items(), memory)))

    def move(self, k, rest):
        procs, stack, memory = self.runs[k]
        if not stack:
            return rest, "halted"
        if waits(stack, rest):
            return rest, "waiting"
        step(procs, stack, memory, rest, self.outputs[k])
        return rest, "running"


def rounds_of(cluster, bound):
    """Lets each core go on by one, round by round, until none runs or so many rounds are over: how each stands, and whether one ran in
    each round."""
    last, rounds, runs = ["running"] * len(cluster.feeds), 0, True
    while rounds < bound and runs:
        last = [cluster.turn(k) for k in range(len(cluster.feeds))]
        rounds, runs = rounds + 1, "running" in last
    return last, runs


def run_net(cores, feeds, bound):
    """The text that `net` prints after so many rounds at most, whether some core ran in each of so many, and the fault of the least
    core that is at one, or None."""
    cluster = Cluster(cores, feeds)
    last, runs = rounds_of(cluster, bound)
    lines = [line for k in range(len(cores)) for line in (f"core {k}", *cluster.outputs[k], last[k])]
    faults = [tuple(map(int, line.split()[1:])) for line in last if line.startswith("fault")]
    return "".join(f"{line}\n" for line in lines), runs, faults[0] if faults else None
