"""`./tta net --depths N LINKS M IMG IN ..`: the least queues between cores with which they put out, as circuits, all that `net N` prints. With
DEPTHS after N, whether these queues are enough.

Each core alone tells in which order it takes and puts out: a run that has j words of its input puts out all that comes before it asks for
the next. Queues of few words change when words come, and never which; so cores that go on in any order, while they have a word to take or
room for one to put out, come as far as the circuits do."""
import os
import re
import tempfile
from collections import namedtuple

import ending
import explore
import runs
import words as command_words

USAGE, NOT_ENOUGH, FAILED = 1, 1, 70
LEAST, MOST = command_words.DEPTHS[0], command_words.DEPTHS[-1]
# So many words a core takes at most; each is a run of its own.
MOST_TAKEN = 20_000
WIDTH = 64
# A core: its machine, image and data words, and the core that it feeds, or None.
Core = namedtuple("Core", "machine image data feeds")
# What a core does in order: how many words it puts out before it takes its first, its second and so on.
Acts = namedtuple("Acts", "puts wanted")
LINK = re.compile(r"^\s*link\s+(\d+)\s+(\d+)\s*(?:#.*)?$", re.M)


class Refused(Exception):
    """Why nothing is told, with the status."""


def asked_by(words):
    """The bound, the depths or nothing, the file of links, and the words of the cores."""
    has_depths = len(words) % 3 == 0
    bound, *rest = words or [""]
    depths = rest.pop(0) if has_depths and rest else None
    cores = len(rest[1:]) // 3
    is_well = command_words.is_number(bound, command_words.ROUNDS) and 1 <= cores <= command_words.CORES and len(rest) == 1 + 3 * cores
    if not is_well or depths is not None and not command_words.are_depths(depths, cores):
        raise Refused("net --depths takes a number of rounds, depths as `rtl net` takes them if they are to be tried, LINKS, and M IMG IN of each core", USAGE)
    named = [rest[at:at + 3] for at in range(1, len(rest), 3)]
    with open(rest[0], encoding="latin-1") as f:
        feeds = {int(a): int(b) for a, b in LINK.findall(f.read())}
    return bound, depths, rest[0], [Core(*files, feeds.get(at)) for at, files in enumerate(named)]


def printed_by(program, bound, links, cores):
    """The words that each core puts out, as `net` prints them."""
    told = runs.Runs().text([program, "net", bound, links, *(word for core in cores for word in core[:3])])
    if told.status not in (0, 12):
        raise Refused(explore.why(told.error) or "the net cannot be run", told.status)
    parts = re.split(r"^core \d+\n", told.output.decode("latin-1"), flags=re.M)[1:]
    return [re.findall(r"^(\d+)$", part, re.M) for part in parts]


class Taker:
    """Finds what cores do in order, by runs with the first words of their input."""

    def __init__(self, program, bound, folder):
        self.program, self.bound, self.folder, self.runs = program, bound, folder, runs.Runs()

    def ran(self, core, given, at):
        """How many words a core puts out that has some words of input, and whether it then waits for another."""
        stream = os.path.join(self.folder, f"{at}.stream")
        with open(stream, "w", encoding="latin-1") as f:
            f.writelines(f"{int(word):08x}\n" for word in given)
        told = self.runs.run([self.program, "run", core.machine, core.image, core.data, self.bound, stream], read=counted)
        os.remove(stream)
        return told.output, explore.why(told.error) == "waiting"

    def acts(self, core, given, wanted):
        """What a core does in order, with these words of input, up to the last word that is wanted of it or beyond."""
        puts, before = [], 0
        for taken in range(len(given) + 1):
            count, waits = self.ran(core, given[:taken], taken)
            puts.append(count - before)
            before = count
            if not waits:
                break
        return Acts(puts, wanted)


def counted(pipe):
    """How many words come first in what a run prints, and nothing of the rest."""
    text = pipe.read()
    words = re.match(rb"(?:\d+\n)*", text)[0]
    return words.count(b"\n"), ""


class Board:
    """Cores that go on with queues of some depths: queue k is before core k."""

    def __init__(self, cores, acts, depths):
        self.cores, self.acts, self.depths = cores, acts, depths
        self.held = [0] * len(cores)
        self.taken, self.put = [0] * len(cores), [0] * len(cores)
        self.left = [act.puts[0] for act in acts]

    def has_room(self, at):
        to = self.cores[at].feeds
        return to is None or self.held[to] < self.depths[to]

    def goes(self, at):
        """Whether a core could do something, which it then has done."""
        if self.left[at]:
            if not self.has_room(at):
                return False
            if self.cores[at].feeds is not None:
                self.held[self.cores[at].feeds] += 1
            self.left[at] -= 1
            self.put[at] += 1
            return True
        if self.taken[at] + 1 >= len(self.acts[at].puts) or not self.held[at]:
            return False
        self.held[at] -= 1
        self.taken[at] += 1
        self.left[at] = self.acts[at].puts[self.taken[at]]
        return True

    def runs(self):
        """Goes on until no core can."""
        while any([self.goes(at) for at in range(len(self.cores))]):
            pass
        return self

    def lacking(self):
        """The cores that have not put out all that is wanted, with how many words they did."""
        return [(at, put) for at, (put, act) in enumerate(zip(self.put, self.acts)) if put < act.wanted]


def least(cores, acts):
    """The least depths that are enough: none of them can be halved."""
    depths = [MOST] * len(cores)
    if Board(cores, acts, depths).runs().lacking():
        raise Refused(f"queues of {MOST} words are not enough", NOT_ENOUGH)
    for at in range(len(cores)):
        while depths[at] > LEAST and not Board(cores, acts, [*depths[:at], depths[at] // 2, *depths[at + 1:]]).runs().lacking():
            depths[at] //= 2
    return depths


def acts_of(program, bound, cores, words):
    """What all cores do in order."""
    fed = {core.feeds: at for at, core in enumerate(cores) if core.feeds is not None}
    with tempfile.TemporaryDirectory() as folder:
        taker, found = Taker(program, bound, folder), []
        for at, core in enumerate(cores):
            given = words[fed[at]] if at in fed else []
            if len(given) > MOST_TAKEN:
                raise Refused(f"core {at} is fed with {len(given)} words, and at most {MOST_TAKEN} are looked at; fewer rounds have fewer", FAILED)
            found.append(taker.acts(core, given, len(words[at])))
    return found


def told(tta, words):
    """Prints what is asked for, and gives the status."""
    bound, depths, links, cores = asked_by(words)
    programs = explore.built(tta, ["net"])
    if isinstance(programs, int):
        return programs
    acts = acts_of(programs[0], bound, cores, printed_by(programs[0], bound, links, cores))
    if depths is None:
        print(",".join(map(str, least(cores, acts))))
        return 0
    numbers = [int(number) for number in depths.split(",")]
    board = Board(cores, acts, numbers * len(cores) if len(numbers) == 1 else numbers).runs()
    for at, put in board.lacking():
        held = f", and the queue before core {cores[at].feeds} is full" if board.left[at] and not board.has_room(at) else ""
        print(f"core {at} puts out {put} of {acts[at].wanted} words{held}")
    return NOT_ENOUGH if board.lacking() else 0


def depths(tta, words):
    """The command, with its status. The first word says that depths are asked for."""
    try:
        return told(tta, words[1:])
    except Refused as error:
        ending.say(f"net --depths: {error.args[0]}" if error.args[1] in (USAGE, FAILED) else error.args[0])
        return error.args[1]
    except OSError as error:
        ending.say("read fault")
        print(f"  {error.filename}: {error.strerror}")
        return command_words.READ_FAULT
