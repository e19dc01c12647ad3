"""`./tta explore --search M -- PROGRAMS`: machines like M that are smaller, or faster, for some programs. It begins with M, leaves out what no
program uses, and then makes changes by chance to machines that it has found, `--steps N` times; each is built and run, its output is compared
with that of `exec`, and one that is refused, not covered, or outputs anything else is dropped. It keeps the front of area against cycles.
For a seed (`--seed S`) it finds the same, however many processors there are."""
import math
import random
import tempfile

import ending
import explore
from designs import area, changes, front, found, model, progress, search_words, trial
from texts import machine as machine_reader
from texts.tokens import lines_of

USAGE, REFUSED = 1, 1
# So many machines are tried at a time, and so many changes are drawn for one that is new.
BATCH, DRAWS = 8, 200
# How often one, two and three changes are made at once.
AT_ONCE = [1] * 12 + [2] * 5 + [3] * 3


class Search:
    """A search from a machine."""

    def __init__(self, trier, asked):
        self.trier, self.asked, self.by = trier, asked, random.Random(asked.seed)
        self.weights = changes.WITH_LATENCIES if asked.latencies else changes.WEIGHTS
        self.seen, self.tried, self.front = set(), 0, None
        self.progress = progress.Progress("search")

    def point(self, machine, tried, before, what):
        """The point of a machine that was tried."""
        size = area.estimate(machine, max(tried.words) * tried.bits)
        first = self.front.first.trial if self.front else tried
        slow = math.prod(now / was for now, was in zip(tried.cycles, first.cycles)) ** (1 / len(tried.cycles))
        earlier = [(text, None, None) for text in what[:-1]]
        return front.Point(machine, tried, size, slow, [*before, *earlier, *((text, size, slow) for text in what[-1:])])

    def begin(self, machine):
        """Tries the first machine, and what is left of it without the operations that no program uses."""
        tried = self.trier.one(machine, 0)
        if tried is None:
            raise self.trier.refusal(self.asked.machine)
        self.front = front.Front(self.point(machine, tried, [], []))
        self.seen.add("\n".join(model.lines_of(machine)))
        before = []
        for made, what in changes.without_unused(machine, self.trier.operations()):
            tried = self.trier.one(made, 0)
            if tried:
                point = self.point(made, tried, before, [what])
                before = point.changes
                self.front.take(point)

    def parent(self):
        """A machine to begin with: half of the time the smallest that is as fast as the first."""
        return self.front.best() if self.by.random() < 0.5 else self.by.choice(self.front.points)

    def drawn(self):
        """A machine that was not seen, the point that it comes of, and what was changed; or None."""
        for _ in range(DRAWS):
            parent = self.parent()
            machine, what = parent.machine, []
            for _ in range(self.by.choice(AT_ONCE)):
                made = changes.one(machine, self.by, self.weights)
                if made:
                    machine, what = made[0], [*what, made[1]]
            text = "\n".join(model.lines_of(machine))
            if what and text not in self.seen:
                self.seen.add(text)
                return machine, parent, what
        return None

    def step(self):
        """Tries some machines more, and tells whether there were any."""
        batch = []
        while len(batch) < min(BATCH, self.asked.steps - self.tried):
            drawn = self.drawn()
            if drawn is None:
                break
            batch.append(drawn)
        tried = self.trier.many([machine for machine, _, _ in batch], self.tried)
        for (machine, parent, what), came in zip(batch, tried):
            if came:
                self.front.take(self.point(machine, came, parent.changes, what))
        self.tried += len(batch)
        return bool(batch)

    def work(self):
        """Tries as many machines as were asked for, and says how far it is."""
        said = 0
        while self.tried < self.asked.steps and self.step():
            if self.progress.is_terminal or self.tried * 10 // self.asked.steps > said:
                said = self.tried * 10 // self.asked.steps
                self.progress.say(f"{self.tried} of {self.asked.steps} machines are tried; the smallest that is as fast has an area of "
                                  f"{self.front.best().area} of {self.front.first.area}")
        self.progress.end()


def searched(search, machine):
    """Carries a search out; whether a key stopped it. Before the first machine is tried nothing is found, and the key ends it at once."""
    try:
        search.begin(machine)
        search.work()
        return False
    except KeyboardInterrupt:
        if search.front is None:
            raise
        search.progress.end()
        return True


def search(tta, words):
    """The command, with its status."""
    try:
        asked = search_words.asked_by(words)
    except explore.Faulty as error:
        ending.say(str(error))
        return USAGE
    programs = explore.built(tta, ["build", "info"])
    if isinstance(programs, int):
        return programs
    with tempfile.TemporaryDirectory() as folder:
        trier = trial.Trier(tta, programs, folder, asked.bound)
        work = Search(trier, asked)
        try:
            trier.take(asked.machine, asked.programs)
            stopped = searched(work, machine_reader.read(lines_of(asked.machine)))
        except trial.Refused as error:
            ending.say(f"explore: {error}", error.more)
            return REFUSED
        stopped = found.write(work, asked, trier) or stopped
    if stopped:
        ending.say(f"stopped; {work.tried} machines were tried, and what was found stands in {asked.into}")
        return ending.STOPPED
    return 0
