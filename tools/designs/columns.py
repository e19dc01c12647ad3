"""The columns that --synth adds to a table: what the core of each pair costs, the time of its run, and area × time. The area is LUTs and
flip-flops together. The time is in microseconds where each core has a clock, and else in LUTs that a signal goes through: cycles × path."""
from concurrent.futures import ThreadPoolExecutor

import runs as commands
from designs import progress, synth

HEADS = ["LUTs", "flip-flops", "block RAMs", "path"]
# From here on numbers have no places after the point.
WHOLE = 1000


class Columns:
    """The costs of pairs, by the number of each."""

    def __init__(self, flow, runs, count):
        self.synthesis, self.runs = synth.Synthesis(flow, runs) if synth.is_there() else None, runs
        self.costs, self.failed, self.count, self.flow = {}, {}, count, flow
        self.progress = progress.Progress(f"synthesis for {flow}")

    def measure(self, at, core):
        """Takes the core of a pair."""
        try:
            was_kept = self.synthesis.is_kept(core)
            self.costs[at] = self.synthesis.cost(core)
            if not was_kept:
                self.progress.say(f"{len(self.costs) + len(self.failed)} of {self.count} cores are measured")
        except synth.Failed as error:
            self.failed[at] = str(error)

    def measure_all(self, images, view):
        """Takes the cores of images, each with its machine, side by side; the program `view` has `rtl`. A key that stops it leaves what is
        measured."""
        def one(at):
            core = self.runs.text([view, "rtl", *images[at]])
            if core.status == 0:
                self.measure(at, core.output)
        with ThreadPoolExecutor(commands.processors()) as workers:
            try:
                list(workers.map(one, range(len(images))))
            except BaseException:
                self.runs.stop()
                workers.shutdown(wait=True, cancel_futures=True)
                raise

    def has_clocks(self):
        """Whether each core that was measured has a clock."""
        return bool(self.costs) and all(cost.clock for cost in self.costs.values())

    def heads(self):
        return [*HEADS, *(["MHz"] if self.flow == "ice40" else []), "time us" if self.has_clocks() else "cycles x path", "area x time"]

    def cells(self, at, cycles):
        """The cells of a pair, which are empty where it has no cost."""
        cost = self.costs.get(at)
        if not cost:
            return [""] * len(self.heads())
        cells = [cost.luts, cost.flops, cost.blocks, cost.path, *([cost.clock or ""] if self.flow == "ice40" else [])]
        if not isinstance(cycles, int):
            return [*cells, "", ""]
        time = cycles / cost.clock if self.has_clocks() else cycles * cost.path
        return [*cells, *(f"{number:.4g}" if number < WHOLE else f"{number:.0f}" for number in (time, (cost.luts + cost.flops) * time))]
