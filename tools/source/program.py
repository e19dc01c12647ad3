"""The source of an image: the lines of its program, and what `stages` tells of it."""
from source.stages import Stages, names_of
from texts import program as reader


class Source:
    """A program as it was written: its lines, and its names for what the prompt calls by numbers."""

    def __init__(self, text, stages):
        self.lines = text.split("\n")
        self.stages = Stages(stages)
        self.names = {proc.name: names_of(proc) for proc in reader.read(self.lines).procs}
        # A procedure is called by its number in the text, and `main` by its name.
        self.procs = {("main" if name == "main" else f"p{k}"): name for k, name in enumerate(self.names)}

    def proc(self, block):
        return self.procs.get(block.proc, block.proc)

    def variables(self, block):
        """The variables of a block's procedure, each with its home."""
        return list(zip(self.names.get(self.proc(block), []), self.stages.homes.get(block.proc, [])))

    def home_of(self, block, name):
        return next((home for it, home in self.variables(block) if it == name), None) if block else None

    def told(self, block):
        """A block, and the lines of the program that it is of."""
        last = block.address + block.cycles - 1
        head = f"block b{block.number} of {self.proc(block)}, addresses {block.address} to {last}"
        if not block.first:
            return [f"{head}, where the procedure begins"]
        return [head] + [f"  {k}: {self.lines[k - 1].strip()}" for k in range(block.first, block.last + 1) if self.lines[k - 1].strip()]

    def line(self, number):
        """A line of the program, and the addresses of the blocks that are of it."""
        found = [f"block b{it.number}, addresses {it.address} to {it.address + it.cycles - 1}" for it in self.stages.blocks_of(number)]
        return [f"{number}: {self.lines[number - 1].strip()}", *(found or ["no code is of this line"])]
