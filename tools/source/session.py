"""What each line asks of a session by the source, and the lines that it is answered with. Whatever is no command of this file is one of the
proved prompt, and what that refuses is said in words here."""
import difflib
import re

from source.child import MOST_CYCLES

HELP = """step [N]: N cycles, 1 without N
go [N]: on up to a breakpoint, at most N cycles
back [N]: N cycles back, by running again
restart: to the first cycle
until reg FILE.INDEX, until mem A, until var NAME: on until that word is another
break A, break line N: a breakpoint at an address, or where the code of a line of the program begins
delete A, delete line N: without the breakpoint
where: how the run stands, with the lines of the program
line N: a line of the program, and the addresses of its code
vars, var NAME: the variables of the procedure, and one of them
reg FILE.INDEX, regs, port UNIT, slot N, mem A: words of registers, result ports, the frame and the data space
flight: the results that show later
code A: the instruction at an address
quit: the end"""
PLACE = re.compile(r"(until |)(reg) ([A-Za-z_]\w*)[. ](\d+)")
STATE = re.compile(r"(?:waiting )?at (\d+) cycle (\d+)|halted cycle (\d+)|fault \d+ cycle (\d+)")
# How many cycles `until` makes at most.
MOST_UNTIL = 1_000_000
REFUSED = {
    "reg": "the machine has no such register", "port": "the machine has no such unit with a result port", "mem": "the data space has no such word",
    "slot": "the frame space has no such word", "code": "the code has no such address", "break": "the code has no such address",
    "delete": "no breakpoint is set there",
}
KNOWN = sorted({re.match(r"\w+", part)[0] for line in HELP.split("\n") for part in re.split(r", (?=[a-z])", line.split(":")[0])})


class Session:
    """A session. `source` is the program's, or None where an image was given."""

    def __init__(self, child, source):
        self.child, self.source, self.stops = child, source, []

    def answer(self, line):
        """The lines that answer a line which is not blank."""
        words = line.split()
        own = {"step": self.step, "go": self.step, "back": self.back, "restart": self.restart, "until": self.until, "help": self.help,
               "where": self.where, "line": self.line, "vars": self.vars, "var": self.var, "break": self.stop, "delete": self.stop}
        work = own.get(words[0])
        return work(words) if work else self.asked(PLACE.sub(r"\2 \3 \4", line))

    def asked(self, line):
        """The reply of the proved prompt; a refusal says what is wrong. Breakpoints are kept, since a run that begins anew has none."""
        reply, word = self.child.ask(line), line.split()[0]
        if reply == ["ok"] and word == "break":
            self.stops.append(line)
        elif reply == ["ok"] and word == "delete":
            at = line.split()[1:]
            self.stops = [it for it in self.stops if it.split()[1:] != at]
        if reply[-1] == "refused 70":
            near = [] if word in KNOWN else difflib.get_close_matches(word, KNOWN, 1)
            reply[-1] += f": {word} is no command" if word not in KNOWN else f": {self.form(word)}"
            reply[-1] += f"; is it {near[0]}?" if near else "" if word in KNOWN else "; help lists them"
        elif reply[-1] == "refused 71":
            reply[-1] += f": {REFUSED.get(word, 'there is no such thing')}"
        elif reply[-1] == "refused 72":
            reply[-1] += ": eight breakpoints are set already"
        return reply

    def form(self, word):
        """How a command is written."""
        return next(f"it is written as {line.split(': ')[0]}" for line in HELP.split("\n") if re.search(rf"\b{word}\b", line.split(":")[0]))

    def help(self, words):
        return [*HELP.split("\n"), "ok"]

    def step(self, words):
        count = "1" if words[0] == "step" else str(MOST_CYCLES)
        return self.asked(" ".join(words if len(words) > 1 else [words[0], count]))

    # ---- back and forth

    def cycle(self):
        """How many cycles were made."""
        found = STATE.fullmatch(self.child.ask("where")[0])
        return int(next(it for it in found.groups()[1:] if it is not None))

    def to(self, cycle):
        """Runs again up to a cycle. Words that come out once more are not told."""
        self.child.again()
        for line in self.stops:
            self.child.ask(line)
        while cycle > 0:
            self.child.ask(f"step {min(cycle, MOST_CYCLES)}")
            cycle -= MOST_CYCLES
        return self.where([])

    def back(self, words):
        count = words[1] if len(words) > 1 else "1"
        if not count.isdigit() or len(words) > 2:
            return ["refused 70: it is written as back N, with N cycles"]
        return self.to(max(0, self.cycle() - int(count)))

    def restart(self, words):
        return self.to(0)

    def until(self, words):
        """Makes steps until a register, a word or a variable is another than before."""
        question = self.question(words[1:])
        if question is None:
            return ["refused 70: it is written as until reg FILE.INDEX, until mem A or until var NAME"]
        before, out = self.child.ask(question)[0], []
        if before.startswith("refused"):
            return self.asked(question)
        for _ in range(MOST_UNTIL):
            reply = self.child.ask("step 1")
            out += reply[:-1]
            if self.child.ask(question)[0] != before or not reply[-1].startswith("at "):
                return [*out, f"{' '.join(words[1:])}: {before} before, {self.child.ask(question)[0]} now", *self.where([])]
        return [*out, f"{' '.join(words[1:])} is {before} still", *self.where([])]

    def question(self, words):
        """What asks the proved prompt for a word, or None."""
        place = PLACE.fullmatch(" ".join(words))
        if place:
            return f"reg {place[3]} {place[4]}"
        if len(words) == 2 and words[0] in ("mem", "slot") and words[1].isdigit():
            return " ".join(words)
        if len(words) == 2 and words[0] == "var" and self.source:
            found = self.source.home_of(self.block(), words[1])
            return self.home_question(found.place) if found else None
        return None

    # ---- the source

    def block(self):
        """The block of the code in which the run stands, or None."""
        found = STATE.fullmatch(self.child.ask("where")[0])
        return self.source.stages.block_at(int(found[1])) if self.source and found[1] else None

    def where(self, words):
        state = self.asked("where")
        block = self.block()
        return state + (self.source.told(block) if block else [])

    def line(self, words):
        number = self.number(words)
        return self.source.line(number) if number else self.no_line()

    def number(self, words):
        """The number of a line of the program, from the last word, or None."""
        number = int(words[-1]) if self.source and words[-1].isdigit() else 0
        return number if number and number <= len(self.source.lines) else None

    def no_line(self):
        return ["refused 71: the program has no such line" if self.source else "refused 71: an image has no lines; give a program"]

    def stop(self, words):
        """Sets or takes away a breakpoint, at an address or at the code of a line."""
        if words[1:2] != ["line"] or len(words) != 3:
            return self.asked(" ".join(words))
        number = self.number(words)
        blocks = self.source.stages.blocks_of(number) if number else []
        if not blocks:
            return self.no_line() if not number else [f"refused 71: no code is of line {number}"]
        told = []
        for block in blocks:
            reply = self.asked(f"{words[0]} {block.address}")
            told.append(f"{reply[0]}, at address {block.address}, where the code of lines {block.first} to {block.last} begins")
        return told

    # ---- variables

    def home_question(self, place):
        file, _, index = place.rpartition(".")
        return f"slot {index}" if file == "slot" else f"reg {file} {index}"

    def vars(self, words):
        block = self.block()
        if block is None:
            return ["refused 71: the run stands at no code of a program"]
        return [self.variable(block, name, home) for name, home in self.source.variables(block)] + [self.state_of(block), "ok"]

    def var(self, words):
        block = self.block()
        home = self.source.home_of(block, words[-1]) if block and len(words) == 2 else None
        if home is None:
            return ["refused 71: the procedure has no such variable" if block else "refused 71: the run stands at no code of a program"]
        return [self.variable(block, words[1], home), self.state_of(block)]

    def variable(self, block, name, home):
        """A variable, its word, and the place of it."""
        return f"{name} = {self.child.ask(self.home_question(home.place))[0]}  ({home.place})"

    def state_of(self, block):
        """How far the words of places are those of variables: they are at the beginning of a block."""
        at = int(STATE.fullmatch(self.child.ask("where")[0])[1])
        if at != block.address:
            return f"in the midst of the block: a word may be that from before it or that from after it (it begins at address {block.address})"
        if block.live is None:
            return "a procedure begins or goes on here: the words of its variables come from the registers and slots of the call"
        names = [name for k, (name, _) in enumerate(self.source.variables(block)) if k in block.live]
        return f"at the beginning of the block: live are {', '.join(names) or 'none'}"
