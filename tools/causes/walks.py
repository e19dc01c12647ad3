"""Which of its two causes the code 80 of `check` has: a jump or call whose word no walk of the code knows, or walks that jump from one place to
different words. The walks of `check` (docs/COMMANDS.md, Walks) are taken here over the text of `dis`, as far as known words go."""
import re
from collections import namedtuple
from itertools import product

# No more walks than so many states are taken.
MOST = 20_000
SLOT = re.compile(r"(?:([?!])(\S+) )?(\S+) -> (\S+)")
LONG = re.compile(r" \[(\w+)=(\d+)\]")
TO_ADDRESSES, HALT = ("gcu.t.jump", "gcu.t.call"), "gcu.t.halt"

Move = namedtuple("Move", "text way guard source target")
Instruction = namedtuple("Instruction", "moves long")
# What a place has: its word, if it is known, and the address of the instruction that wrote it.
Held = namedtuple("Held", "word by")
# A walk before a cycle: the address, the cycles until control takes effect, where that goes to, and what places have.
Walk = namedtuple("Walk", "at left goal held")
# A jump that acts at an address: its move, and what its source has.
Jump = namedtuple("Jump", "move held")


def instruction(line):
    """An instruction by its line of `dis`."""
    long = LONG.search(line)
    slots = LONG.sub("", line).removesuffix(" ;").split(" , ")
    return Instruction([Move(slot, *SLOT.fullmatch(slot).groups()) for slot in slots if slot != "..."], long and (long[1], int(long[2])))


def source_of(walk, source):
    """What a source has: a result port nothing that is known, and a place what was written there."""
    if re.fullmatch(r"-?\d+", source):
        return Held(int(source) % 2**32, None)
    return dict(walk.held).get(source, Held(None, None))


def writes(machine, walk, moves, long):
    """What places have after an instruction. A register of one bit is chosen, and so never known."""
    held, delay = dict(walk.held), machine.control.delay
    for move in moves:
        name = move.target.split(".")[0]
        if move.target == "gcu.t.call":
            held["gcu.ra"] = Held(walk.at + 1 + delay, walk.at)
        elif name in machine.files and machine.files[name].width == 32:
            held[move.target] = Held(source_of(walk, move.source).word, walk.at)
    if long:
        template = machine.templates[long[0]]
        held[f"{template.imm}.{template.index}"] = Held(long[1], walk.at)
    return tuple(sorted(held.items()))


def choices(moves):
    """The moves that act, for each choice of the registers of guards."""
    guards = sorted({move.guard for move in moves if move.guard})
    for truths in product((False, True), repeat=len(guards)):
        chosen = dict(zip(guards, truths))
        yield [move for move in moves if not move.guard or chosen[move.guard] == (move.way == "?")]


def nexts(machine, walk, code):
    """The walks after a cycle, each with the jump that acts in it, if one does."""
    for moves in choices(code[walk.at].moves):
        jump = next((Jump(move, source_of(walk, move.source)) for move in moves if move.target in TO_ADDRESSES), None)
        ends = any(move.target == HALT for move in moves)
        left, goal = (machine.control.delay, jump and jump.held.word) if jump or ends else (walk.left, walk.goal)
        held = writes(machine, walk, moves, code[walk.at].long)
        over = left == 0 and goal is None
        at, left, goal = (goal, None, None) if left == 0 else (walk.at + 1, left and left - 1, goal)
        is_known = jump is None or jump.held.word is not None
        yield (None if over or not is_known or at >= len(code) else Walk(at, left, goal, held)), jump


def jumps_at(machine, code, address):
    """The different jumps that walks make at an address, or None where there are too many walks."""
    begin = Walk(0, None, None, ())
    found, seen, left = [], {begin}, [begin]
    while left:
        walk = left.pop()
        for after, jump in nexts(machine, walk, code):
            if jump and walk.at == address and jump not in found:
                found.append(jump)
            if after and after not in seen:
                seen.add(after)
                left.append(after)
        if len(seen) > MOST:
            return None
    return found


def unknown(jump, code):
    """Why no walk knows the word of a jump."""
    source, by = jump.move.source, jump.held.by
    begin = f"`{jump.move.text}` goes to a word that no walk knows:"
    if by is None:
        return f"{begin} `{source}` is a result port, and what an operation gives is never known"
    wrote = next(move for move in code[by].moves if move.target == source)
    return f"{begin} `{source}` has it of `{wrote.text}` at the address {by}; known are words that code names, and copies of them"


def different(jumps):
    """Which words walks jump to from one place."""
    one, other = jumps[:2]
    places = [f"{jump.held.word}, which was written at the address {jump.held.by}" for jump in (one, other)]
    return f"`{one.move.text}` goes to different words in different walks: one has {places[0]}, and another {places[1]}; `check` takes one word for each jump"


def cause(machine, lines, address):
    """Which of the two it is at an address of code, by its lines; None where that cannot be told."""
    code = [instruction(line) for line in lines]
    jumps = jumps_at(machine, code, address) or []
    lacking = [jump for jump in jumps if jump.held.word is None]
    known = {jump.held.word: jump for jump in jumps}
    if lacking:
        return unknown(lacking[0], code)
    return different([known[word] for word in sorted(known)]) if len(known) > 1 else None
