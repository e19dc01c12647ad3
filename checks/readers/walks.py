"""What walks of code have, each taken by itself: a search through all of them, written apart from the program as plainly as can be. A
walk forgets words: it keeps which places were written, when results are due, and the words that the code itself gives."""
from itertools import product
from typing import NamedTuple, Optional

from readers.assembly import Tokens, data_of, instruction_of
from readers.tokens import ARITY


class Walk(NamedTuple):
    """Where a walk stands. What is under way is a pair: how many instructions are carried out before it takes effect, and its target
    or "halt". A due is a unit with the cycles that its result is still away, 0 once it has come."""
    address: int
    under: Optional[tuple]
    written: frozenset
    dues: frozenset
    known: frozenset


def word_of(walk, source):
    """The known word of a source, or None."""
    kind, place = source
    return place if kind == "word" else dict(walk.known).get(place)


def is_on(walk, guard, chosen):
    """Whether a guard lets its move act. One that was never written lets none act."""
    return guard is None or guard[1:] in walk.written and chosen[guard[1:]] == (guard[0] == "?")


def codes_of(m, walk, moves, active):
    """The codes of an instruction by its moves, and by those that act."""
    codes, triggers = set(), [dest[1] for _, _, dest in active if dest[0] == "trigger"]
    reads = [source for _, source, _ in active if source[0] != "word"]
    if any(guard and guard[1:] not in walk.written for guard, _, _ in moves):
        codes.add(60)
    if any(source[0] != "r" and source[1] not in walk.written for source in reads):
        codes.add(60)
    if any(source[0] == "r" and (source[1][0], 0) not in walk.dues for source in reads):
        codes.add(61)
    given = {dest[1] for _, _, dest in active if dest[0] == "operand"} | walk.written
    for unit, op in triggers:
        if unit == "gcu":
            codes |= {64} if walk.under else set()
        elif {"stw": 2, "stf": 2}.get(op, ARITY.get(op)) == 2 and (unit, "o") not in given:
            codes.add(62)
        if unit != "gcu" and (unit, m.units[unit]["ops"][op]) in walk.dues:
            codes.add(63)
    if any(dest[1] in (("gcu", "jump"), ("gcu", "call")) and word_of(walk, source) is None for _, source, dest in active):
        codes.add(80)
    return codes


def after(m, walk, active, long):
    """The walk after an instruction without a code, or None where it has halted."""
    delay, known, written, dues, under = m.control[0], dict(walk.known), set(walk.written), set(walk.dues), walk.under
    for _, source, (kind, place) in active:
        word = word_of(walk, source)
        if kind != "trigger":
            written.add(place)
        if kind == "register" and (place[0] not in m.files or m.files[place[0]][0] == 32):
            known[place] = word
        if kind == "trigger" and place[0] == "gcu":
            under = (1 + delay, "halt" if place[1] == "halt" else word)
        elif kind == "trigger" and m.units[place[0]]["ops"][place[1]] is not None:
            dues.add((place[0], m.units[place[0]]["ops"][place[1]]))
        if kind == "trigger" and place == ("gcu", "call"):
            written.add(("gcu", "ra"))
            known[("gcu", "ra")] = walk.address + 1 + delay
    if long:
        place = m.templates[long[0]][:2]
        written.add(place)
        known[place] = long[1][1]
    address, under = walk.address + 1, under and (under[0] - 1, under[1])
    if under and under[0] == 0:
        if under[1] == "halt":
            return None
        address, under = under[1], None
    kept = frozenset((place, word) for place, word in known.items() if word is not None)
    return Walk(address, under, frozenset(written), frozenset((unit, max(due - 1, 0)) for unit, due in dues), kept)


def ways(m, walk, instruction):
    """Each way to carry an instruction out: the codes that the walk then has, the known words of its jump or call, and the next walk."""
    slots, long, _ = instruction
    moves = [move for move, _ in slots if move]
    registers = sorted({guard[1:] for guard, _, _ in moves if guard})
    for values in product((False, True), repeat=len(registers)):
        active = [move for move in moves if is_on(walk, move[0], dict(zip(registers, values)))]
        codes = codes_of(m, walk, moves, active)
        targets = {word_of(walk, source) for _, source, dest in active if dest[1] in (("gcu", "jump"), ("gcu", "call"))} - {None}
        yield codes, targets, None if codes else after(m, walk, active, long)


def walks(canonical, m, most):
    """The codes that walks have, each with its address, and the addresses where two disagree; or None where there are too many walks."""
    t, code = Tokens(canonical.encode()), []
    data_of(t, m.spaces.get("data", 0))
    while t.at < len(t.all):
        code.append(instruction_of(t))
    found, targets = set(), {}
    seen = {Walk(0, None, frozenset(), frozenset(), frozenset())}
    waiting = list(seen)
    while waiting:
        walk = waiting.pop()
        if walk.address >= len(code):
            found.add((65, walk.address))
            continue
        for codes, words, new in ways(m, walk, code[walk.address]):
            found |= {(number, walk.address) for number in codes}
            targets.setdefault(walk.address, set()).update(words)
            if new and new not in seen:
                seen.add(new)
                waiting.append(new)
        if len(seen) > most:
            return None
    return found, {address for address, words in targets.items() if len(words) > 1}
