"""`./tta suggest M P`: what holds the program of P back on the machine of M, most first. Each is tried: the machine is changed, the program is built
and run on it, and its output is compared. What gains is printed with its change of the machine's text and the cycles before and after. Pairs of
operations are tried as operations of one's own, in a program that has these in their place."""
import difflib
import os
import tempfile

import ending
import explore
import words as command_words
from causes import near
from designs import area, fused, hot, model, pairs, progress, proposals, trial
from texts import machine as machine_reader
from texts import program as program_reader
from texts.tokens import lines_of

USAGE, REFUSED = 1, 1
MOST = 10


def asked_by(words):
    """The machine, the program and the bound that the words name."""
    names, bound = [], explore.BOUND
    words = iter(words)
    for word in words:
        if word == "--bound":
            bound = next(words, None)
            if bound is None or not command_words.is_number(bound, command_words.BOUND):
                said = f"and {bound} is none" if bound is not None else "and nothing follows it"
                raise explore.Faulty(f"--bound takes a number of steps and cycles, below 2^48\n  {said}")
        elif word.startswith("--"):
            raise explore.Faulty(f"suggest has no option {word}\n  its one option is --bound N, the greatest number of steps and of cycles")
        else:
            names.append(word)
    if len(names) != 2:
        given = f"{near.count(len(names), 'word')} given" + (f": {' '.join(names)}" if names else "")
        verb = "is" if len(names) == 1 else "are"
        raise explore.Faulty(f"suggest takes a machine and a program\n  its words are: suggest M P [--bound N], and there {verb} {given}")
    for path, kind in zip(names, ("a machine", "a program")):
        if not os.path.isfile(path):
            is_folder = f"; {path} is a folder" if os.path.isdir(path) else ""
            raise explore.Faulty(f"suggest: there is no file {path}\n  it stands where {kind} has to be{is_folder}")
    return *names, bound


def difference(before, after):
    """The lines that a change takes away and puts in."""
    changed = difflib.ndiff(model.lines_of(before), model.lines_of(after))
    return [line for line in changed if line.startswith(("- ", "+ "))]


def profiled(trier, path):
    """What the run of the program shows on a machine."""
    program = trier.programs[0]
    image = os.path.join(trier.folder, "profiled.image")
    trier.runs.run([trier.program, "build", path, program.text, image])
    after = [program.data, trier.bound, *([program.stream] if program.stream else [])]
    texts = [trier.runs.text([trier.view, "profile", path, code, *after]).output.decode("latin-1") for code in (image, program.text)]
    return hot.Hot(*texts)


def tried_of(trier, found):
    """What machines of proposals came to, as far as a key lets them."""
    told, came = progress.Progress("suggest"), []
    told.say(f"{near.count(len(found), 'change')} of the machine are tried")
    try:
        for at in range(0, len(found), trial.WIDTH):
            came += trier.many([proposal.machine for proposal in found[at:at + trial.WIDTH]], at)
    except KeyboardInterrupt:
        pass
    told.end()
    return came


def gains(found, came, first):
    """The proposals that gain, with what they came to, the best first. Of those that answer the same, the best stands alone."""
    better = sorted((tried.cycles[0], at) for at, tried in enumerate(came) if tried and tried.cycles[0] < first.cycles[0])
    best = {}
    for _, at in better:
        best.setdefault(found[at].seen, (found[at], came[at]))
    return list(best.values()), len(better)


def print_gain(machine, first, proposal, tried):
    """A change with what it gives."""
    before, after = first.cycles[0], tried.cycles[0]
    sizes = [area.estimate(made, it.words[0] * it.bits) for made, it in ((machine, first), (proposal.machine, tried))]
    print(f"{before - after} cycles less: {before} before, {after} after; the area is about {sizes[1]} in the place of {sizes[0]}")
    print(f"  {proposal.seen}")
    for line in difference(machine, proposal.machine):
        print(f"  {line}")


def kept_folder(tta):
    """Where plain programs are built."""
    plain = explore.built([*tta, "--plain"], ["build"])
    if isinstance(plain, int):
        raise fused.Untried("there is no plain program")
    return os.path.dirname(os.path.dirname(os.path.dirname(plain[0])))


def tried_pairs(trier, tta, machine, found):
    """What pairs come to as operations of one's own, each with its line of the machine."""
    if len(tta) > 1:
        raise fused.Untried("a program with units of its own takes no more of them")
    taken = trier.operations() | {operation for unit in machine.units.values() for operation in unit.ops}
    owns = fused.owns_of(found, taken)
    if not owns:
        return []
    program = fused.built(owns, kept_folder(tta), os.path.join(trier.folder, "own"))
    return fused.tried(owns, machine, lines_of(trier.programs[0].text), trier, program)


def print_pair(pair):
    """A pair, with where it is carried out."""
    print(f"  {pairs.text_of(pair.form)}: carried out {near.count(pair.times, 'time')}, as at line {pair.places[0].first} of the program")


def print_own(first, own, line, tried):
    """An operation of one's own with what it gives."""
    before, after = first.cycles[0], tried.cycles[0]
    print(f"{before - after} cycles less: {before} before, {after} after, with an operation of your own (docs/OPERATIONS.md)")
    print_pair(own.pair)
    print(f"  + {line}")
    print(f"  its value: {fused.value_of(own)}")


def print_others(found, gained, why):
    """The pairs that are not shown with what they give."""
    others = [pair for pair in found if not any(own.pair is pair for own, _, _ in gained)]
    if others:
        print(f"pairs of operations that were not tried as one, since {why}:" if why else "pairs of operations that save nothing as one:")
    for pair in others:
        print_pair(pair)


def of_pairs(trier, tta, machine, seen, first):
    """The pairs that may be an operation of one's own, those of them that save cycles, and why none was tried, if so."""
    found = pairs.of(program_reader.read(lines_of(trier.programs[0].text)), seen.blocks)
    try:
        came = tried_pairs(trier, tta, machine, found) if found else []
    except fused.Untried as error:
        return found, [], error
    return found, [one for one in came if one[2] and one[2].cycles[0] < first.cycles[0]], None


def told(trier, tta, path):
    """Prints all that is found, and gives the status."""
    machine = machine_reader.read(lines_of(path))
    first = trier.one(machine, 0)
    if first is None:
        raise trier.refusal(path)
    seen = profiled(trier, path)
    found = proposals.of(machine, seen, first.words[0])
    came = tried_of(trier, found)
    is_whole = len(came) == len(found)
    better, count = gains(found, came, first)
    candidates, owns, why = of_pairs(trier, tta, machine, seen, first) if is_whole else ([], [], None)
    shown = [(tried.cycles, print_gain, machine, first, proposal, tried) for proposal, tried in better[:MOST]]
    shown += [(tried.cycles, print_own, first, own, line, tried) for own, line, tried in owns]
    for _, show, *what in sorted(shown, key=lambda one: one[0]):
        show(*what)
    more = f"; {len(better) - MOST} more gain less" if len(better) > MOST else ""
    print(f"{near.count(len(came), 'change')} tried, {count} of them with fewer cycles{more}")
    print_others(candidates, owns, why)
    if not is_whole:
        ending.say(f"stopped; {len(came)} of {len(found)} changes were tried")
    return 0 if is_whole else ending.STOPPED


def suggest(tta, words):
    """The command, with its status."""
    try:
        machine, program, bound = asked_by(words)
    except explore.Faulty as error:
        ending.say(str(error))
        return USAGE
    programs = explore.built(tta, ["build", "info"])
    if isinstance(programs, int):
        return programs
    with tempfile.TemporaryDirectory() as folder:
        trier = trial.Trier(tta, programs, folder, bound)
        try:
            trier.take(machine, [program])
            return told(trier, tta, machine)
        except trial.Refused as error:
            ending.say(f"suggest: {error}", error.more)
            return REFUSED
