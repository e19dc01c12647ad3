"""Pairs of operations as operations of one's own. A unit of them is made as docs/OPERATIONS.md makes one, and handed over by a plain program that is
built for this alone; then the program that has them in the place of the pairs is built and run, for the machine that has one of them too."""
import os
import re
import sys
from collections import namedtuple

from designs import model, pairs, trial
from texts.tokens import of_run

TOP = os.path.normpath(os.path.join(os.path.dirname(os.path.abspath(__file__)), "..", ".."))
sys.path.insert(0, os.path.join(TOP, "tools", "plain"))
import build as plain

# What the standard operations make of two words, in Rust; those of one word take b.
VALUES = {
    "add": "{a}.wrapping_add({b})", "sub": "{a}.wrapping_sub({b})", "mul": "{a}.wrapping_mul({b})", "mulhu": "((({a} as u64) * ({b} as u64)) >> 32) as u32",
    "neg": "{b}.wrapping_neg()", "and": "{a} & {b}", "or": "{a} | {b}", "xor": "{a} ^ {b}", "not": "!{b}", "shl": "{a}.wrapping_shl({b})",
    "shr": "({a} as i32).wrapping_shr({b}) as u32", "shru": "{a}.wrapping_shr({b})", "eq": "u32::from({a} == {b})", "ne": "u32::from({a} != {b})",
    "lt": "u32::from(({a} as i32) < ({b} as i32))", "gt": "u32::from(({a} as i32) > ({b} as i32))", "ltu": "u32::from({a} < {b})",
    "gtu": "u32::from({a} > {b})", "divu": "{a}.checked_div({b}).unwrap_or(u32::MAX)", "remu": "{a}.checked_rem({b}).unwrap_or({a})",
}
UNIT, PROGRAM = "tta_pairs", "tta_with_pairs"
# An operation that a pair becomes: its name, the pair, and how many words it takes.
Own = namedtuple("Own", "name pair arity")
SOURCE = """use tta_ops::OpUnit;

#[derive(Clone, Copy, Debug)]
pub struct Pairs;

impl OpUnit for Pairs {{
    fn count(&self) -> usize {{
        {count}
    }}

    fn name(&self, i: usize) -> &str {{
        match i {{ {names}, _ => "" }}
    }}

    fn arity(&self, i: usize) -> u8 {{
        match i {{ {arities}, _ => 1 }}
    }}

    fn apply(&self, i: usize, a: u32, b: u32) -> u32 {{
        match i {{ {values}, _ => 0 }}
    }}
}}
"""


class Untried(Exception):
    """Why no operation of one's own was tried."""


def value(form, words):
    """A form as an expression of Rust, where words has an expression for each letter."""
    shown = [f"({value(word, words)})" if isinstance(word, pairs.Form) else words.get(word) or f"{of_run(word, 0).value}u32" for word in form.words]
    return VALUES[form.name].format(a=shown[0], b=shown[-1])


def value_of(own):
    """What an operation makes of its words, in Rust."""
    return value(own.pair.form, {"a": "b"} if own.arity == 1 else {"a": "a", "b": "b"})


def owns_of(found, taken):
    """The operations that some pairs become, under names that nothing has yet."""
    made = []
    for pair in found:
        if all(name in VALUES for name in pairs.names_of(pair.form)):
            wish = "_".join(pairs.names_of(pair.form))
            names = taken | {own.name for own in made}
            name = next(name for name in (wish, *(f"{wish}_{count}" for count in range(2, 9))) if name not in names)
            made.append(Own(name, pair, len(pair.places[0].takes)))
    return made


def source_of(owns):
    """The unit of some operations."""
    def cases(shown):
        return ", ".join(f"{at} => {shown(own)}" for at, own in enumerate(owns))

    return SOURCE.format(count=len(owns), names=cases(lambda own: f'"{own.name}"'), arities=cases(lambda own: own.arity),
                         values=cases(value_of))


def write(path, text):
    os.makedirs(os.path.dirname(path))
    with open(path, "w", encoding="utf-8") as f:
        f.write(text)


def built(owns, kept, folder):
    """Builds the program that hands the operations over, beside the plain programs that are kept in a folder."""
    with open(os.path.join(TOP, "crates", "tta_with_bits", "src", "main.rt"), encoding="utf-8") as f:
        # A unit of pairs hands in no circuits.
        lines = [line for line in f if "circuit" not in line]
    main = re.sub(r"\bBits\b", "Pairs", "".join(lines).replace("tta_bits", UNIT))
    sources = [os.path.join(folder, name, "src") for name in (UNIT, PROGRAM)]
    write(os.path.join(sources[0], "lib.rt"), source_of(owns))
    write(os.path.join(sources[1], "main.rt"), main)
    below = [UNIT if name == "tta_bits" else name for name in plain.crates_of("tta_with_bits")["tta_with_bits"]]
    added = [plain.Added(UNIT, sources[0], ["tta_ops"]), plain.Added(PROGRAM, sources[1], below)]
    try:
        return plain.build(PROGRAM, kept, added=added, to=os.path.join(folder, PROGRAM))
    except plain.CannotBuild as error:
        raise Untried(str(error).split("\n")[0])


def rewritten(lines, own):
    """The lines of a program with an operation in the place of its pair, so that each line keeps its number."""
    made, used = list(lines), set()
    for place in own.pair.places:
        if not used & {place.first, place.then}:
            used |= {place.first, place.then}
            made[place.first - 1] = ""
            made[place.then - 1] = f"{place.dest} = {own.name} {' '.join(place.takes)}"
    return made


def with_own(machine, own):
    """A machine that offers an operation in a unit that has one of its pair, and the line of it; it takes as long as the slower of the two."""
    names = pairs.names_of(own.pair.form)
    latencies = [unit.ops[name][1] or 1 for name in names for unit in machine.units.values() if name in unit.ops]
    unit = next((unit for name in names for unit in machine.units if name in machine.units[unit].ops and (machine.units[unit].o or own.arity == 1)), None)
    if unit is None:
        return None, None
    made = model.copy_of(machine)
    made.units[unit].ops[own.name] = (0, max(latencies))
    return made, f"op {unit} {own.name} {max(latencies)}"


def tried(owns, machine, lines, trier, program):
    """What each operation came to, with its line of the machine, where it saves anything."""
    own_trier, found = trial.Trier(trier.tta, [program], trier.folder, trier.bound), []
    own_trier.runs = trier.runs
    for number, own in enumerate(owns):
        made, line = with_own(machine, own)
        if made:
            text = os.path.join(trier.folder, f"{own.name}.program")
            with open(text, "w", encoding="latin-1") as f:
                f.write("\n".join(rewritten(lines, own)) + "\n")
            own_trier.programs = [trier.programs[0]._replace(text=text)]
            found.append((own, line, own_trier.one(made, number)))
    return found
