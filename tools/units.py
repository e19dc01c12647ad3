"""The operations that units of crates have, read off the sources, and whether their names may stand beside the standard ones: a program whose
units share a name does not start."""
import glob
import os
import re

import formats
from texts.program import RESERVED

STANDARD = "tta_ops"
FUNCTION = r"fn {}\(&self, \w+: usize\) -> [&\w ]+\{{(.*?)^    \}}\n"
ARM = re.compile(r'([0-9_][0-9_ |.=]*?) => ("[^"]*"|\d+)')
NAME = re.compile("[A-Za-z_][A-Za-z0-9_]{0,63}")


class Faulty(Exception):
    """Which name may not stand."""


def numbers_of(pattern, count):
    """The numbers of a pattern such as `0 | 6..=9`, or all of so many for `_`."""
    found = []
    for part in pattern.split("|"):
        first, _, last = part.strip().partition("..=")
        found += range(count) if first == "_" else range(int(first), int(last or first) + 1)
    return found


def values_of(body, count):
    """What a body gives for each of so many numbers: by the first arm of a match that has it, or by its one value."""
    arms = ARM.findall(body)
    if not arms:
        only = re.search(r'("[^"]*"|\b\d+\b)', body)
        return [only[1]] * count if only else [None] * count
    found = [None] * count
    for pattern, value in reversed(arms):
        for at in numbers_of(pattern, count):
            if at < count:
                found[at] = value
    return found


def operations(crate):
    """The operations of the units of a crate, each with how many words it takes, as far as the sources show."""
    found = []
    for path in sorted(glob.glob(os.path.join(glob.escape(formats.TOP), "crates", crate, "src", "**", "*.rt"), recursive=True)):
        with open(path, encoding="utf-8", errors="replace") as f:
            for unit in re.split(r"^impl OpUnit for ", f.read(), flags=re.M)[1:]:
                bodies = [re.search(FUNCTION.format(name), unit, re.M | re.S) for name in ("name", "arity")]
                count = len(set(re.findall(r'"([^"]+)"', bodies[0][1]))) if bodies[0] else 0
                names = values_of(bodies[0][1], count) if bodies[0] else []
                arities = values_of(bodies[1][1], count) if bodies[1] else [None] * count
                found += [(name.strip('"'), int(arity) if arity and arity.isdecimal() else None) for name, arity in zip(names, arities) if name]
    return found


def crates_with_units(program):
    """The crates that a program stands on directly, but for the standard one, which have operations."""
    with open(os.path.join(formats.TOP, "crates.txt"), encoding="utf-8") as lines:
        found = next((line.split("#")[0].partition(":")[2].split() for line in lines if line.split(":")[0].strip() == program), [])
    return [crate for crate in found if crate != STANDARD and operations(crate)]


def own_operations(program):
    """All operations of a program's own units."""
    return [operation for crate in crates_with_units(program) for operation in operations(crate)]


def check(program):
    """Refuses a program whose units have a name that is reserved, no name, or there twice."""
    seen = {name: STANDARD for name, _ in operations(STANDARD)}
    for crate in crates_with_units(program):
        for name, _ in operations(crate):
            where = f"crates/{crate}: no operation may be called `{name}`"
            if name in RESERVED:
                raise Faulty(f"{where}, which is a reserved word of texts (docs/FORMATS.md, Operations)")
            if not NAME.fullmatch(name):
                raise Faulty(f"{where}: a name is a letter and then letters, digits and `_`, at most 64")
            if name in seen:
                whose = "a standard one" if seen[name] == STANDARD else f"one of crates/{seen[name]}"
                raise Faulty(f"{where}, since {whose} is called so")
            seen[name] = crate
