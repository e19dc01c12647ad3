"""Machines with other values in one line: `space data {16,64}` makes of each machine one with 16 words of data and one with 64. The words
before and after the braces choose the line; what stands in it after them stays. Where the machine has no such line, it comes at its end."""
import itertools
import os
import re

FORM = re.compile(r"([^{}]*)\{([^{}]*)\}([^{}]*)")


class Faulty(Exception):
    """What is wrong with a change."""


def tokens(line):
    return line.split("#")[0].split()


def parts(change):
    """The words before the braces, the values, and the words after them."""
    found = FORM.fullmatch(change)
    before, values, after = (found[1].split(), [value.strip() for value in found[2].split(",")], found[3].split()) if found else ([], [], [])
    if not before or not all(values):
        raise Faulty(f"--vary takes a line of a machine with values in braces, as 'space data {{16,64}}', and not {change!r}")
    return before, values, after


def is_chosen(line, before, after):
    """Whether a change is one of this line."""
    found, at = tokens(line), len(before)
    return found[:at] == before and len(found) > at and found[at + 1:at + 1 + len(after)] == after


def with_value(lines, before, value, after):
    """The lines of a machine with a value in the line that is chosen."""
    chosen = [at for at, line in enumerate(lines) if is_chosen(line, before, after)]
    if len(chosen) > 1:
        raise Faulty(f"--vary: {len(chosen)} lines begin with {' '.join(before)!r}: more words choose one of them")
    if not chosen:
        return [*lines, " ".join([*before, value, *after])]
    at = chosen[0]
    kept = tokens(lines[at])[len(before) + 1:]
    return [*lines[:at], " ".join([*before, value, *kept]), *lines[at + 1:]]


def machines(paths, names, changes):
    """The machines, each with its name and its text, or its path where nothing is changed."""
    if not changes:
        return list(zip(names, paths))
    found, ways = [], [parts(change) for change in changes]
    for path, name in zip(paths, names):
        with open(path, encoding="latin-1") as f:
            lines = f.read().split("\n")
        lines = lines[:-1] if lines[-1] == "" else lines
        for values in itertools.product(*(values for _, values, _ in ways)):
            changed = lines
            for (before, _, after), value in zip(ways, values):
                changed = with_value(changed, before, value, after)
            shown = ", ".join(" ".join([*before, value, *after]) for (before, _, after), value in zip(ways, values))
            found.append((f"{name} [{shown}]", changed))
    return found


def written(changed, folder):
    """The paths of the machines, which are written where they are changed."""
    paths = []
    for at, (_, text) in enumerate(changed):
        if isinstance(text, list):
            path = os.path.join(folder, f"{at}.machine")
            with open(path, "w", encoding="latin-1") as f:
                f.write("\n".join(text) + "\n")
            text = path
        paths.append(text)
    return paths
