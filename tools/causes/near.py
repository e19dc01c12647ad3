"""Names that are near to one that is not there, and lists of names as they are told."""
import difflib

MOST = 12


def listed(names, last="and"):
    """Names in a sentence, at most some of them."""
    names = [f"`{name}`" for name in names]
    if len(names) > MOST:
        return ", ".join(names[:MOST]) + f" and {len(names) - MOST} more"
    return f" {last} ".join([part for part in (", ".join(names[:-1]), names[-1] if names else "") if part])


def nearest(name, names):
    """The name that is nearest to one, or None."""
    names = list(dict.fromkeys(names))
    by_case = [other for other in names if other.lower() == name.lower()]
    return (by_case or difflib.get_close_matches(name, names, 1) or [None])[0]


def instead(name, names, what):
    """The end of a sentence that says that a name is not there: the nearest that is, or those that are."""
    near = nearest(name, names)
    if near:
        return f"; is it `{near}`?"
    return f"; {what} {listed(names)}" if names else ""


def count(number, what):
    """A number of things, of which one has no s."""
    return f"{number} {what}" + ("" if number == 1 else "s")


def registers(name, size):
    """Which registers a file or an immediate unit has."""
    return f"`{name}` has one register, `{name}.0`" if size == 1 else f"`{name}` has the registers `{name}.0` to `{name}.{size - 1}`"
