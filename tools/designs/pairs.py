"""Pairs of operations that follow each other in blocks where cycles are spent: of one variable that no other step reads. Such a pair can be one
operation of one's own, if it takes at most two words that are not constants; each time it is carried out, it may save a cycle."""
from collections import Counter, namedtuple

# A pair: what it does, as a form; how often it is carried out; and where it stands: the lines of its two steps, the variables that it takes, and
# the one that it assigns.
Pair = namedtuple("Pair", "form times places")
Place = namedtuple("Place", "first then takes dest")
# A form: an operation and its words, each a letter, a constant or a form.
Form = namedtuple("Form", "name words")
MOST = 3
LETTERS = "ab"


def text_of(form):
    """A form as a step has it, with the inner one in brackets."""
    words = (f"({text_of(word)})" if isinstance(word, Form) else str(word) for word in form.words)
    return " ".join([form.name, *words])


def names_of(form):
    """The operations of a form, the inner one first."""
    inner = [name for word in form.words if isinstance(word, Form) for name in names_of(word)]
    return [*inner, form.name]


def form_of(first, then):
    """What one operation does for two steps, and the variables that it takes, or nothing where these are more than two."""
    takes = []

    def word(token):
        if token.kind == "number":
            return token.text
        if token.text not in takes:
            takes.append(token.text)
        return LETTERS[takes.index(token.text)] if len(takes) <= len(LETTERS) else ""

    inner = Form(first.name, tuple(word(token) for token in first.operands))
    outer = Form(then.name, tuple(inner if token.text == first.dest.text else word(token) for token in then.operands))
    return (outer, tuple(takes)) if 0 < len(takes) <= len(LETTERS) else None


def reader_of(steps, at):
    """The one step after a step that reads what it assigns, with whether that is assigned again; nothing where there are more, or where what the
    step takes is assigned before it. A step that may leave a variable as it is reads it."""
    name, taken = steps[at].dest.text, {token.text for token in steps[at].operands}
    found, is_same = [], True
    for step in steps[at + 1:]:
        assigned = step.dest.text if step.dest else None
        if any(token.text == name for token in step.operands) or step.kind == "when" and assigned == name:
            found.append(step if is_same else None)
        if assigned == name and step.kind != "when":
            return (found[0], True) if len(found) == 1 else None
        is_same = is_same and assigned not in taken
    return (found[0], False) if len(found) == 1 else None


def of_block(proc, block):
    """The pairs of a block: each form with its place."""
    steps = [step for step in proc.steps if block.first <= step.number <= block.last and step.kind != "label"]
    for at, step in enumerate(steps):
        found = reader_of(steps, at) if step.kind == "operation" else None
        if not found or not found[0] or found[0].kind != "operation":
            continue
        others = [other for other in proc.steps if other.number <= step.number or other.number > block.last]
        if found[1] or not any(token.text == step.dest.text for other in others for token in other.operands):
            made = form_of(step, found[0])
            if made:
                yield made[0], Place(step.number, found[0].number, made[1], found[0].dest.text)


def of(program, blocks):
    """The pairs that are carried out most often."""
    times, places = Counter(), {}
    for block in blocks:
        proc = program.proc(block.proc)
        for form, place in of_block(proc, block) if proc else []:
            times[form] += block.times
            places.setdefault(form, []).append(place)
    return [Pair(form, count, places[form]) for form, count in times.most_common(MOST) if count]
