"""If-conversion and the printed text of a program, written from their descriptions alone. A branch over one copy becomes a copy under the
opposite condition, where no branch names the copy."""
from readers.meaning import steps_of
from readers.program import program

OPPOSITE = {"eq": "ne", "ne": "eq", "lt": "ge", "ge": "lt", "ltu": "geu", "geu": "ltu"}
IF, COPY, WHEN = "if R v v goto n", "d = v", "when R v v d = v"


def step_named(form, words, labels):
    """The number of the step that a step branches to, or None."""
    return labels[words[-1]] if form in (IF, "goto n") else None


def triangles(steps):
    """The numbers of the steps that begin a triangle, of steps with the numbers of those that they branch to."""
    named = {to for _, _, to in steps}
    return {i for i, ((form, _, to), (after, _, _)) in enumerate(zip(steps, steps[1:]))
            if form == IF and to == i + 2 and after == COPY and i + 1 not in named}


def converted(steps):
    """The steps with each triangle as one."""
    first = triangles(steps)
    kept = [i for i in range(len(steps)) if i - 1 not in first]
    made = []
    for i in kept:
        form, words, to = steps[i]
        if i in first:
            made.append((WHEN, ["when", OPPOSITE[words[1]], *words[2:4], *steps[i + 1][1]], None))
        else:
            made.append((form, words, None if to is None else kept.index(to)))
    return made


def shown(form, words, to, variables, names):
    """A step as its line."""
    parts = form.split()
    if parts[-1] in ("v*", "d*"):
        parts = parts[:-1] + ["v"] * (len(words) - len(parts) + 1)
    said = []
    for part, word in zip(parts, words):
        if part in ("v", "d"):
            said.append(str(word) if isinstance(word, int) else f"v{variables.index(word)}")
        elif part == "n":
            said.append(names[word] if to is None else f"L{to}")
        else:
            said.append(str(word))
    return " ".join(said)


def text_of(text, change=lambda steps: steps):
    """The printed text of the program of a text, with its steps changed."""
    read, (procs, data) = program(text), steps_of(text)
    names = {p.name: "main" if p.name == "main" else f"p{k}" for k, p in enumerate(read.procs)}
    lines = [f"data {address} {word}" for address, word in data.items()]
    for p in read.procs:
        parameters, steps, labels = procs[p.name]
        steps = change([(form, words, step_named(form, words, labels)) for form, words in steps])
        named = {to for _, _, to in steps}
        lines.append(shown("proc n d*", ["proc", p.name, *parameters], None, p.variables, names))
        for k, (form, words, to) in enumerate(steps):
            lines += [f"L{k}:"] if k in named else []
            lines.append(shown(form, words, to, p.variables, names))
    return "".join(line + "\n" for line in lines)


def converted_text(text):
    """The printed text of the program that the program of a text is converted to."""
    return text_of(text, converted)


def triangle_count(text):
    """How many triangles the program of a text has."""
    procs, _ = steps_of(text)
    return sum(len(triangles([(form, words, step_named(form, words, labels)) for form, words in steps])) for _, steps, labels in procs.values())
