"""Steps that nothing reaches, and loops without an exit, without an effect, or whose exit does not depend on anything that they change."""
EFFECTS = ("in", "out", "store", "call")


def steps_of(proc):
    """The steps without the labels, and the place of the first step at or after each label."""
    steps, places = [], {}
    for step in proc.steps:
        if step.kind == "label":
            places.setdefault(step.name, len(steps))
        else:
            steps.append(step)
    return steps, places


def next_of(steps, places):
    """The steps that may follow each step."""
    found = []
    for at, step in enumerate(steps):
        after = [] if step.kind in ("goto", "return", "halt", "end") else [at + 1]
        if step.kind in ("goto", "if") and step.name in places:
            after.append(places[step.name])
        found.append([place for place in dict.fromkeys(after) if place < len(steps)])
    return found


def reached(after):
    """The steps to which a path leads from the first."""
    seen, left = set(), [0] if after else []
    while left:
        at = left.pop()
        if at not in seen:
            seen.add(at)
            left += after[at]
    return seen


def unreached(proc, steps, seen):
    """The first step of each row of steps that nothing reaches, but for the `end` that each procedure has."""
    for at, step in enumerate(steps):
        if at not in seen and (at == 0 or at - 1 in seen) and step.kind != "end":
            last = at
            while last + 1 < len(steps) and last + 1 not in seen and steps[last + 1].kind != "end":
                last += 1
            what = "nothing reaches this step" if last == at else f"nothing reaches the steps from here to line {steps[last].number}"
            yield step.number, what


def circles(after, seen):
    """The sets of steps that lead to each other, by the way of Tarjan without recursion."""
    number, low, stack, on_stack, found, count = {}, {}, [], set(), [], 0
    for root in sorted(seen):
        if root in number:
            continue
        work = [(root, iter(after[root]))]
        number[root] = low[root] = count
        count += 1
        stack.append(root)
        on_stack.add(root)
        while work:
            at, rest = work[-1]
            step = next(rest, None)
            if step is None:
                work.pop()
                if work:
                    low[work[-1][0]] = min(low[work[-1][0]], low[at])
                if low[at] == number[at]:
                    circle = set()
                    while at not in circle:
                        circle.add(stack.pop())
                    on_stack -= circle
                    if len(circle) > 1 or at in after[at]:
                        found.append(circle)
            elif step not in number:
                number[step] = low[step] = count
                count += 1
                stack.append(step)
                on_stack.add(step)
                work.append((step, iter(after[step])))
            elif step in on_stack:
                low[at] = min(low[at], number[step])
    return found


def of_circle(circle, steps, after):
    """What is said of a loop, or None."""
    inside = [steps[at] for at in sorted(circle)]
    exits = [steps[at] for at in circle if any(place not in circle for place in after[at])]
    lines = [step.number for step in inside]
    where = f"the loop of line {lines[0]}" if len(lines) == 1 else f"the loop of lines {min(lines)} to {max(lines)}"
    has_effect = any(step.kind in EFFECTS for step in inside)
    if not exits:
        return None if has_effect else f"{where} has no exit, and no input, output, store or call"
    changed = {step.dest.text for step in inside if step.dest}
    read = [token.text for step in exits for token in step.operands if token.kind == "name"]
    if not changed & set(read):
        told = " and ".join(f"`{name}`" for name in dict.fromkeys(read)) or "a word"
        return f"{where} is left by a condition on {told} alone, and does not assign {'it' if len(set(read)) < 2 else 'them'}: once it goes round it goes on for ever"
    return None


def findings(program):
    """What is found of the paths of a program."""
    found = []
    for proc in program.procs:
        steps, places = steps_of(proc)
        after = next_of(steps, places)
        seen = reached(after)
        found += unreached(proc, steps, seen)
        for circle in circles(after, seen):
            text = of_circle(circle, steps, after)
            if text:
                found.append((min(steps[at].number for at in circle), text))
    return found
