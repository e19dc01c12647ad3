"""Whatever in a program is refused, all of it and not the first alone."""
import itertools

from causes import machine as machine_causes
from causes import program as causes
from texts import machine as machine_reader
from texts import program as reader
from texts.tokens import tokens_of

# So many lines are told.
MOST = 100


def codes_of(program):
    """The lines that are refused for what they name, each with its number."""
    seen_data, seen_procs = set(), set()
    for step in program.data:
        if step.operands[0].value in seen_data:
            yield step.number, 25
        seen_data.add(step.operands[0].value)
    for proc in program.procs:
        names = proc.parameters
        if proc.name in seen_procs or len(names) > len(set(names)):
            yield proc.line, 25
        seen_procs.add(proc.name)
        if proc.name == "main" and names:
            yield proc.line, 24
        if len(names) > reader.MOST_PARAMETERS:
            yield proc.line, 28
        for step in proc.steps:
            code = code_of(program, proc, step)
            if code:
                yield step.number, code


def code_of(program, proc, step):
    """The number with which a step is refused, or None."""
    if step.kind == "operation":
        wanted = reader.ARITY.get(step.name, -1)
        return 22 if wanted == -1 else 24 if wanted not in (None, len(step.operands)) else None
    if step.kind == "label":
        return 25 if proc.labels[step.name] != step.number else None
    if step.kind in ("if", "goto"):
        return 21 if step.name not in proc.labels else None
    if step.kind == "call":
        called = program.proc(step.name)
        if called is None or step.name == "main":
            return 23
        return 24 if len(called.parameters) != len(step.operands) else None
    return None


def circle(program):
    """The first procedure that leads back to itself by calls, or None."""
    calls = {proc.name: {step.name for step in proc.steps if step.kind == "call"} for proc in program.procs}
    for proc in program.procs:
        seen, left = set(), list(calls[proc.name])
        while left:
            name = left.pop()
            if name not in seen:
                seen.add(name)
                left += calls.get(name, [])
        if proc.name in seen:
            return proc
    return None


def of_program(lines, program):
    """All that is refused in a program: a line, or None for the text as a whole, and why."""
    wrong = sorted([number for number, _ in program.faulty] + [step.number for step in program.outside])
    found = [causes.of_form(lines, program, number) for number in wrong[:MOST]]
    if program.open:
        found.append(causes.of_form(lines, program, len(lines) + 1))
    if not found:
        found = [causes.CAUSES[code](lines, program, number) for number, code in itertools.islice(codes_of(program), MOST)]
    if not found and circle(program):
        found = [causes.of_circle(lines, program, circle(program).line)]
    if not found and not program.proc("main"):
        found = [causes.of_main(lines, program, 0)]
    more = [(None, f"{len(wrong) - MOST} lines more are refused")] if len(wrong) > MOST else []
    return [(cause.line, cause.text) for cause in found if cause] + more


def of_machine(lines):
    """The lines of a machine that are of no form."""
    found = []
    for number, line in enumerate(lines, 1):
        tokens = tokens_of(line)
        if tokens and (tokens[0].text not in machine_reader.FORMS or not isinstance(machine_reader.match(tokens), list)):
            found.append((number, machine_causes.of_form(lines, number, tokens)))
    return found
