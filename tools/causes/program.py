"""What is wrong with a program that is refused, by its line and number."""
from causes import Cause, line, near
from texts import program as reader
from texts.tokens import mark_of_order, tokens_of


def of_form(lines, program, number):
    """The cause of number 20."""
    if number > len(lines):
        proc = program.open
        return Cause(proc.line, f"the text ends within the procedure `{proc.name}`, which begins here: `end` is missing") if proc else None
    tokens = tokens_of(lines[number - 1])
    step = reader.step_of(number, tokens)
    if step is None:
        return Cause(number, mark_of_order(lines, number) or line.form_fault(tokens))
    open_proc = reader.read(lines[:number - 1]).open
    if step.kind in ("proc", "data") and open_proc:
        what = "a procedure begins" if step.kind == "proc" else "a data line stands"
        return Cause(number, f"{what} within the procedure `{open_proc.name}` of line {open_proc.line}: before this line `end` is missing")
    return Cause(number, "this line stands outside all procedures: before it `proc NAME` is missing, as `proc main`")


def of_operation(lines, program, number):
    """An operation, or what a condition needs, that no unit offers."""
    step = reader.step_of(number, tokens_of(lines[number - 1]))
    if step.kind != "operation":
        return Cause(number, f"no unit offers the operation that `{step.relation}` needs")
    words = step.tokens[3:]
    if len(words) == 1 and words[0].text.startswith("-"):
        return Cause(number, f"`{step.name}` stands in the place of an operation: a difference is `{step.dest.text} = sub {step.name} {words[0].text[1:]}`")
    known = line.OTHER_NAMES.get(step.name)
    if known:
        return Cause(number, f"there is no operation `{step.name}`; is it `{known}`?")
    if step.name in [token.text for proc in program.procs for token in variables(proc)]:
        return Cause(number, f"the variable `{step.name}` stands in the place of an operation: `{step.dest.text} = {step.name}` copies it, and an operation stands before its words")
    if program.proc(step.name):
        return Cause(number, f"`{step.name}` is a procedure: it is called by `{step.dest.text} = call {step.name} {line.words_of(words)}`")
    return Cause(number, f"there is no operation `{step.name}`" + near.instead(step.name, list(reader.ARITY), "the operations are"))


def variables(proc):
    return [token for step in proc.steps for token in ([step.dest] if step.dest else []) + step.operands if token.kind == "name"]


def of_label(lines, program, number):
    step, proc = reader.step_of(number, tokens_of(lines[number - 1])), program.proc_at(number)
    others = [other.name for other in program.procs if step.name in other.labels]
    if others:
        return Cause(number, f"the label `{step.name}` stands in the procedure `{others[0]}`, and a jump stays within its own, `{proc.name}`")
    return Cause(number, f"the procedure `{proc.name}` has no label `{step.name}`" + near.instead(step.name, list(proc.labels), "its labels are"))


def of_procedure(lines, program, number):
    step = reader.step_of(number, tokens_of(lines[number - 1]))
    if step.name == "main":
        return Cause(number, "`main` is where the program begins, and no step calls it")
    names = [proc.name for proc in program.procs if proc.name != "main"]
    return Cause(number, f"there is no procedure `{step.name}`" + near.instead(step.name, names, "those that can be called are"))


def of_count(lines, program, number):
    """Why a line gives a procedure or an operation another number of words than it takes."""
    step = reader.step_of(number, tokens_of(lines[number - 1]))
    given = len(step.operands)
    if step.kind == "proc":
        return Cause(number, f"`main` begins the program, so it takes no parameters; data words and `in` give it what it works on")
    if step.kind == "call":
        proc = program.proc(step.name)
        return Cause(number, f"`{step.name}` of line {proc.line} has {near.count(len(proc.parameters), 'parameter')}, and is given {near.count(given, 'argument')}")
    wanted = reader.ARITY.get(step.name)
    takes = f"takes {near.count(wanted, 'word')}" if wanted else "takes another number of words"
    return Cause(number, f"`{step.name}` {takes}, and is given {given}")


def of_twice(lines, program, number):
    """What a line declares that stands elsewhere already."""
    step = reader.step_of(number, tokens_of(lines[number - 1]))
    if step.kind == "data":
        value = step.operands[0].value
        first = next(other for other in program.data if other.operands[0].value == value)
        return Cause(number, f"the word at the address {value} is given by line {first.number} already")
    if step.kind == "label":
        return Cause(number, f"the label `{step.name}` stands at line {program.proc_at(number).labels[step.name]} already")
    if program.proc(step.name).line != number:
        return Cause(number, f"the procedure `{step.name}` begins at line {program.proc(step.name).line} already")
    names = [token.text for token in step.operands]
    return Cause(number, f"the parameter `{next(name for name in names if names.count(name) > 1)}` stands there twice")


def of_circle(lines, program, number):
    """The first chain of calls that leads from the procedure back to it."""
    begin = next(proc for proc in program.procs if proc.line == number)
    ways, seen = [[begin]], set()
    while ways:
        way = ways.pop(0)
        for step in way[-1].steps:
            if step.kind == "call" and program.proc(step.name):
                if step.name == begin.name:
                    shown_way = " calls ".join(f"`{proc.name}`" for proc in way)
                    return Cause(step.number, f"{shown_way} calls `{begin.name}`: calls may not lead back, since each procedure has one place for its variables")
                if step.name not in seen:
                    seen.add(step.name)
                    ways.append([*way, program.proc(step.name)])
    return None


def of_main(lines, program, number):
    near_name = near.nearest("main", [proc.name for proc in program.procs])
    return Cause(None, "a program begins in the procedure `main`, and there is none" + (f"; is it `{near_name}`?" if near_name else ""))


def of_limit(lines, program, number):
    """Which limit of programs a line passes."""
    step = reader.step_of(number, tokens_of(lines[number - 1]))
    if step.kind in ("proc", "call") and len(step.operands) > reader.MOST_PARAMETERS:
        what = "parameter" if step.kind == "proc" else "argument"
        return Cause(number, f"a procedure has at most {reader.MOST_PARAMETERS} parameters, and here are {len(step.operands)} {what}s")
    if sum(1 for line in lines[:number] if tokens_of(line)) > reader.MOST_LINES:
        return Cause(number, f"a program has at most {reader.MOST_LINES} lines that are not blank, and this is one more")
    return Cause(number, f"a procedure has at most {reader.MOST_VARIABLES} variables, and this line has one more")


CAUSES = {20: of_form, 21: of_label, 22: of_operation, 23: of_procedure, 24: of_count, 25: of_twice, 26: of_circle, 27: of_main, 28: of_limit}


def cause(lines, number, code):
    """The cause of a refusal of some lines, or None."""
    return CAUSES[code](lines, reader.read(lines), number) if code in CAUSES else None
