"""A reader of programs for the script's tools: the procedures of a text with their steps, as far as its lines are of a form."""
from collections import namedtuple

from texts.tokens import tokens_of

RESERVED = "ldw stw ldf stf jump proc end if goto when load store out call return halt data in".split()
RELATIONS = ["eq", "ne", "lt", "ge", "ltu", "geu"]
# The operations of the standard units, each with how many words it takes.
ARITY = {op: 2 for op in "add sub mul mulhu and or xor shl shr shru eq ne lt gt ltu gtu divu remu".split()}
ARITY.update(neg=1, **{"not": 1})
# The most lines, variables of a procedure, and parameters or arguments.
MOST_LINES, MOST_VARIABLES, MOST_PARAMETERS = 65_536, 4_096, 8

# A form of a line: v is an operand, d a variable, n a name of a label or procedure, p an operation, R a relation, A a number, c a constant;
# v* and d* stand for any number of them up to the end.
FORMS = {
    "data A c": "data", "proc n d*": "proc", "n :": "label", "d = v": "copy", "d = p v": "operation", "d = p v v": "operation",
    "d = load v": "load", "d = in": "in", "store v v": "store", "out v": "out", "if R v v goto n": "if", "goto n": "goto",
    "when R v v d = v": "when", "call n v*": "call", "d = call n v*": "call", "return": "return", "return v": "return", "halt": "halt", "end": "end",
}
# A line of a form: its kind, the variable that it assigns, the operands, and the name that it goes to, calls, declares or carries out.
Step = namedtuple("Step", "number kind dest operands name relation tokens")


class Proc:
    """A procedure: its name, the line where it begins, its parameters, labels with their lines, and its steps, labels among them."""

    def __init__(self, step):
        self.name, self.line, self.parameters = step.name, step.number, [token.text for token in step.operands]
        self.labels, self.steps, self.end = {}, [], None


class Program:
    """The procedures in the order of the text, the data lines, the lines that are of no form, and those that stand where none may."""

    def __init__(self):
        self.procs, self.data, self.faulty, self.outside, self.open = [], [], [], [], None

    def proc(self, name):
        return next((proc for proc in self.procs if proc.name == name), None)

    def proc_at(self, number):
        """The procedure in which a line stands, or None."""
        return next((proc for proc in reversed(self.procs) if proc.line <= number and (proc.end is None or number <= proc.end)), None)


def is_own(token):
    return token.kind == "name" and token.text not in RESERVED


def is_operand(token):
    return is_own(token) or token.kind == "number"


def is_constant(token):
    return token.kind == "number"


TESTS = {
    "v": is_operand, "d": is_own, "n": is_own, "p": is_own, "c": is_constant,
    "R": lambda token: token.text in RELATIONS, "A": lambda token: token.kind == "number" and not token.text.startswith("-"),
}


def fits(form, tokens):
    """The parts of a form, as many as there are tokens, where these are of it, or None."""
    parts = form.split()
    if parts[-1].endswith("*"):
        parts = parts[:-1] + [parts[-1][0]] * (len(tokens) - len(parts) + 1)
    if len(parts) != len(tokens):
        return None
    is_so = all(TESTS[part](token) if part in TESTS else token.text == part for part, token in zip(parts, tokens))
    return parts if is_so else None


def step_of(number, tokens):
    """The step of a line, or None where it is of no form."""
    for form, kind in FORMS.items():
        parts = fits(form, tokens)
        if parts is not None:
            break
    else:
        return None
    pairs = list(zip(parts, tokens))
    is_proc = kind == "proc"
    dest = next((token for part, token in pairs if part == "d" and not is_proc), None)
    operands = [token for part, token in pairs if part in ("v", "A", "c") or part == "d" and is_proc]
    name = next((token.text for part, token in pairs if part in ("n", "p")), None)
    relation = next((token.text for part, token in pairs if part == "R"), None)
    return Step(number, kind, dest, operands, name, relation, tokens)


def take(program, step):
    """Takes a line into the program."""
    if step.kind == "proc":
        if program.open:
            program.outside.append(step)
        program.open = Proc(step)
        program.procs.append(program.open)
    elif step.kind == "data":
        program.data.append(step)
        if program.open:
            program.outside.append(step)
    elif not program.open:
        program.outside.append(step)
    else:
        if step.kind == "label":
            program.open.labels.setdefault(step.name, step.number)
        program.open.steps.append(step)
        if step.kind == "end":
            program.open.end = step.number
            program.open = None


def read(lines):
    """The program of some lines, as far as they are of a form."""
    program = Program()
    for number, line in enumerate(lines, 1):
        tokens = tokens_of(line)
        if tokens:
            step = step_of(number, tokens)
            if step:
                take(program, step)
            else:
                program.faulty.append((number, tokens))
    return program
