"""What is wrong with a line of a program that is of no form: the first thing on it that does not fit, and what has to stand there."""
import re

from causes import near
from causes.foreign import BEFORE, MARKS, OTHER_NAMES, OTHER_RELATIONS, RELATION_MARKS
from texts import program as reader
from texts.tokens import bad_token, shown

STEPS = ["proc", "end", "data", "if", "goto", "when", "store", "out", "call", "return", "halt"]
SHAPES = {
    "proc": "`proc NAME PARAMETER ..`", "data": "`data ADDRESS WORD`", "if": "`if RELATION a b goto LABEL`", "goto": "`goto LABEL`",
    "when": "`when RELATION a b d = s`", "store": "`store ADDRESS WORD`", "out": "`out WORD`", "call": "`call NAME ARGUMENT ..`", "return": "`return` or `return WORD`",
    "halt": "`halt`", "end": "`end`", "load": "`d = load ADDRESS`", "in": "`d = in`", "jump": "`goto LABEL`", "ldw": "`d = load ADDRESS`", "stw": "`store ADDRESS WORD`",
}
IS_OPERAND = "a variable, a number or a negative number"


def words_of(tokens):
    return " ".join(token.text for token in tokens)


def is_reserved(token):
    return token.kind == "name" and token.text in reader.RESERVED


def operand_fault(token):
    """Why a token is no operand, or None."""
    if reader.is_operand(token):
        return None
    if token.kind == "bad":
        return bad_token(token)
    if is_reserved(token):
        return f"`{token.text}` is a reserved word, so no variable is called so"
    if token.text == "[":
        return f"there are no arrays: {SHAPES['load']} reads a word of the data space, and {SHAPES['store']} writes one"
    return f"{shown(token)} stands where {IS_OPERAND} has to stand"


def fraction(tokens):
    """Whether three tokens are a number with a point in it."""
    for first, point, second in zip(tokens, tokens[1:], tokens[2:]):
        if first.kind == "number" and point.text == "." and second.kind in ("number", "bad") and first.at + len(first.text) == point.at:
            return f"`{first.text}.{second.text}` is a fraction, and a word is a whole number: scale it, as 0.5 with 16 bits below the point is 32768"
    return None


def mark_at(tokens, at):
    """The mark of another language that begins at a token, of one or two characters, or None."""
    if at >= len(tokens):
        return None
    text = tokens[at].text
    if at + 1 < len(tokens) and tokens[at].at + len(text) == tokens[at + 1].at and text + tokens[at + 1].text in {**MARKS, **OTHER_RELATIONS}:
        return text + tokens[at + 1].text
    if text in MARKS or text in OTHER_RELATIONS and text != "=":
        return text if tokens[at].kind in ("bad", "mark") else None
    return "-" if re.fullmatch("-[0-9]+", text) and tokens[at].kind == "number" else None


def relation_fault(tokens, word):
    """What is wrong with a line that begins with `if` or `when`, or None."""
    shape = SHAPES[word]
    if len(tokens) < 2:
        return f"after `{word}` come a relation and two words: {shape}"
    relation = tokens[1]
    marks = [(at, text) for at in range(1, len(tokens)) for text in [joined(tokens, at)] if text in OTHER_RELATIONS]
    if relation.text in OTHER_RELATIONS and len(tokens) > 3 and relation.kind == "name":
        name, is_turned = OTHER_RELATIONS[relation.text]
        first, second = (tokens[3], tokens[2]) if is_turned else (tokens[2], tokens[3])
        turned = f": `{words_of([tokens[0], relation._replace(text=name), first, second, *tokens[4:]])}` says the same"
        return f"`{relation.text}` is no relation; they are {near.listed(reader.RELATIONS)}{turned}"
    if marks and relation.text not in reader.RELATIONS:
        at, mark = marks[0]
        name, is_turned = OTHER_RELATIONS[mark]
        after = at + len(mark.replace(" ", "")) if len(mark) == 2 and tokens[at].text != mark else at + 1
        before, behind = tokens[at - 1] if at > 1 else None, tokens[after] if after < len(tokens) else None
        if before and behind:
            first, second = (behind, before) if is_turned else (before, behind)
            rest = words_of([token for token in tokens[after + 1:] if token.text not in "()"])
            return f"`{mark}` is no mark of a program: the relation stands first, as in `{word} {name} {first.text} {second.text} {rest}`"
    if relation.text not in reader.RELATIONS:
        return f"after `{word}` comes a relation, {near.listed(reader.RELATIONS, 'or')}, and here is {shown(relation)}"
    for at in (2, 3):
        if at >= len(tokens):
            return f"`{relation.text}` compares two words, and here is {'none' if at == 2 else 'one'}: {shape}"
        if operand_fault(tokens[at]):
            if is_reserved(tokens[at]) or tokens[at].text == "=":
                return f"`{relation.text}` compares two words, and here is {'none' if at == 2 else 'one'} before {shown(tokens[at])}: {shape}"
            return operand_fault(tokens[at])
    if word == "if":
        if len(tokens) < 5 or tokens[4].text != "goto":
            return f"after the two words comes `goto LABEL`, and here {'is ' + shown(tokens[4]) if len(tokens) > 4 else 'the line ends'}"
        return label_fault(tokens[5:], "goto")
    if len(tokens) < 5 or not reader.is_own(tokens[4]):
        return f"after the two words comes a copy `d = s`, and here {'is ' + shown(tokens[4]) if len(tokens) > 4 else 'the line ends'}"
    if len(tokens) < 6 or tokens[5].text != "=" or len(tokens) < 7:
        return f"a copy is `{tokens[4].text} = s`, with a variable or a number in the place of s"
    return operand_fault(tokens[6]) or f"`when` copies one word, and {shown(tokens[7])} is one token too many"


def joined(tokens, at):
    """A token with the one that follows it directly, where the two are a mark of another language; else its text."""
    return mark_at(tokens, at) if tokens[at].kind in ("bad", "mark") and mark_at(tokens, at) else (
        tokens[at].text + tokens[at + 1].text if at + 1 < len(tokens) and tokens[at].at + len(tokens[at].text) == tokens[at + 1].at
        and tokens[at].text + tokens[at + 1].text in OTHER_RELATIONS else tokens[at].text)


def label_fault(tokens, word):
    """What is wrong with what follows `goto`."""
    if not tokens:
        return f"after `{word}` comes a label"
    if is_reserved(tokens[0]):
        return f"`{tokens[0].text}` is a reserved word, so no label is called so"
    if tokens[0].kind != "name":
        return f"after `{word}` comes a label, a name, and here is {shown(tokens[0])}"
    return f"the line ends with the label, and {shown(tokens[1])} is one token too many" if len(tokens) > 1 else None


def infix(tokens, at):
    """What is said of `a = b + c`, where the value begins at a token, or None."""
    first = tokens[at]
    if first.text in ("-", "~", "!") and at + 1 < len(tokens):
        dest, value = tokens[0].text, tokens[at + 1].text
        way = f"{BEFORE[first.text]} {value}" if first.text in BEFORE else f"eq {value} 0"
        return f"`{first.text}` is no mark of a program: an operation has a name, as in `{dest} = {way}`"
    for place in range(at, len(tokens)):
        mark = mark_at(tokens, place)
        operation = MARKS.get(mark) or RELATION_MARKS.get(mark)
        if not mark or place == at and tokens[place].kind == "number":
            continue
        if not operation:
            return f"`{mark}` is no mark of a program: an operation stands first, and those that compare are {near.listed(RELATION_MARKS.values())}"
        after = place + (2 if len(mark) == 2 and tokens[place].text != mark else 1)
        left = tokens[place - 1].text if place > at else "a"
        right = tokens[place].text[1:] if mark == "-" and tokens[place].text != mark else tokens[after].text if after < len(tokens) else "b"
        return f"`{mark}` is no mark of a program: the operation stands first, as in `{tokens[0].text} = {operation} {left} {right}`"
    return None


def assignment_fault(tokens):
    """What is wrong with a line `d = ..`."""
    dest, value = tokens[0], tokens[2:]
    if is_reserved(dest):
        return f"`{dest.text}` is a reserved word, so no variable is called so"
    if dest.kind != "name":
        return f"before `=` stands a variable, and here is {shown(dest)}"
    if not value:
        return f"after `=` comes a value: {IS_OPERAND}, an operation with its words, `load ADDRESS`, `in` or `call NAME ARGUMENT ..`"
    first = value[0]
    if infix(tokens, 2):
        return infix(tokens, 2)
    if first.kind == "bad":
        return bad_token(first)
    if first.text == "load":
        return operands_fault(value[1:], 1, "`load` takes the address", SHAPES["load"])
    if first.text == "in":
        return f"`in` takes nothing after it, and here is {shown(value[1])}"
    if first.text == "call":
        return call_fault(value)
    if is_reserved(first):
        return f"`{first.text}` gives no value: {SHAPES[first.text]} is a step of its own"
    if first.kind == "number":
        return f"`{dest.text} = {first.text}` is whole, and {shown(value[1])} is one token too many"
    wrong = next((operand_fault(token) for token in value[1:] if operand_fault(token)), None)
    if wrong:
        bracket = next((token.text for token in value[1:] if token.text in "[("), None)
        if bracket == "[":
            return f"there are no arrays: `{dest.text} = load ADDRESS` reads a word of the data space"
        if bracket == "(":
            return f"`(` has no meaning here: a procedure is called by `{dest.text} = call {first.text} ARGUMENT ..`"
        return wrong
    return f"an operation takes one word or two, and `{first.text}` has {len(value) - 1} here"


def call_fault(tokens):
    """What is wrong with a line that begins with `call`, or None."""
    if len(tokens) < 2:
        return f"after `call` comes the name of a procedure: {SHAPES['call']}"
    if not reader.is_own(tokens[1]):
        return f"after `call` comes the name of a procedure, and here is {shown(tokens[1])}"
    if len(tokens) > 2 and tokens[2].text == "(":
        return f"arguments stand after the name without brackets: `call {tokens[1].text} a b`"
    return next((operand_fault(token) for token in tokens[2:] if operand_fault(token)), None)


def operands_fault(tokens, wanted, takes, shape):
    """What is wrong with so many operands."""
    for token in tokens[:wanted]:
        if operand_fault(token):
            return operand_fault(token)
    if len(tokens) < wanted:
        return f"{takes}, and here the line ends: {shape}"
    extra = tokens[wanted]
    if tokens[0].kind == "name" and tokens[0].text in reader.ARITY:
        return f"{takes}, and `{tokens[0].text}` stands in its place: let a line before assign a variable, as in `x = {words_of(tokens)}`"
    if extra.kind == "bad" and mark_at(tokens, wanted) in MARKS:
        mark = mark_at(tokens, wanted)
        second = tokens[wanted + 1].text if wanted + 1 < len(tokens) else "b"
        return f"`{mark}` is no mark of a program: let a line before assign a variable, as in `x = {MARKS[mark]} {tokens[wanted - 1].text} {second}`"
    return f"{takes}, and {shown(extra)} is one token too many: {shape}"


def statement_fault(tokens):
    """What is wrong with a line that begins with a word of its own."""
    word, rest = tokens[0].text, tokens[1:]
    if word in ("if", "when"):
        return relation_fault(tokens, word)
    if word == "goto":
        return label_fault(rest, word)
    if word == "store":
        return operands_fault(rest, 2, "`store` takes an address and a word", SHAPES[word])
    if word == "out":
        return operands_fault(rest, 1, "`out` takes one word", SHAPES[word])
    if word == "return":
        return operands_fault(rest, 1, "`return` takes one word or nothing", SHAPES[word])
    if word == "call":
        return call_fault(tokens)
    if word in ("halt", "end"):
        return f"`{word}` stands alone on its line, and here is {shown(rest[0])}"
    if word == "data":
        if rest and rest[0].kind == "name":
            return f"after `data` comes an address, which is a number, and here is {shown(rest[0])}"
        wrong = next((bad_token(token) for token in rest if token.kind == "bad"), None)
        return wrong or f"a data line gives one word to one address, {SHAPES[word]}, and not {near.count(len(rest), 'token')}"
    if word == "proc":
        if not rest:
            return f"after `proc` comes the name of the procedure: {SHAPES[word]}"
        token = next(token for token in rest if not reader.is_own(token))
        if is_reserved(token):
            return f"`{token.text}` is a reserved word, so no procedure or parameter is called so"
        return f"after `proc` come names, the procedure's and those of its parameters, and here is {shown(token)}"
    return f"`{word}` is a reserved word: {SHAPES.get(word, 'it begins no line')}"


def form_fault(tokens):
    """What is wrong with a line that is of no form."""
    first = tokens[0]
    if fraction(tokens):
        return fraction(tokens)
    if len(tokens) > 1 and tokens[-1].text == ";" and (reader.step_of(0, tokens[:-1]) or len(tokens) == 1):
        return "no `;` ends a line of a program"
    if first.text == "/":
        return "a comment begins with `#`"
    if any(token.text in "{}" for token in tokens):
        return "there are no braces: `proc NAME PARAMETER ..` begins a procedure, and `end` ends it"
    if first.kind == "bad":
        return bad_token(first)
    if len(tokens) > 1 and tokens[1].text == ":":
        return colon_fault(tokens)
    if len(tokens) > 1 and tokens[1].text == "=":
        if len(tokens) > 2 and tokens[2].text == "=":
            return f"an assignment has one `=`: `{first.text} = {words_of(tokens[3:])}`"
        return assignment_fault(tokens)
    if len(tokens) > 2 and tokens[2].text == "=" and tokens[1].kind == "bad" and tokens[1].text in MARKS:
        return f"`{tokens[1].text}=` is no mark of a program: `{first.text} = {MARKS[tokens[1].text]} {first.text} {words_of(tokens[3:4]) or 'b'}`"
    if is_reserved(first):
        return statement_fault(tokens)
    if first.kind != "name":
        return f"a line begins with a name or one of the words {near.listed(STEPS)}, and here is {shown(first)}"
    if len(tokens) > 1 and tokens[1].text in ("[", "("):
        shape = "`store ADDRESS WORD` writes a word of the data space" if tokens[1].text == "[" else f"a procedure is called by `call {first.text} ARGUMENT ..`"
        return f"`{tokens[1].text}` has no meaning here: {shape}"
    if len(tokens) > 2 and tokens[1].text == tokens[2].text and tokens[1].text in "+-":
        return f"`{tokens[1].text * 2}` is no mark of a program: `{first.text} = {MARKS[tokens[1].text]} {first.text} 1`"
    if len(tokens) > 1 and tokens[1].kind == "bad":
        return bad_token(tokens[1])
    return unknown_fault(tokens)


def colon_fault(tokens):
    """What is wrong with a line that has `:` after its first token."""
    first = tokens[0]
    if is_reserved(first):
        return f"`{first.text}` is a reserved word, so no label is called so"
    if first.kind != "name":
        return f"a label is a name, and here is {shown(first)}"
    if len(tokens) > 2 and tokens[2].text == "=":
        return f"an assignment has `=` alone: `{first.text} = {words_of(tokens[3:])}`"
    return f"a label stands alone on its line: put `{words_of(tokens[2:])}` on the next"


def unknown_fault(tokens):
    """What is wrong with a line whose first name begins no step."""
    first = tokens[0]
    if first.text in reader.ARITY or first.text in OTHER_NAMES:
        return f"an operation gives a word to a variable: `d = {words_of([first._replace(text=OTHER_NAMES.get(first.text, first.text)), *tokens[1:]])}`"
    guess = near.nearest(first.text, STEPS)
    if len(tokens) == 1:
        return f"`{first.text}` is no step" + (f"; is it `{guess}`?" if guess else "; a label has `:` after it, and a variable `=` and a value")
    return f"`{first.text}` begins no step" + (f"; is it `{guess}`?" if guess else f"; a variable has `=` after it, and {shown(tokens[1])} stands there")
