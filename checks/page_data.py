"""The data that a page of `play` should have, by a reader of code that shares nothing with the program, and the fixed text around them."""
import os
import re
from collections import namedtuple

from built import PROGRAM
from folders import read, run
from page_pieces import pieces
from readers import meaning
from readers.machine import machine

TOP = os.path.realpath(os.path.join(os.path.dirname(os.path.abspath(__file__)), ".."))
# How many cycles a page plays at most, how many instructions it has before its states, how many bytes these have at most, and how many bytes the
# pages of these runs stay below.
LIMIT, ROWS, ROW_BYTES, SIZE = 400, 4096, 1 << 20, 2**20
# How many bytes any page has at most, how many of what is told of the blocks of a program, and how many are left behind the states.
LARGEST, BLOCK_BYTES, END_BYTES = 8 << 20, 1 << 19, 1 << 16
# The pieces of the fixed text, before the text of stages and behind the data.
HEAD = "run_head style tints run_style run_looks run_picture_looks run_body run_sections".split()
TAIL = ["open_script"] + """fit parts stages code_readers follow passes places joins moves all_joins run_reading run_origins run_lines run_moves run_words run_code run_where
run_acts run_program run_source run_variables run_picture_places run_picture_parts run_picture_machine run_picture_moves run_picture_acts run_state run_cells run_loads run_span
run_show run_playing run_buttons""".split() + ["end"]


class Run(namedtuple("Run", "machine code data stream bound first", defaults=(0,))):
    """A run that a page plays: the machine, the image or program, the words of the data space and of the input, if any, each as its file; how many
    cycles are asked for, and how many are made before."""

    def words(self):
        """The words of `play` that ask for it."""
        return [*self[:3], str(self.bound), *([self.stream] if self.stream else []), *(["from", str(self.first)] if self.first else [])]


def input_words(name):
    """The words of a file: eight hexadecimal digits a line."""
    with open(os.path.join(TOP, name or "/dev/null")) as f:
        return [int(line, 16) for line in f]


def row(words):
    """Words as a page has them."""
    return "".join(" -" if word is None else f" {word}" for word in words)


def results(state, unit):
    """What the result port of a unit shows, and what is due 1 to 16 cycles later."""
    dues = state.results[unit]
    return [dues.get(max((due for due in dues if due <= state.cycle), default=None))] + [dues.get(state.cycle + delay) for delay in range(1, 17)]


def state_lines(m, state, code):
    """The lines of a state."""
    yield f"state {state.cycle} {state.pc}"
    yield from [f"pending {op} {word} {time - state.cycle}" for time, op, word in filter(None, [state.control])]
    for kind, parts in (("registers", {name: f[1] for name, f in m.files.items()}), ("immediates", {name: i[0] for name, i in m.imms.items()})):
        yield from [kind + row(state.words.get((name, k)) for k in range(size)) for name, size in parts.items()]
    yield "operands" + row(map(state.operands.get, m.units))
    yield "return" + row([state.words.get(("gcu", "ra"))])
    yield from ["results" + row(results(state, unit)) for unit in m.units]
    yield from [f"input {word}" for word in state.rest[:1]]
    yield from ["code " + code[state.pc]] if state.pc < len(code) else []


def changes(old, new):
    """The lines of the words of both spaces that are others than before."""
    for what, before, after in zip(("store", "slot"), old, new):
        yield from [f"{what} {at} {word}" for at, (was, word) in enumerate(zip(before, after)) if was != word]


def spaces(state, most=None):
    return list(state.memory)[:most], list(state.frame)[:most]


def carry_out(state, code):
    """Carries out a cycle, and gives why it is not, if so."""
    if state.is_halted:
        return "halted"
    try:
        meaning.cycle(state, code)
    except meaning.Fault as fault:
        return f"fault {fault.args[0]}"
    except meaning.Waits:
        return "waiting"
    return None


def port_lines(m):
    """The ports of files, immediate units, units and control, each with its buses."""
    ports = [(name, which, f[4 + k]) for name, f in m.files.items() for k, which in enumerate("rw")]
    ports += [(name, "r", i[1]) for name, i in m.imms.items()]
    ports += [(name, which, unit[which]) for name, unit in m.units.items() for which in "otr" if unit[which]]
    ports += [("gcu", which, socket) for which, socket in zip(("t", "ra"), m.control[2:]) if socket]
    for name, which, socket in ports:
        yield f"port {name} {which} {sum(1 << k for k, bus in enumerate(m.buses) if bus in m.sockets[socket][1])}"


def fitting(parts, room):
    """The first of some lists of lines, as many as have no more bytes than there is room for."""
    for lines in parts:
        room -= sum(len(line) + 1 for line in lines)
        if room < 0:
            return
        yield from lines


def machine_part(m, code, first, bound):
    """What a page has of the machine and its code before the states."""
    for what, parts in (("bus", m.buses), ("file", m.files), ("imm", m.imms), ("unit", m.units)):
        yield from [f"{what} {name}" for name in parts]
    yield from port_lines(m)
    yield f"delay {m.control[0]}"
    yield from [f"template {name} {imm}.{index}" for name, (imm, index, *_) in m.templates.items()]
    yield f"instructions {len(code)}"
    yield f"asked {first} {bound}"
    yield from fitting(([f"row {address} {text}"] for address, text in enumerate(code[:ROWS])), ROW_BYTES)


def stages_of(text):
    """The basic blocks, the homes of variables and the headings of code in a text of stages."""
    blocks, homes, code, now = [], {}, [], None
    for line in text.split("\n"):
        words = line.split()
        if line[:1] != " ":
            now = words[:1]
            if now == ["block"]:
                blocks.append({"proc": words[3], "first": int(words[5]), "lines": [], "live": []})
            elif now == ["variables"]:
                now.append(words[2])
            elif now == ["code"]:
                code.append(words[1:])
        elif now == ["block"] and words[0] == "line":
            blocks[-1]["lines"].append(int(words[1]))
        elif now == ["block"]:
            blocks[-1]["live"].append(words[3:])
        elif now[0] == "variables":
            homes[now[1], words[0]] = words[1]
    return blocks, homes, code


def origin(blocks, homes, words):
    """The lines that a page has of a block of code, by its heading."""
    kind, proc = words[1], words[3]
    if kind == "entry":
        lines, live = [], next(b["live"][0] for b in blocks if b["proc"] == proc and b["first"] == 0)
    elif kind == "steps":
        block = next(b for b in blocks if b["proc"] == proc and b["lines"] and b["lines"][0] == int(words[5]) and b["lines"][-1] == int(words[6]))
        lines, live = block["lines"], block["live"][0] + block["live"][1]
    else:
        lines = [int(words[5])]
        live = next(b["live"][1] for b in blocks if b["proc"] == proc and b["lines"][-1:] == lines)
    yield "block " + " ".join(words)
    yield " ".join(["lines", *map(str, lines)])
    yield from [f"live v{k} {homes[proc, f'v{k}']}" for k in sorted({int(name[1:]) for name in live})]


def origins(text):
    """What a page has of the blocks of the code of a program, by the text of its stages."""
    blocks, homes, code = stages_of(text)
    return list(fitting((list(origin(blocks, homes, words)) for words in code), BLOCK_BYTES))


def begin(folder, m, given):
    """The state in which a run of an image begins, the code, and the text of each instruction."""
    run(folder, PROGRAM, "dis", given.machine, given.code, "shown")
    shown, data = read(folder, "shown").decode(), input_words(given.data)
    texts = [line for line in shown.split("\n") if line and not line.startswith("data ")]
    return *meaning.begun(shown, m, data + [0] * (m.spaces.get("data", 0) - len(data)), input_words(given.stream)), texts


def played(m, state, code, texts, bound):
    """The states of so many cycles, each with what the cycle after it does."""
    for _ in range(bound):
        lines, before, said = list(state_lines(m, state, texts)), spaces(state), len(state.output)
        end = carry_out(state, code)
        if end:
            yield [*lines, end]
            return
        yield [*lines, *(f"out {word}" for word in state.output[said:]), *changes(before, spaces(state))]
    yield list(state_lines(m, state, texts))


def wanted(folder, given):
    """The lines of the data that the page of a run of an image should have."""
    m = machine(read(folder, given.machine))
    state, code, texts = begin(folder, m, given)
    before, made = spaces(state, ROWS), 0
    while made < given.first and not carry_out(state, code):
        made += 1
    lines = [*machine_part(m, texts, given.first, given.bound), *changes(before, spaces(state, ROWS))]
    room = LARGEST - END_BYTES - FRONT_BYTES - sum(len(line) + 1 for line in lines)
    return lines + list(fitting(played(m, state, code, texts, min(given.bound, LIMIT)), room))


def fixed_text():
    """What stands before the text of stages, between it and the data, and behind these, from the pieces of the fixed text; nothing is said, and
    the page is not too long."""
    text = "".join(map(pieces().get, [*HEAD, "run_middle", *TAIL]))
    before, between, after = re.fullmatch(r"(?s)(.*)<script type='text/plain' id='source'>\n(</script>\n.*id='data'>\n)</script>\n(.*)", text).groups()
    return before, between, after, "", True


AROUND = fixed_text()
# How many bytes of fixed text stand before the data of a page without a program.
FRONT_BYTES = sum(map(len, (*AROUND[:2], "<script type='text/plain' id='source'>\n")))
