"""What a page of `play` should show of each state, by the lines that it should have and the words of `waves`."""
import re


def states_of(lines, data):
    """The states in the lines that checks/views/play makes, where these are the data words of the start, and why the run is over."""
    names, states, output, memory, end = {}, [], [], {}, "more cycles may follow"
    for line in lines:
        kind, *words = line.split(" ")
        if kind in ("bus", "file", "imm", "unit"):
            names.setdefault(kind, []).append(words[0])
        elif kind == "asked":
            names["asked"] = list(map(int, words))
        elif kind == "state":
            states.append({"cycle": words[0], "address": words[1], "registers": [], "immediates": [], "results": [], "code": None, "more": [],
                           "output": list(output),
                           "memory": [f"{address}: {word}" for address, word in sorted(memory.items())], "data": {**dict(enumerate(data)), **memory}})
        elif kind in ("registers", "results", "immediates"):
            states[-1][kind].append(words)
        elif kind == "return":
            states[-1]["return"] = words[0]
        elif kind == "code":
            states[-1]["code"] = line[5:]
        elif kind == "store":
            memory[int(words[0])] = words[1]
        elif kind == "out":
            output.append(words[0])
        elif kind == "template":
            names.setdefault("long", {})[words[0]] = words[1].split(".")[0]
        elif kind == "pending":
            states[-1]["more"].append(f"{words[0]} to {words[1]} in {words[2]}")
        elif kind == "input":
            states[-1]["more"].append(f"next input {words[0]}")
        elif kind in ("delay", "row", "port", "operands", "slot", "instructions", "block", "lines", "live"):
            pass
        else:
            end = line
    return names, states, end


def look(names, state, move):
    """How a move of the next instruction is shown."""
    guard = re.match(r"([?!])(\w+)\.(\d+) ", move)
    if move == "...":
        return "plain"
    if not guard:
        return "active"
    word = state["registers"][names["file"].index(guard[2])][int(guard[3])]
    return "active" if word != "-" and (word != "0") == (guard[1] == "?") else "passed"


def register_rows(names, state):
    return [[name, *(f"{k}: {word}" for k, word in enumerate(words))] for name, words in zip(names.get("file", []), state["registers"])]


def moves_of(names, state):
    """The moves of the next instruction with their buses and how they are shown, those that are there."""
    moves = state["code"].removesuffix(" ;").partition(" [")[0].split(" , ") if state["code"] else []
    pairs = [(bus, move, move.split(" ")) for bus, move in zip(names["bus"], moves) if move != "..."]
    return [(words[-3], words[-1], f"bus_{bus}", look(names, state, move)) for bus, move, words in pairs]


def picture(names, state, is_last):
    """What the picture of the machine shows: the words on buses, the sources of moves that are stopped, and the parts that act; and which data words
    are said to be read, with what they are where a state follows."""
    moves, levels = moves_of(names, state), state["levels"]
    active = [(source, target, levels[bus]) for source, target, bus, how in moves if how == "active"]
    touched = {place.split(".")[0] for source, target, _ in active for place in (source, target)}
    if state["code"] and " [" in state["code"]:
        touched |= set(names.get("imm", [])) & {names["long"][state["code"].split(" [")[1].split("=")[0]]}
    parts = [*names.get("file", []), *names.get("imm", []), "gcu", *names["unit"]]
    words = {word: "" if is_last else f": {state['data'].get(int(word), 0)}" for _, _, word in active}
    loads = [f"reads {word}{words[word]}" for _, target, word in active if target.endswith(".t.ldw")]
    stopped = [source for source, _, _, how in moves if how == "passed"]
    return [word for _, _, word in active], stopped, [part for part in parts if part in touched], loads


def span(names, states, end):
    """What is said of the cycles that are shown."""
    first, last, (asked, bound) = states[0]["cycle"], states[-1]["cycle"], names["asked"]
    rest = "; the run is over before" if int(first) < asked else "; more may follow" if end == "more cycles may follow" else f"; then {end}"
    return f"cycles {first} to {last} shown, {bound}" + (f" from cycle {asked}" if asked else "") + " asked for" + rest


def wanted(names, states, end, at):
    """What a page should show of a state."""
    state, before = states[at], states[at - 1] if at else None
    rows = register_rows(names, state)
    old = register_rows(names, before) if before else rows
    flight, levels = [["unit", "operand", "result", "under way"]], state["levels"]
    for name, (port, *due) in zip(names["unit"], state["results"]):
        flight.append([name, levels[f"kept_{name}"], port, [(word, str(delay)) for delay, word in enumerate(due, 1) if word != "-"]])
    now = looks = carried = None
    drawn = picture(names, state, at == len(states) - 1)
    if state["code"]:
        moves, _, long = state["code"].removesuffix(" ;").partition(" [")
        now = [state["address"], *moves.split(" , "), "[" + long if long else ""]
        looks = ["plain", *(look(names, state, move) for move in now[1:-1]), "plain"]
        carried = [levels[f"bus_{bus}"] if look == "active" and not re.match(r"([?!]\S+ )?\d", move) else ""
                   for bus, move, look in zip(names["bus"], now[1:], looks[1:])]
    return {
        "where": f"cycle {state['cycle']}, address {state['address']}" + (f", {end}" if at == len(states) - 1 else ""),
        "slider": str(at), "registers": rows, "flight": flight, "output": (".. " if states[0]["cycle"] != "0" else "") + " ".join(state["output"]),
        "now": now, "looks": looks, "words": carried, "memory": state["memory"], "span": span(names, states, end), "title": "A run, cycle by cycle",
        "more": ", ".join(state["more"]), "stale": 0,
        "carried": drawn[0], "stopped": drawn[1], "acting": drawn[2], "reads": drawn[3],
        "others": [f"{name}.{k}: {word}" for name, words in zip(names.get("imm", []), state["immediates"]) for k, word in enumerate(words)]
        + ([f"gcu.ra: {state['return']}"] if state["return"] != "-" else []),
        "changed": [f"{row[0]} {cell}" for row, was in zip(rows, old) for cell, it in zip(row[1:], was[1:]) if cell != it],
    }


def plain(shown):
    """What is shown, with the results on their way as pairs of a word and a delay."""
    rows = [row[:3] + [re.findall(r"(\d+) in (\d+)", row[3])] for row in shown["flight"][1:]]
    return {**{name: shown[name] for name in shown if name != "play"}, "flight": shown["flight"][:1] + rows}


def wrong_variables(shown):
    """The variables that are not shown with the words of their registers."""
    registers = {f"{row[0]}.{cell.split(': ')[0]}": cell.split(": ")[1] for row in shown["registers"] for cell in row[1:]}
    cells = [re.fullmatch(r"\S+ (\S+): (\S+)", cell).groups() for cell in shown["variables"]]
    return [cell for cell in cells if cell[0] in registers and registers[cell[0]] != cell[1]]


def levels_of(text):
    """The words of the signals of a dump of `waves` by their names, for each of its states."""
    names = {code: name for code, name in re.findall(r"\$var wire \d+ (\S+) (\S+) \$end", text)}
    states, now = [], {}
    for line in text.split("$enddefinitions $end\n")[1].split("\n"):
        found = re.fullmatch(r"b?([01x]+) ?(s\d+)", line)
        if line.startswith("#"):
            states.append(now := dict(now))
        elif found:
            now[names[found[2]]] = "-" if "x" in found[1] else str(int(found[1], 2))
    return states
