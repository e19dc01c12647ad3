"""Runs the circuit of a core as `run` runs an image: by the meaning of `circuit.py`, and what it gives are the lines of `run`."""
class Pins:
    """What the outside shows to a core: the words of a stream, in order, and whether it takes a word. Where it pauses, both come at one
    clock in three; a word that is offered stays until it is taken."""

    def __init__(self, stream, by, pauses):
        self.stream, self.by, self.pauses, self.taken, self.offers = stream, by, pauses, 0, False

    def given(self, circuit, reset):
        self.offers = self.taken < len(self.stream) and (self.offers or not self.pauses or not self.by.randrange(3))
        word = self.stream[self.taken] if self.offers else self.by.getrandbits(32)
        words = {"reset": reset, "in_valid": int(self.offers), "in_data": word, "out_ready": int(not self.pauses or not self.by.randrange(3))}
        return {name: words[name] for name in circuit.inputs}

    def take(self):
        self.taken, self.offers = self.taken + 1, False


def goes_on(circuit, pins, shown, clock):
    """Whether a core that tells a fault tells another one, makes a cycle or lets a word pass at one of the clocks after that."""
    for _ in range(4):
        clock()
        now, clock = circuit.shows(pins.given(circuit, 0))
        if now["fault"] != shown["fault"] or any(now.get(name) for name in ("cycle", "halted", "in_ready", "out_valid")):
            return True
    return False


def ran(circuit, data, bound, stream, pauses):
    """The lines of a run of at most so many cycles, with these words in the data space and this input, and the number of clocks."""
    by, out, cycles, clocks = circuit.by, [], 0, 0
    pins = Pins(stream, by, pauses)
    circuit.memories["data"][:len(data)] = data
    for _ in range(by.randrange(1, 4)):
        circuit.shows(pins.given(circuit, 1))[1]()
    while True:
        given = pins.given(circuit, 0)
        shown, clock = circuit.shows(given)
        asks, puts = shown.get("in_ready"), shown.get("out_valid") and given["out_ready"]
        fault = shown.get("fault")
        if shown["halted"] or cycles == bound or fault or asks and pins.taken == len(stream):
            out.append("halted" if shown["halted"] else "running" if cycles == bound else f"fault {fault}" if fault else "waiting")
            break
        takes = asks and given["in_valid"]
        if (takes or puts) and not shown["cycle"]:
            out.append("a word passes without a cycle")
        if puts:
            out.append(str(shown["out_data"]))
        cycles += shown["cycle"]
        clocks += 1
        clock()
        if takes:
            pins.take()
    if out[-1].startswith("fault") and goes_on(circuit, pins, shown, clock):
        out.append("the core goes on after a fault")
    out += [f"mem {k} {word}" for k, word in enumerate(circuit.memories["data"][:len(data)]) if word]
    return [*out, f"cycles {cycles}"], clocks
