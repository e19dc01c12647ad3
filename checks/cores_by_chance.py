"""Cores that are joined by queues, and their links, made by chance."""
import os

from by_chance import code, machine_text, some_words, tool, write, write_words
from readers.machine import machine
from readers.tokens import answer

EXAMPLES = os.path.join(os.path.dirname(os.path.abspath(__file__)), "..", "examples")
with open(os.path.join(EXAMPLES, "with_input.machine"), "rb") as shown:
    WITH_INPUT = shown.read()


def queue_program(by):
    """The text of a program that takes words and outputs some, in a loop that may have an end."""
    variables = ["a", "b", "c"]

    def v():
        return by.choice([*variables, *variables, str(by.choice([0, 1, 2, 3, 10]))])

    def line(d):
        return by.choice([f"{d} = in", f"{d} = in", f"out {d}", f"out {v()}", f"{d} = {by.choice(['add', 'xor', 'mul'])} {v()} {v()}",
                          f"if ltu {v()} {v()} goto next", f"when lt {v()} {v()} {d} = {v()}", f"{d} = load {v()}", f"store {v()} {v()}"])
    first = [f"out {i}" for i in range(by.choice([0, 0, 1, 3]))]
    body = ["a = in"] * (by.random() < 0.7) + [line(by.choice(variables)) for _ in range(by.randint(1, 8))]
    last = by.choice([["goto next"], ["n = add n 1", f"if ltu n {by.randint(1, 9)} goto next"]])
    return "\n".join(["proc main", *first, "next:", *body, *last, "end", ""])


def some_core(by, k):
    """A core whose files are named by its number: its machine, the canonical text of its code, and its data space at first; and the text
    of the program that it was compiled from, or None."""
    m = None
    while not hasattr(m, "buses"):
        text = WITH_INPUT if by.random() < 0.75 else machine_text(by).encode()
        m = answer(machine, text)
    write(f"M{k}", text)
    program = queue_program(by).encode() if text == WITH_INPUT else None
    if program:
        write("P", program)
        made = [tool("build", f"M{k}", "P", f"IMG{k}"), tool("dis", f"M{k}", f"IMG{k}", "A")]
    else:
        write("A", code(by, m).encode())
        made = [tool("asm", f"M{k}", "A", f"IMG{k}")]
    assert all(one == (0, "", "") for one in made), made
    words = some_words(by, min(m.spaces["data"], 4))
    write_words(f"IN{k}", words)
    with open("A") as f:
        return (m, f.read(), words + [0] * (m.spaces["data"] - len(words))), program


def links_text(by, count):
    """The text of links of so many cores, each fed once at most and feeding once at most; now and then with a line that is refused."""
    fed = by.sample(range(count), by.randint(count // 2, count))
    lines = [f"link {a} {b}" for a, b in zip(by.sample(range(count), len(fed)), fed)]
    odd = ["# a remark", " \t\r", f"link 0 {count}", f"link {count} 0", "link 0", "link 0 1 2", "0 1", "link 0 -1", "link 4294967296 0", "link 0 0", "link 0x0 0"]
    lines.insert(by.randint(0, len(lines)), by.choice(odd) if by.random() < 0.2 else "")
    return "\n".join(lines) + by.choice(["", "\n"])
