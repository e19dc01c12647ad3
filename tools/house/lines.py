"""Reads the lines of crates by their kind: in src bodies, contracts, imports, comments and what declares; in specs and proofs imports and others."""
import os
import re
from collections import Counter
from dataclasses import dataclass, field

TOP = os.path.normpath(os.path.join(os.path.dirname(os.path.abspath(__file__)), "..", ".."))
CRATES = os.path.join(TOP, "crates")
FILE, BODY, PARAMETERS, CLAUSE = 300, 40, 6, 100
FUNCTION = re.compile(r"(?:pub(?:\([a-z]+\))? )?(?:const )?fn (\w+)")
CLAUSES = re.compile(r"(?:requires|ensures|invariant|measure|decreases)\b")


@dataclass
class Counts:
    """Lines by kind of src, specs and proofs, the lines of each body, and what is larger than the house allows."""
    src: Counter = field(default_factory=Counter)
    specs: Counter = field(default_factory=Counter)
    proofs: Counter = field(default_factory=Counter)
    bodies: list = field(default_factory=list)
    larger: list = field(default_factory=list)


def crates():
    """The names of all crates."""
    return sorted(name for name in os.listdir(CRATES) if os.path.isdir(os.path.join(CRATES, name, "src")))


def files(folder, ending):
    """The files below a folder with an ending, in order."""
    found = (os.path.join(at, name) for at, _, names in os.walk(folder) for name in names)
    return sorted(path for path in found if path.endswith(ending))


def text_of(path):
    with open(path, encoding="utf-8") as f:
        return f.read().split("\n")[:-1]


def parameters(head):
    """How many parameters a function's head has, with its receiver."""
    depth, count, is_any = 0, 0, False
    for mark in head[head.index("("):]:
        depth += mark in "([{<"
        depth -= mark in ")]}>"
        if depth == 0:
            break
        count += depth == 1 and mark == ","
        is_any = is_any or not mark.isspace() and mark != "("
    trailing = re.search(r",\s*\)", head) is not None
    return count + (1 if is_any and not trailing else 0)


class Source:
    """The lines of one file of src, which has the layout of the formatter: a body begins at a line `{` or with one that ends so."""

    def __init__(self, path, counts):
        self.path, self.counts = os.path.relpath(path, TOP), counts
        self.kind, self.head, self.name, self.indent, self.body = "other", "", None, "", 0

    def take(self, line):
        """Counts a line."""
        bare = line.strip()
        if bare.startswith("//"):
            kind = "comment"
        elif self.kind == "body":
            kind = self.of_body(line)
        elif self.kind == "head":
            kind = self.of_head(line, bare)
        elif FUNCTION.match(bare):
            self.kind, self.head, self.name, self.indent = "head", "", FUNCTION.match(bare)[1], line[:len(line) - len(line.lstrip())]
            kind = self.of_head(line, bare)
        else:
            kind = "import" if re.match(r"(?:pub )?(?:ghost )?use ", bare) else "blank" if not bare else "other"
        self.counts.src[kind] += 1
        self.counts.src["all"] += 1

    def of_head(self, line, bare):
        """A line of a function's head, with its contract."""
        is_clause = CLAUSES.match(bare) is not None or "{ " not in bare and not self.head.endswith("(") and self.head.count("(") == self.head.count(")") > 0
        if CLAUSES.match(bare) and len(line) > CLAUSE:
            self.counts.larger.append(f"{self.path}: a clause of {self.name} has {len(line)} columns")
        self.head += line + "\n"
        if line == self.indent + "{" or bare.endswith(" {") and not CLAUSES.match(bare) and not bare.startswith("∧"):
            count = parameters(self.head)
            if count > PARAMETERS:
                self.counts.larger.append(f"{self.path}: {self.name} has {count} parameters")
            self.kind, self.body = "body", 0
        elif bare.endswith(";") and line.startswith(self.indent + "fn") or bare == "}":
            self.kind = "other"
        return "contract" if is_clause else "other"

    def of_body(self, line):
        """A line of a function's body."""
        if line == self.indent + "}":
            self.kind = "other"
            self.counts.bodies.append(self.body)
            if self.body > BODY:
                self.counts.larger.append(f"{self.path}: {self.name} has {self.body} lines")
            return "other"
        self.body += 1
        return "body"


def count_logic(path, counter):
    """Counts the lines of a file of specs or proofs."""
    for line in text_of(path):
        counter["all"] += 1
        counter["import"] += re.match(r"(?:pub )?use ", line.strip()) is not None


def unnamed(name, paths):
    """What a crate stands on by crates.txt, and none of its files names."""
    with open(os.path.join(TOP, "crates.txt"), encoding="utf-8") as f:
        others = re.search(rf"^{name}:(.*)$", f.read(), re.M)
    named = {word for path in paths for line in text_of(path) for word in re.findall(r"\w+", line)}
    return [other for other in (others[1].split() if others else []) if other not in named]


def of_crate(name):
    """The counts of a crate."""
    folder, counts = os.path.join(CRATES, name), Counts()
    if not os.path.isdir(folder):
        raise FileNotFoundError(2, "there is no such crate", name)
    for path in files(os.path.join(folder, "src"), ".rt"):
        source, lines = Source(path, counts), text_of(path)
        for line in lines:
            source.take(line)
    for part in ("specs", "proofs"):
        for path in files(os.path.join(folder, part), ".antt"):
            count_logic(path, getattr(counts, part))
    paths = files(folder, ".rt") + files(folder, ".antt")
    for path in paths:
        if len(text_of(path)) > FILE:
            counts.larger.append(f"{os.path.relpath(path, TOP)} has {len(text_of(path))} lines")
    counts.larger += [f"crates.txt: {name} stands on {other}, and none of its files names it" for other in unnamed(name, paths)]
    return counts


def together(counted):
    """The sum of counts."""
    whole = Counts()
    for counts in counted:
        for name in ("src", "specs", "proofs"):
            getattr(whole, name).update(getattr(counts, name))
        whole.bodies += counts.bodies
        whole.larger += counts.larger
    return whole
