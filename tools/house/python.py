"""Counts the Python of tools, checks and bench: lines, imports and comments, the lines of each function, and what is larger than the house allows or
imported for nothing. A file is Python by its ending or by its first line."""
import ast
import os
import re

from house import lines

FOLDERS = ("tools", "checks", "bench")


def is_python(path):
    with open(path, "rb") as f:
        return path.endswith(".py") or re.match(rb"#!.*\bpython3\b", f.readline()) is not None


def sources():
    """The Python files, in order."""
    return [path for folder in FOLDERS for path in lines.files(os.path.join(lines.TOP, folder), "") if is_python(path)]


def idle(tree, text):
    """The names that a file imports and nothing in it uses. An import whose line ends with `# noqa` is there for what it does or for others."""
    used = {node.id for node in ast.walk(tree) if isinstance(node, ast.Name)}
    for node in ast.walk(tree):
        if isinstance(node, (ast.Import, ast.ImportFrom)) and "# noqa" not in text[node.lineno - 1]:
            names = [(one.asname or one.name).split(".")[0] for one in node.names]
            yield from [name for name in names if name not in used]


def count_function(name, node, counts):
    """Counts the lines of a function, which are all from its `def` on."""
    given, size = node.args, node.end_lineno - node.lineno + 1
    count = sum(map(len, (given.posonlyargs, given.args, given.kwonlyargs)))
    counts.bodies.append(size)
    if count > lines.PARAMETERS:
        counts.larger.append(f"{name}: {node.name} has {count} parameters")
    if size > lines.BODY:
        counts.larger.append(f"{name}: {node.name} has {size} lines")


def count_file(path, counts):
    """Counts a file."""
    name, text = os.path.relpath(path, lines.TOP), lines.text_of(path)
    tree = ast.parse("\n".join(text))
    for node in ast.walk(tree):
        if isinstance(node, (ast.FunctionDef, ast.AsyncFunctionDef)):
            count_function(name, node, counts)
        counts.src["import"] += isinstance(node, (ast.Import, ast.ImportFrom))
    counts.src["all"] += len(text)
    counts.src["comment"] += sum(line.strip().startswith("#") for line in text)
    counts.larger += [f"{name}: nothing uses {one}, which it imports" for one in idle(tree, text)]
    if len(text) > lines.FILE:
        counts.larger.append(f"{name} has {len(text)} lines")


def counted():
    """The counts of all Python files."""
    counts = lines.Counts()
    for path in sources():
        count_file(path, counts)
    counts.src["body"] = sum(counts.bodies)
    return counts
