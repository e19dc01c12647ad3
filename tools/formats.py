"""The tables of the pages on formats, commands, output and endings, from which help, explanations and reasons are told."""
import os
import re

TOP = os.path.normpath(os.path.join(os.path.dirname(os.path.abspath(__file__)), ".."))
PAGES = [os.path.join(TOP, "docs", f"{name}.md") for name in ("FORMATS", "COMMANDS", "OUTPUT", "ENDINGS")]
# What `explain` takes: the section of a number's table, and the head of its first column.
TABLES = {
    "status": ("Endings", "Status"),
    "machine": ("Machine text", "Number"),
    "program": ("Program text", "Number"),
    "image": ("Image", "Number"),
    "assembly": ("Assembly", "Number"),
    "links": ("Links", "Number"),
    "fault": ("Endings", "Number"),
    "debug": ("Scripts", "Number"),
}
# Which numbers of the endings are those of faults, and of what might be one.
FAULTS = range(60, 81)


def section(name):
    """The text of the section that is called so, or else of the page that is."""
    texts = []
    for path in PAGES:
        with open(path, encoding="utf-8") as page:
            texts.append("\n" + page.read())
    for head in (f"\n## {name}\n", f"\n# {name}\n"):
        for text in texts:
            if head in text:
                return text.split(head)[1].split("\n## ")[0]
    raise KeyError(name)


def rows(name, head):
    """The rows of the tables of a section whose first column has this head, each a list of cells without marks of code."""
    found, inside = [], False
    for line in section(name).split("\n"):
        if not line.startswith("|"):
            inside = False
            continue
        cells = [cell.strip().replace("`", "") for cell in re.split(r"(?<!\\)\|", line.strip("|"))]
        if inside and not cells[0].startswith("---"):
            found.append(cells)
        inside = inside or cells[0] == head
    return found


def commands():
    """The forms of the commands, each with what it does."""
    return [(cells[0].split(), cells[1]) for cells in rows("Commands", "Words")]


def meanings(what, number):
    """What the table of this kind says of a number: a line for each cause."""
    name, head = TABLES[what]
    found = [cells for cells in rows(name, head) if str(number) in re.split(r", *", cells[0])]
    return [cells[1] for cells in found if what != "fault" or int(number) in FAULTS]
