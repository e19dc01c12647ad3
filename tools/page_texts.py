"""Writes the fixed text of pages from crates/tta_pages/page: as definitions into crates/tta_pages/specs, and as the functions that put it into
crates/tta_pages/src. A line `//# NAME : WHAT` there begins a piece. Run without words it writes the files, and with `--check` it says which
are others. No line of a piece has a double quote, a backslash or a letter outside ASCII."""
import os
import re
import sys

TOP = os.path.realpath(os.path.join(os.path.dirname(os.path.abspath(__file__)), ".."))
FOLDER = os.path.join(TOP, "crates", "tta_pages")
# A module: its name, what the names of its pieces begin with, its title, and the files whose pieces are in it.
MODULES = [
    ("common", "", "what pages share", ["common.css", "fit.js", "common.js"]),
    ("joins", "", "the script that joins lines, register code, moves and cycles", ["joins.js"]),
    ("stages", "stages_", "a page of the stages of a program", ["stages.html", "stages.js"]),
    ("run", "run_", "a page that plays a run", ["run.html"]),
    ("run_states", "run_", "the script that reads the states of a run", ["run_states.js"]),
    ("run_code", "run_", "the script that shows the code and the program of a run", ["run_code.js"]),
    ("run_picture", "run_", "the script that draws the machine of a run", ["run_picture.js"]),
    ("run_show", "run_", "the script that shows the states of a run", ["run_show.js"]),
]
# How many lines and letters a piece has at most.
LINES, LETTERS = 30, 1000


def pieces(name, prefix):
    """The pieces of a file: name, what it is, and its lines."""
    found = []
    with open(os.path.join(FOLDER, "page", name), encoding="ascii") as f:
        for line in f.read().split("\n")[:-1]:
            head = re.fullmatch(r"//# (\w+) : (.*)", line)
            if head:
                found.append((prefix + head[1], head[2], []))
            else:
                found[-1][2].append(line)
    for piece, _, lines in found:
        wrong = [line for line in lines if '"' in line or "\\" in line]
        letters = sum(len(line) + 1 for line in lines)
        if wrong or len(lines) > LINES or letters > LETTERS:
            raise SystemExit(f"{name}: {piece}: {wrong or f'{len(lines)} lines, {letters} letters'}")
    return found


def definition(piece, what, lines):
    text = "".join(line + "\\n" for line in lines)
    return f"-- {what}\nunfoldable pub {piece}_text : List ℕ\n{piece}_text =\n    codes \"{text}\"\n"


def function(module, piece, what, lines):
    """The text of the function that puts a piece."""
    text = "".join(f"        {line}\\n\\\n" for line in lines)
    return f"""/// Puts {what}.
#[tactic(auto, unfolding(crate::specs::{module}::{piece}_text))]
pub fn push_{piece}(out: &mut Vec<u8>) -> Result<(), AllocError>
    ensures {{ OnOk result (out.new.items ≡ out.old.items ++ {piece}_text) }}
{{
    out.extend_from_slice(
        b"{text.lstrip()}        ",
    )
}}
"""


def imports(module, names):
    """The ghost lines that import definitions, none of more than 100 columns."""
    lines, held = [], []
    for name in sorted(names):
        if held and len(f"ghost use Rattle.tta_pages.specs.{module}.{{{', '.join([*held, name])}}};") > 100:
            lines.append(held)
            held = []
        held.append(name)
    return "".join(f"ghost use Rattle.tta_pages.specs.{module}.{{{', '.join(some)}}};\n" for some in [*lines, held])


def files():
    """The text of each file that is written, by its name."""
    texts = {}
    for name, prefix, title, parts in MODULES:
        module = "".join(word.capitalize() for word in name.split("_")) + "Pieces"
        all_pieces = [p for part in parts for p in pieces(part, prefix)]
        texts[f"specs/{module}.antt"] = (
            f"-- The pieces of the fixed text of {title}.\nuse Rattle.std.specs.Prelude.{{ℕ, List, codes}}\n\n"
            + "\n".join(definition(*p) for p in all_pieces))
        texts[f"src/{name}_pieces.rt"] = (
            f"//! The pieces of the fixed text of {title}.\n\nghost use Rattle.std.specs.Prelude.{{◌≡◌, ◌++◌, OnOk}};\n"
            + imports(module, [f"{p[0]}_text" for p in all_pieces]) + "\nuse std::alloc::AllocError;\n\n"
            + "\n".join(function(module, *p) for p in all_pieces))
    return texts


def main():
    failed = 0
    for name, text in files().items():
        path = os.path.join(FOLDER, name)
        if "--check" in sys.argv[1:]:
            with open(path, encoding="utf-8") as f:
                if f.read() != text:
                    failed += 1
                    print(f"{name} is not that of crates/tta_pages/page")
        else:
            with open(path, "w", encoding="utf-8") as f:
                f.write(text)
    return 1 if failed else 0


if __name__ == "__main__":
    sys.exit(main())
