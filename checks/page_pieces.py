"""The pieces of the fixed text of pages, as their definitions have them."""
import glob
import os
import re

SPECS = os.path.join(os.path.dirname(os.path.dirname(os.path.abspath(__file__))), "crates", "tta_pages", "specs")


def pieces():
    """The pieces by their names."""
    found = {}
    for name in glob.glob(os.path.join(SPECS, "*Pieces.antt")):
        with open(name) as f:
            found.update((piece, text.replace("\\n", "\n")) for piece, text in re.findall(r'(\w+)_text =\n    codes "(.*)"', f.read()))
    return found
