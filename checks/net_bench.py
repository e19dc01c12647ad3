"""The test bench of a net as circuits, and what it has to know of the module that it runs."""
import os
import re

BENCH = os.path.join(os.path.dirname(os.path.dirname(os.path.abspath(__file__))), "examples", "hardware", "net_bench.v")
KINDS = {"halted": "CORE", "out_valid": "OUT", "in_valid": "IN"}


def ports(text):
    """The ports of the text of a net that the bench has to know, each as its kind and the number of its core."""
    names = re.search(r"^module tta_net \((.*)\);$", text, re.M)[1].split(", ")
    split = [name.rpartition("_") for name in names]
    return [(KINDS[name], int(core)) for name, _, core in split if name in KINDS]


def defined(text):
    """What the bench is told of the text of a net: which cores there are, and which of them have ports of words."""
    return [f"-D{kind}_{core}" for kind, core in ports(text)]


def with_input(text):
    """The cores that take words from outside."""
    return [core for kind, core in ports(text) if kind == "IN"]
