"""What a core costs in hardware, by yosys, and by nextpnr-ice40 how fast its clock may be, where that is installed and the core has room on the
FPGA. The core is that of `rtl`, with its code as it is. What was once measured is kept by the core's text, the flow, the tools, and the files of
operations of one's own: those of the folder that TTA_OPERATIONS names, or else of examples/hardware/operations."""
import os
import re
import shutil
import subprocess
import tempfile
from collections import namedtuple

from designs import kept, netlist

# A flow is a script of yosys, FLOW.ys of the folder.
FLOWS = ("ice40", "lut6")
SCRIPTS = os.path.join(os.path.dirname(os.path.abspath(__file__)), "flows")
OPERATIONS = os.path.join(os.path.dirname(os.path.abspath(__file__)), "..", "..", "examples", "hardware", "operations")
TOP = "tta_core"
PLACED = ["nextpnr-ice40", "--hx8k", "--package", "ct256", "--pcf-allow-unconstrained", "--timing-allow-fail", "--seed", "1", "--quiet"]
CLOCK = re.compile(r"Max frequency for clock '[^']*': ([0-9.]+) MHz")

# What a core costs: LUTs, flip-flops, block RAMs, the longest path in LUTs, and the clock in MHz or None.
Cost = namedtuple("Cost", "luts flops blocks path clock")


class Failed(Exception):
    """Why a core has no cost."""


def is_there():
    return shutil.which("yosys") is not None


def version_of(tool):
    """What a tool says of its version, or nothing where it is not there."""
    if not shutil.which(tool):
        return b""
    ran = subprocess.run([tool, "--version"], stdin=subprocess.DEVNULL, capture_output=True)
    return ran.stdout + ran.stderr


def operations():
    """The files of operations of one's own."""
    folder = os.environ.get("TTA_OPERATIONS") or OPERATIONS
    return [os.path.join(folder, name) for name in sorted(os.listdir(folder)) if name.endswith(".v")]


def script_of(flow):
    """The bytes of all that a flow is made of."""
    found = b""
    names = sorted([f"{flow}.ys", *(name for name in os.listdir(SCRIPTS) if not name.endswith(".ys"))])
    for path in [*(os.path.join(SCRIPTS, name) for name in names), *operations()]:
        with open(path, "rb") as f:
            found += f.read()
    return found


class Synthesis:
    """Measures cores by one flow. Its commands are begun by `runs`, which stops them."""

    def __init__(self, flow, runs):
        self.flow, self.runs = flow, runs
        self.has_clock = flow == "ice40" and bool(version_of("nextpnr-ice40"))
        self.tools = [flow.encode(), script_of(flow), version_of("yosys"), version_of("nextpnr-ice40") if flow == "ice40" else b""]

    def path(self, core):
        # The lines above the module tell of which machine and image it is, and change nothing of what it costs.
        return kept.path_of([*self.tools, core[max(0, core.find(b"module ")):]])

    def is_kept(self, core):
        """Whether the cost of a core is known without measuring it."""
        return kept.found(self.path(core)) is not None

    def cost(self, core):
        """The cost of the text of a core, which is bytes."""
        path = self.path(core)
        found = kept.found(path)
        if not found:
            found = list(self.measured(core))
            kept.keep(path, found)
        return Cost(*found)

    def measured(self, core):
        """The cost of a core, by the flow in a folder of its own."""
        with tempfile.TemporaryDirectory() as folder:
            for path in [*(os.path.join(SCRIPTS, name) for name in os.listdir(SCRIPTS)), *operations()]:
                shutil.copy(path, folder)
            with open(os.path.join(folder, "core.v"), "wb") as f:
                f.write(core)
            ran = self.runs.run(["yosys", "-qq", f"{self.flow}.ys"], folder)
            if ran.status:
                raise Failed(next((line for line in ran.error.split("\n") if "ERROR" in line), f"yosys ends with {ran.status}"))
            return Cost(*netlist.counts(os.path.join(folder, "core.json"), TOP), self.clock(folder) if self.has_clock else None)

    def clock(self, folder):
        """The clock of what yosys has written, or None where it has no room."""
        log = os.path.join(folder, "log")
        ran = self.runs.run([*PLACED, "--json", "core.json", "--log", log], folder)
        if self.runs.is_stopped:
            raise Failed("stopped")
        if ran.status or not os.path.exists(log):
            return None
        with open(log, encoding="utf-8", errors="replace") as f:
            found = CLOCK.findall(f.read())
        return float(found[-1]) if found else None
