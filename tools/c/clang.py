"""One module of LLVM's representation of all files and of library.c, after LLVM's passes.

clang compiles each file without passes, for riscv32 with words of 32 bits; `llvm-link` joins them; `opt` makes `main` the only function that
is seen from outside, so that what is not used goes, and runs the passes of a level. Vectors are left out. The functions of the library
that steps will call (64-bit division, floating point) are known only then: if any are needed, the passes run again with them kept.

The three programs are of one version of LLVM (llvm.py)."""
import os
import re
import subprocess
import sys
from collections import namedtuple
from concurrent.futures import ThreadPoolExecutor

import floats
import llvm
from frames import RUN_TIME
from lacking import LIBRARY

HERE = os.path.dirname(os.path.abspath(__file__))
CLANG = ["--target=riscv32-unknown-elf", "-march=rv32im", "-mabi=ilp32", "-ffreestanding", "-fno-vectorize", "-fno-slp-vectorize",
         "-ffp-contract=off", "-fno-math-errno", "-gline-tables-only", "-Xclang", "-disable-llvm-passes", "-S", "-emit-llvm", "-D__TTA__"]
# What LLVM leaves as one step and what is a function of library.c.
DIVISION = re.compile(r" ([us](?:div|rem)) (?:exact )?i(?:3[3-9]|[4-6]\d) ")
UNROLL = ",function(loop-simplify,lcssa,loop-unroll<O3;partial;runtime;upperbound>,instcombine,gvn,simplifycfg,instcombine,early-cse)"


class BadSource(Exception):
    """clang or LLVM refuses the source; what it says is the text."""


def ask(words):
    return subprocess.run(words, capture_output=True, text=True, stdin=subprocess.DEVNULL)


def run(words):
    check(ask(words))


def check(done):
    """Hands on what a program of LLVM has said, where it has not refused the source."""
    if done.returncode:
        raise BadSource(done.stderr)
    sys.stderr.write(done.stderr)


# The files of a program of C, the flags that a compiler takes for them, and how many bytes `malloc` has, where that is said.
Source = namedtuple("Source", "files flags heap", defaults=((), None))


class Compiler:
    """The files of a program as one module, of which texts at several limits can be asked."""

    def __init__(self, source, level, folder, lacks=(), version=None):
        self.level, self.folder, self.llvm = level, folder, version or llvm.found()
        self.clang_level = clang_level = "-O1" if level == "-O0" else level
        sources = [*source.files, os.path.join(HERE, "library.c")]
        made = [os.path.join(folder, f"{k}.ll") for k in range(len(sources))]
        include = ["-I", os.path.join(HERE, "include"), "-I", os.path.join(HERE, "headers")]

        def compile_one(k):
            own = source.flags if k < len(source.files) else [f"-DTTA_HEAP={source.heap}"] if source.heap is not None else []
            return ask([self.llvm.clang, clang_level, *CLANG, *include, *own, sources[k], "-o", made[k]])
        with ThreadPoolExecutor(os.cpu_count() or 1) as workers:
            for done in list(workers.map(compile_one, range(len(sources)))):
                check(done)
        # `lacks` has the operations that the machine lacks, for some of which there are functions.
        self.made, self.linked, self.kept = made, os.path.join(folder, "linked.ll"), [RUN_TIME[1:] + LIBRARY[op] for op in sorted(lacks) if op in LIBRARY]
        self.link()
        self.foresee()

    def link(self):
        run([self.llvm.link, "-S", *self.made, "-o", self.linked])

    def foresee(self):
        """Keeps what the text calls before the passes: mostly it is needed after them too, and they need not run again for it."""
        with open(self.linked, encoding="latin1") as f:
            self.keep(sorted(set(needed(f.read())) - set(self.kept)))

    def add_library(self, name):
        """Compiles another file of the library, and links it with the others."""
        out = os.path.join(self.folder, name + ".ll")
        if out not in self.made:
            run([self.llvm.clang, self.clang_level, *CLANG, os.path.join(HERE, name), "-o", out])
            self.made.append(out)
            self.link()

    def text(self, inline, unroll):
        """The text after the passes: how large a function may be that takes the place of a call, and a body that is repeated."""
        while True:
            text = self.passes(inline, unroll)
            need = sorted(set(needed(text)) - set(self.kept))
            if not need:
                return text
            self.keep(need)

    def keep(self, need):
        """Keeps functions of the library, for which another file of it may have to be compiled."""
        if any(re.search("_f(32|64)$", name) for name in need):
            self.add_library("float.c")
        self.kept += need

    def passes(self, inline, unroll):
        out = os.path.join(self.folder, "made.ll")
        passes = f"internalize,globaldce,default<{self.level[1:]}>,globalopt,globaldce" + (UNROLL if unroll else "")
        limits = [f"-inline-threshold={inline}"] if self.level in ("-O2", "-O3") else []
        if unroll:
            limits += [f"-unroll-threshold={max(unroll, 150)}", f"-unroll-partial-threshold={unroll}", "-unroll-runtime", "-unroll-allow-partial"]
        public = ",".join(["main", *self.kept])
        run([self.llvm.opt, "-S", f"-passes={passes}", "-vectorize-loops=false", "-vectorize-slp=false",
             f"-internalize-public-api-list={public}", *limits, self.linked, "-o", out])
        with open(out, encoding="latin1") as f:
            return f.read()


def needed(text):
    """The functions of the library that the steps of a text call."""
    for kind in DIVISION.findall(text):
        yield RUN_TIME[1:] + kind
    for name in floats.needed(text):
        yield RUN_TIME[1:] + name
