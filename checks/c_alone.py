"""Parts of `./tta c` that checks/random/c tries alone: each function gives lines on what is wrong."""
import math
import os
import re
import shutil
import sys

import c_runs
import llvm
from constants import Constants
from recursion import FULL
from c_runs import FEW, MACHINES, PROGRAMS, TOP, Wrong
from clang import Source

FLOATS = 100000
# The tool as the script starts it: 0 is how many words the command that follows has beside its first.
COMPILE = [sys.executable, os.path.join(c_runs.TOOL, "compile.py"), "0", "tta"]
# Two quotients and rests of 64 bits: -2 by 1, and 7 by -3.
WIDE_WORDS = "ffffffff\nfffffffe\n00000000\n00000001\n00000000\n00000007\nffffffff\nfffffffd\n"
WIDE = """#include "tta.h"
static int64_t wide(void)
{
    uint64_t high = tta_in();
    return (int64_t)(high << 32 | tta_in());
}
int main(void)
{
    for (int i = 0; i < 2; i++) {
        int64_t a = wide(), b = wide();
        tta_out((uint32_t)(a / b));
        tta_out((uint32_t)(a % b));
    }
    return 0;
}
"""
# A word of the input as a plain char, in the data space, and shifted.
CHAR = """#include "tta.h"
int main(void)
{
    volatile char c = (char)tta_in();
    tta_store(5, (uint32_t)c);
    tta_out(tta_load(5));
    tta_out((uint32_t)(c >> 1));
    tta_halt();
}
"""


def stacks(host, folder):
    """What is wrong with programs whose stack is full: all that they output before is as on the host, then comes a mark, and no word above the
    stack is written; with room enough, and without the check, they are as on the host."""
    source, wrong = os.path.join(PROGRAMS, "full_stack.c"), []
    wanted = host.output(Source([source]), None, folder)
    for machine in (*MACHINES, FEW):
        for stack, option in ((20, []), (60, []), (200, []), (2000, []), (2000, ["--unchecked-stack"])):
            text, what = os.path.join(folder, "s.program"), f"full_stack.c, {os.path.basename(machine)}, {stack} words {' '.join(option)}"
            words = [*COMPILE, "--layout", "--machine", machine, "--stack", str(stack), *option, source, text]
            status, printed, error = c_runs.answer(words)
            found = re.search(rf"a stack of {stack} words: .* at (\d+)", printed)
            if status or not found:
                wrong.append(f"{what}: status {status}, {error}")
                continue
            base, lines = int(found[1]), c_runs.stepped(text, None)
            given = [line for line in lines if line.isdigit()]
            above = [line for line in lines if line.startswith("mem ") and int(line.split()[1]) >= base + stack]
            is_full = given[-1:] == [str(FULL)]
            if given[:len(given) - is_full] != wanted[:len(given) - is_full] or is_full != (stack < 2000) or above or not is_full and given != wanted:
                wrong.append(f"{what}: {len(given)} words, the last {given[-1:]}, {len(above)} above the stack")
            try:
                c_runs.compiled(machine, text, None, folder, lines)
            except Wrong as e:
                wrong.append(f"{what}: {e}")
    return wrong


def several_stacks(host, folder):
    """What is wrong with programs of several circles of calls on machines whose data space has little room for their stacks."""
    source, wrong = Source([os.path.join(PROGRAMS, "several_stacks.c")]), []
    wanted = host.output(source, None, folder)
    with open(MACHINES[-1], encoding="utf-8") as f:
        large = f.read()
    for room in (177, 240, 299, 300, 301, 1001):
        machine = os.path.join(folder, "room.machine")
        with open(machine, "w") as f:
            f.write(large.replace("space data 65536", f"space data {room}"))
        for level in ("-O0", "-O2"):
            try:
                [(_, text)] = c_runs.texts(source, level, [None], folder, machine)
                lines = c_runs.stepped(text, None, machine=machine)
                c_runs.compare(lines, wanted, level)
                c_runs.compiled(machine, text, None, folder, lines)
            except Wrong as e:
                wrong.append(f"several_stacks.c, {room} words of data, {level}: {e}")
    return wrong


def host_header(folder):
    """What is wrong with tta.h for the host's compilers, and with plain char, which has no sign unless it is asked for one."""
    path, given = os.path.join(folder, "char.c"), os.path.join(folder, "char.stream")
    for name, what in ((path, CHAR), (given, "000000c8\n")):
        with open(name, "w") as f:
            f.write(what)
    for option, wanted in (("-funsigned-char", ["200", "100"]), ("-fsigned-char", ["4294967240", "4294967268"]), (None, ["200", "100"])):
        source = Source([path], [option] if option else [])
        [(_, text)] = c_runs.texts(source, "-O2", [None], folder)
        found = {"machine": [line for line in c_runs.stepped(text, given) if line.isdigit()]}
        for compiler in filter(shutil.which, ("gcc", "clang") if option else ()):
            made = os.path.join(folder, "char")
            own = ["-std=c99", "-pedantic", "-Wall", "-Wextra", "-Werror", "-I", os.path.join(c_runs.TOOL, "include"), *source.flags]
            _, _, error = c_runs.answer([compiler, *own, path, "-o", made])
            with open(given) as words:
                found[compiler] = error or c_runs.answer([made], stdin=words)[1].split()
        yield from (f"host_header: {name} {option} gives {words}, and not {wanted}" for name, words in found.items() if words != wanted)


def versions_told(folder):
    """What is wrong with the line that tells of a version of LLVM that is not taken."""
    with open(os.path.join(folder, "v.c"), "w") as f:
        f.write("int main(void) { return 0; }\n")
    cases = [({"TTA_LLVM": "13"}, 0, "TTA_LLVM is 13: the versions 14 to 22 of LLVM are taken"), ({"TTA_LLVM": "new"}, 0, "TTA_LLVM is new"),
             ({"TTA_LLVM": ""}, 9, "clang is of version 9, which is too old"), ({"TTA_LLVM": ""}, 99, "clang is of version 99, which is too new"),
             ({"TTA_LLVM": "17"}, 16, "TTA_LLVM is 17, and clang-17, llvm-link-17, opt-17 not found"),
             ({"TTA_LLVM": ""}, None, "clang, llvm-link, opt not found")]
    for k, (more, number, wanted) in enumerate(cases):
        path = os.path.join(folder, f"path{k}")
        os.mkdir(path)
        for name in llvm.NEEDED if number else ():
            with open(os.path.join(path, name), "w") as f:
                f.write(f"#!/bin/sh\necho Debian clang version {number}.0.1\n")
            os.chmod(os.path.join(path, name), 0o755)
        status, _, error = c_runs.answer([*COMPILE, "v.c", "v.program"], cwd=folder, env={**os.environ, **more, "PATH": path})
        if status != 1 or not error.startswith(f"tta c: {wanted}") or error.count("\n") != 1:
            yield f"version {number} {more}: status {status}, {error!r}"


def narrow_product(folder):
    """What is wrong with a checked product of 24 bits, which is told by its first word and whether it has overflowed."""
    for words, wanted in (("00001000 00001000", ["0", "1"]), ("00000fff 00000800", ["8386560", "0"]), ("00ffffff 00000005", ["16777211", "0"])):
        given = os.path.join(folder, "narrow.stream")
        with open(given, "w") as f:
            f.write(words.replace(" ", "\n") + "\n")
        [(_, text)] = c_runs.texts(Source([os.path.join(PROGRAMS, "narrow_product.ll")]), "-O2", [None], folder)
        found = [line for line in c_runs.stepped(text, given) if line.isdigit()]
        if found != wanted:
            yield f"narrow_product.ll: {words} give {found}, and not {wanted}"


def library_frames(folder):
    """What is wrong with a function of the library that calls another which a machine lacks, where both keep variables in memory: at -O0."""
    for ops in ([], ["eq"], ["ltu", "or"], ["mul", "shl"]):
        with open(FEW, encoding="utf-8") as f:
            text = f.read().replace("op ALU lt 1\n", "".join(f"op ALU {op} 1\n" for op in ["lt", *ops]))
        machine, source, given = (os.path.join(folder, name) for name in ("frames.machine", "frames.c", "frames.stream"))
        for path, what in ((machine, text), (source, WIDE), (given, WIDE_WORDS)):
            with open(path, "w") as f:
                f.write(what)
        [(_, made)] = c_runs.texts(Source([source]), "-O0", [None], folder, machine)
        found = [int(line) - (int(line) >> 31 << 32) for line in c_runs.stepped(made, given) if line.isdigit()]
        if found != [-2, 0, -2, 1]:
            yield f"library_frames: with {ops}: {found}, and not {[-2, 0, -2, 1]}"


def quotients():
    """What is wrong with signed quotients and rests of constants of 8 bits, which only LLVM 14 leaves to the tool."""
    wrong = []
    for a, b in ((a, b) for a in range(-128, 128) for b in range(-128, 128) if b):
        found = [Constants().computed(op, None, [a & 255, b & 255], 8) & 255 for op in ("sdiv", "srem")]
        wanted = [math.trunc(a / b) & 255, int(math.fmod(a, b)) & 255]
        wrong += [f"quotients: {a} and {b} give {found}, and not {wanted}"] if found != wanted else []
    return wrong[:5]


def reasons(folder):
    """What is wrong with the line of C that the reason of a refusal shows, where the file of lines stands beside the program."""
    with open(os.path.join(folder, "l.c"), "w") as f:
        f.write('#include "tta.h"\nint main(void) {\n    tta_out(tta_load(3) * 5);\n    tta_out(tta_load(4) / tta_load(5));\n}\n')
    tta = os.path.join(TOP, "tta")
    c_runs.answer([tta, "c", "-g", "l.lines", "l.c", "l.program"], cwd=folder)
    status, _, error = c_runs.answer([tta, "build", os.path.join(TOP, "examples", "three_buses.machine"), "l.program", "l.image"], cwd=folder)
    lines = [line.strip() for line in error.split("\n")]
    wanted = "l.c:4: tta_out(tta_load(4) / tta_load(5));"
    return [] if status == 5 and any(re.sub(r" +", " ", line) == wanted for line in lines) else [f"reasons: status {status}, {lines}"]


def floats(host, folder):
    """What is wrong with tools/c/float.c beside the host's floating point: some millions of results."""
    program = os.path.join(folder, "floats")
    source, own = os.path.join(PROGRAMS, "floats_on_host.c"), ["-O2", "-w", "-fwrapv", "-ffp-contract=off", "-I", c_runs.TOOL]
    status, _, error = c_runs.answer([host.compiler, *own, source, "-o", program, "-lm"])
    if status:
        return [f"floats_on_host.c: {error.splitlines()[0]}"]
    status, printed, _ = c_runs.answer([program, str(FLOATS)])
    return [f"floats_on_host.c: {line}" for line in printed.splitlines()] if status else []
