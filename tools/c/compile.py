"""C to three-address code: `tta c [OPTION ..] FILE.c .. OUT.program`. docs/C.md says what is taken, options.py what the words mean.

Its words are a number, the script that runs commands with as many options for it, and then those of the command. It ends with 0 if all
was done, 1 for faulty words, 2 where clang refuses the source, and 3 where something in it is not taken; then nothing is written. With
--run it ends as the run does."""
import os
import signal
import subprocess
import sys
import tempfile

sys.dont_write_bytecode = True
import clang
import llvm
import options
import translate
from ir import Refused
from machine import Machine

USAGE, BAD_C, UNSUPPORTED = 1, 2, 3
# The limits of LLVM's measure for the functions that take the place of calls, the first where nothing speaks against it.
INLINE = [1000, 225, 75, 25, 0]
CYCLES = str(1 << 40)


def stop(status, text):
    print(f"tta c: {text}", file=sys.stderr)
    raise SystemExit(status)


def attempts(o):
    """How the program is tried, the fastest code first: a level, and the limit for functions that take the place of calls."""
    level = o.level or "-O2"
    if o.inline is not None:
        return [(level, o.inline)]
    return [(level, limit) for limit in (INLINE if level in ("-O2", "-O3") else INLINE[:1])] + ([] if o.level else [("-Os", 0)])


def program_of(o, machine, folder):
    """The program and the lines of its text, at the first attempt that has room."""
    known, compilers, too_long = [f"-DTTA_HAS_{op}=1" for op in sorted(machine.operations)], {}, None
    tried = attempts(o)
    for level, inline in tried:
        if level not in compilers:
            compilers[level] = clang.Compiler(clang.Source(o.files, [*known, *o.flags], o.heap), level, folder, machine.lacks)
        text = compilers[level].text(inline, o.unroll if o.unroll is not None else 60 if level == "-O3" else 0)
        # What is hardly shorter than a text that was too long is not worked through again.
        if too_long and len(text) > 0.9 * too_long[0]:
            continue
        if o.keep:
            write(o.keep, text)
        try:
            made = translate.Program(text, machine, o.cell, translate.Room(o.base, o.stack, o.stack_checked))
            program, places = made.text()
        except translate.TooLong as e:
            too_long = len(text), e
            continue
        if (level, inline) == tried[-1] or machine.holds_code(made.steps):
            return made, program, places
    raise too_long[1]


def write(path, text):
    try:
        with open(path, "w", encoding="latin1") as f:
            f.write(text)
    except OSError as e:
        stop(USAGE, f"{path} cannot be written: {e.strerror}")


def carry_out(tool, o, program):
    """Builds the program and runs it, as the commands do."""
    with tempfile.TemporaryDirectory() as folder:
        text, image = o.out or os.path.join(folder, "c.program"), os.path.join(folder, "c.image")
        if not o.out:
            write(text, program)
        built = subprocess.run([*tool, "build", o.machine, text, image])
        if built.returncode:
            return built.returncode
        data, bound, *stream = o.run or [os.devnull, CYCLES]
        return subprocess.run([*tool, "run", o.machine, image, data, bound, *stream]).returncode


def options_of(words):
    """The options, where the words are right and the programs that this needs are there."""
    try:
        o = options.Options(words)
    except options.Faulty as e:
        stop(USAGE, e)
    missing = llvm.missing()
    if missing:
        stop(USAGE, missing)
    return o


def not_taken(where, text):
    print(f"{where}: not taken: {text}", file=sys.stderr)
    raise SystemExit(UNSUPPORTED)


def error_of_tool(e):
    """Where and how this tool failed, in words."""
    at = e.__traceback__
    while at.tb_next:
        at = at.tb_next
    where = f"{os.path.basename(at.tb_frame.f_code.co_filename)}:{at.tb_lineno}"
    return f"an error of this tool in {where}, {type(e).__name__}: {e}"


def compiled(o):
    """The program, its text, and the lines of C that it is of."""
    try:
        machine = Machine(o.machine)
        machine.frame = machine.frame if o.frame is None else o.frame
        with tempfile.TemporaryDirectory() as folder:
            return program_of(o, machine, folder)
    except clang.BadSource as e:
        sys.stderr.write(str(e))
        raise SystemExit(BAD_C)
    except Refused as e:
        not_taken(e.where or o.files[0], e.text)
    except OSError as e:
        stop(USAGE, f"{e.filename or o.files[0]}: {e.strerror}")
    except Exception as e:
        # What nobody has thought of is told in a line too, and nothing is written.
        not_taken(o.files[0], error_of_tool(e))


def main():
    signal.signal(signal.SIGPIPE, signal.SIG_DFL)
    sys.setrecursionlimit(20000)
    count, *words = sys.argv[1:]
    tool, words = words[:1 + int(count)], words[1 + int(count):]
    o = options_of(words)
    made, program, places = compiled(o)
    if o.out:
        write(o.out, program)
    if o.lines:
        write(o.lines, "".join(f"{n} {place}\n" for n, place in enumerate(places, 1) if place))
    if o.layout:
        print("\n".join(made.told()))
    if o.run is not None:
        return carry_out(tool, o, program)
    print(f"lines {len(places)} data {made.layout.top} frame {made.frame}")
    return 0


if __name__ == "__main__":
    sys.exit(main())
