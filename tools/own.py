"""The commands that the script answers itself, each with the function that does it, its forms and what it does. Another command is another
row: help and the reasons of faulty words read this table. The function takes how the script is started, with the options that were given,
and the words after the command, and gives a status."""
import difflib
import importlib
import sys
from collections import namedtuple

import formats

Own = namedtuple("Own", "work forms what")
OWN = [
    Own("explore.explore", ["explore MACHINES -- PROGRAMS"],
        "compiles and runs each program on each machine, and prints a table. The words of the data space of X.program are those of X.input beside "
        "it, and its input those of X.stream, where these files are there. Among the words, --bound N runs at most N steps and cycles in the "
        "place of 1000000000, --vary 'space data {16,64}' makes of each machine one with each of these values in that line, --synth ice40 or --synth lut6 "
        "adds what each core costs by yosys, and --csv asks for values with commas. It ends with 1 where a row has no run that halts or waits, or an output that differs"),
    Own("explore.explore", ["explore --search M -- PROGRAMS"],
        "searches machines like that of M which are smaller or faster for the programs, and keeps those of which none is both smaller and faster "
        "than another. Each is built and run, and outputs what exec does. It writes their texts, with the reason of each change, and a plot into "
        "the folder front, or what --into FOLDER names, and prints a table. It tries 1000 machines, or as many as --steps N says; --seed S "
        "chooses the chances; --latencies lets latencies and delay slots change too; --synth, --bound and --csv are as above"),
    Own("designs.suggest.suggest", ["suggest M P"],
        "what holds the program of P, which may be in C, back on the machine of M: changes of the machine's text that save cycles, most first. "
        "Each was built and run. Pairs of operations are tried as one of your own. --bound N runs at most N steps and cycles"),
    Own("from_c.compile_c", ["c FILE.c .. OUT"],
        "writes the text of a program in C to OUT; docs/C.md says what it takes, and its options"),
    Own("source.front.prompt", ["prompt M P IN", "prompt M P IN STREAM"],
        "opens a session, line by line, over the image of the program of P, by its source: with the lines of P, its variables, and cycles back. "
        "At a terminal a session over an image has a sign, history and editing too; else it is the program's own"),
    Own("depths.depths", ["net --depths N LINKS M IMG IN ..", "net --depths N DEPTHS LINKS M IMG IN .."],
        "the least queues with which cores put out, as circuits of rtl net, all that net N prints of them, as DEPTHS of rtl net; or whether queues "
        "of DEPTHS are enough: it ends with 1 where they are not, and tells which cores they hold up"),
    Own("lint.lint", ["lint P", "lint M P"],
        "tells what is legal in the program of P and most likely wrong, a line each; with the machine of M also which addresses lie outside its data "
        "space. Of a program that is refused it tells all that is. It ends with 0 where it has nothing to say, and else with 1"),
    Own("help.page", ["help", "--help", "-h"], "this page"),
    Own("help.explain", ["explain WHAT NUMBER"],
        "what a number means: WHAT is status, machine, program, image, assembly, links, fault or debug"),
]
# What stands before a command, and what the script tells of itself. These are answered by the script, before any Python.
OPTIONS = [
    (["--proved COMMAND"], "carries out the command by the proved program, which is proved and built first: from nothing in an hour or more"),
    (["--plain COMMAND"], "carries it out by the plain program, which is made of the same sources without their proofs, in half a minute. "
     "Without either, the proved program is taken where it is there and no source is newer, and else the plain one. "
     "The variable TTA_PROGRAM, which is proved or plain, stands for either"),
    (["--with NAME COMMAND"], "carries out the command by the program of the crate tta_with_NAME, which has operations of its own: bits, and those that you add"),
    (["--build"], "builds the programs as fast code, in a minute or two, and prints where they stand; with --proved before it proves them. Plain "
     "programs stand below the checkout, and where that cannot be written, in the user's cache; the variable TTA_BUILD names another folder. "
     "Where a plain program is used again, its fast code is built beside that call; the variable TTA_FAST, which is no, leaves that out"),
    (["--which COMMAND .."], "prints where the program of each command stands, which is built first if it is not there"),
    (["--version"], "the version, the prover that it is proved with, and which program a command would run"),
]
USAGE = 1


def known_words():
    """All first words of commands, and all options."""
    words = [form[0] for form, _ in formats.commands()] + [form.split()[0] for own in OWN for form in own.forms]
    return [*dict.fromkeys(words + [form.split()[0] for forms, _ in OPTIONS for form in forms])]


def no_command(words):
    """Says that the words are no command, and gives the status."""
    print("tta: usage", file=sys.stderr)
    if words:
        near = difflib.get_close_matches(words[0][:100], known_words(), 1)
        hint = f"; is it {near[0]}?" if near else ""
        print(f"  {words[0][:100]!r} is no command{hint}", file=sys.stderr)
    print("  ./tta help lists the commands", file=sys.stderr)
    return USAGE


def main(words):
    """The words are the script, how many options come, the options, and the command."""
    script, count = words[0], int(words[1])
    options, words = words[2:2 + count], words[2 + count:]
    for own in OWN:
        if words and words[0] in (form.split()[0] for form in own.forms):
            module, _, name = own.work.rpartition(".")
            return getattr(importlib.import_module(module), name)([script, *options], words[1:])
    return no_command(words)
