"""Builds the plain program of a crate in a folder, and says so. Its words are the crate, the folder, the profile, if it is not the quick
one, and `beside` where the build goes on beside what its user does: then it gives way to all else, and to a build that is under way."""
import os
import sys

sys.path.insert(0, os.path.join(os.path.dirname(os.path.abspath(__file__)), "plain"))
from build import FOR_SPEED, QUICKLY, CannotBuild, build

import ending
import units

CANNOT_BUILD = 70
TAKES = {QUICKLY: "half a minute", FOR_SPEED: "a minute or two"}
BESIDE = "beside"
# The priority of a build beside its user: the lowest.
LOWEST = 19


class UnderWay(Exception):
    """Another call builds in the folder at this moment."""


def give_up():
    raise UnderWay


def beside(crate, folder, profile):
    """Builds for calls to come. No key of the terminal and no end of the session stops it, and nobody is told what comes of it."""
    os.setsid()
    os.nice(LOWEST)
    try:
        build(crate, folder, profile, give_up)
    except (UnderWay, CannotBuild):
        return CANNOT_BUILD
    return 0


def main(words):
    if words[3:] == [BESIDE]:
        return beside(*words[:3])
    crate, folder, profile = (*words, QUICKLY)[:3]
    try:
        units.check(crate)
    except units.Faulty as error:
        ending.say(str(error))
        return CANNOT_BUILD
    ending.say(f"building the plain program, of the same sources without their proofs, in {TAKES[profile]}; --proved before a command asks for the proved one")
    try:
        build(crate, folder, profile, lambda: ending.say("another call builds it at this moment: waiting for its end"))
    except CannotBuild as error:
        ending.say(str(error).rstrip("\n"))
        return CANNOT_BUILD
    return 0
