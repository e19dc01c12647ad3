"""The words of `explore --search`: what they ask for, or what is wrong with them, which is told before anything is built."""
import os
from collections import namedtuple

import explore
import files
import words as command_words
from designs import synth

Asked = namedtuple("Asked", "machine programs steps seed into bound latencies flow as_csv")
STEPS, SEED, INTO = "1000", "1", "front"
MOST_STEPS = 1_000_000
# The options with a value, and the least and greatest of those that are numbers.
VALUES = {"--steps": (7, 1, MOST_STEPS), "--seed": command_words.NUMBERS["SEED"], "--bound": command_words.BOUND, "--into": None, "--synth": None}
FLAGS = ("--search", "--latencies", "--csv")


def value_of(word, value):
    """The value after an option, which is refused where it is none."""
    limits = VALUES[word]
    if value is None:
        raise explore.Faulty(f"{word} takes a word after it")
    if limits and not command_words.is_number(value, limits):
        raise explore.Faulty(f"{word} takes a number from {limits[1]} to {limits[2]}, and not {value!r}")
    if word == "--synth" and value not in synth.FLOWS:
        raise explore.Faulty(f"--synth takes {' or '.join(synth.FLOWS)}, and not {value!r}")
    return value


def parts_of(words):
    """The names among words, and the options."""
    names, given = [], {"--steps": STEPS, "--seed": SEED, "--bound": explore.BOUND, "--into": INTO, "--synth": None}
    words = iter(words)
    for word in words:
        if word in VALUES:
            given[word] = value_of(word, next(words, None))
        elif word in FLAGS:
            given[word] = True
        elif word.startswith("--") and word != "--":
            raise explore.Faulty(f"explore --search has no option {word}")
        else:
            names.append(word)
    return names, given


def check_folder(folder):
    """Refuses a folder that cannot be written, or has something in it."""
    if os.path.isdir(folder):
        if os.listdir(folder):
            raise explore.Faulty(f"--into: the folder {folder} is not empty; another name keeps what is there")
        return
    why = files.why_not_written(folder)
    if why or os.path.exists(folder):
        raise explore.Faulty(f"--into: the folder {folder} cannot be made: {why or 'there is a file of this name'}")


def asked_by(words):
    """What the words ask for."""
    names, given = parts_of(words)
    at = names.index("--") if "--" in names else 0
    machines, programs = names[:at], list(dict.fromkeys(names[at + 1:]))
    if len(machines) != 1 or not programs:
        raise explore.Faulty("explore --search takes one machine, then --, then programs")
    for path in machines + programs:
        if not os.path.isfile(path):
            raise explore.Faulty(f"explore: there is no file {path}")
    check_folder(given["--into"])
    return Asked(machines[0], programs, int(given["--steps"]), int(given["--seed"]), given["--into"], given["--bound"],
                 bool(given.get("--latencies")), given["--synth"], bool(given.get("--csv")))
