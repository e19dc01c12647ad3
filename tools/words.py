"""Looks at the words of a command before the program is built: whether they are of one of its forms, and whether the files that they name
can be read and written. What is wrong is told as the program tells it, with its status."""
import re
import sys

import files
import formats
import reason

USAGE, READ_FAULT, WRITE_FAULT = 1, 13, 14
BOUND = (15, 0, 2**48 - 1)
# The numbers among the words: how many digits they have at most, and their least and greatest value.
NUMBERS = {"SEED": (10, 0, 2**32 - 1), "LINES": (5, 1, 20_000)}
ROUNDS = (7, 0, 2**20)
CORES = 8
# How many words a queue may have.
DEPTHS = [2**k for k in range(1, 17)]
# The names of the words that are files to be read.
READ = ("M", "P", "A", "IMG", "IN", "SCRIPT", "STREAM", "LINKS")


def is_number(word, limits):
    digits, least, most = limits
    return re.fullmatch("[0-9]+", word) is not None and len(word) <= digits and least <= int(word) <= most


def are_depths(word, cores):
    """Whether a word says how many words the queues of so many cores have: one number for all, or one for each."""
    numbers = word.split(",")
    return len(numbers) in (1, cores) and all(is_number(number, (5, 2, 2**16)) and int(number) in DEPTHS for number in numbers)


def takes(form, words):
    """Whether words are of a form, in which each name in capitals stands for a word."""
    if len(form) != len(words):
        return False
    for name, word in zip(form, words):
        if name == "DEPTHS" and not are_depths(word, form.count("IMG")):
            return False
        limits = NUMBERS.get(name) or (name == "N" and form[0] == "net" and ROUNDS) or (name in ("N", "K") and BOUND)
        if limits and not is_number(word, limits) or not name.isupper() and name != word:
            return False
    return True


def whole(form, words):
    """A form with names for all words, where it ends with `..`."""
    if form[-1] != "..":
        return form
    first = len(form) - 4
    cores = max(1, min(CORES, (len(words) - first) // 3))
    return form[:first] + form[first:first + 3] * cores


def counted(words):
    """The words of a command as an ending counts them: those of `rtl net` as those of `net`."""
    return words[1:] if words[:2] == ["rtl", "net"] and len(words) > 3 else words


def form_of(words):
    """The form that words are of, or None."""
    return next((form for form in (whole(form, words) for form, _ in formats.commands()) if takes(form, words)), None)


def is_text(word):
    """Whether the bytes of a word are UTF-8, as the program asks."""
    return not any("\udc80" <= c <= "\udcff" for c in word)


def refusal(words):
    """The status of what is wrong with the words of a command and the line of the program, or None."""
    form = form_of(words)
    if not form or not all(map(is_text, words)):
        return USAGE, "usage"
    for at, (name, word) in enumerate(zip(form, words)):
        if name in READ and files.why_not_read(word):
            return READ_FAULT, f"read fault: word {at - len(words) + len(counted(words))}"
    for name, word in zip(form, words):
        if name == "OUT" and files.why_not_written(word):
            return WRITE_FAULT, "write fault"
    return None


def main(words):
    found = refusal(words)
    if not found:
        return 0
    status, line = found
    print(f"tta: {line}", file=sys.stderr)
    for below in reason.reason(status, line, words):
        print(f"  {below}", file=sys.stderr)
    return status
