"""A reader of value change dumps, as IEEE 1364 has them."""
# What a keyword ends with, and the keywords whose words say nothing of signals.
END = "$end"
PASSED_OVER = ("$date", "$version", "$timescale", "$comment")


class Wrong(Exception):
    """The text is no dump; what is wrong in it."""


def words_to_end(words):
    """The words up to the end of a keyword."""
    found = []
    for word in words:
        if word == END:
            return found
        found.append(word)
    raise Wrong("a keyword without an end")


def declared(words):
    """The signals of the declarations: for each code the names in their scopes, and how many bits it has. A scope is joined to what it holds
    by a point."""
    scopes, signals = [], {}
    for word in words:
        if word in PASSED_OVER:
            words_to_end(words)
            continue
        rest = words_to_end(words)
        if word == "$enddefinitions":
            return signals
        if word == "$scope":
            scopes.append(rest[1])
        elif word == "$upscope":
            scopes.pop()
        elif word == "$var":
            kind, size, code, name = rest[:4]
            names, width = signals.setdefault(code, ([], int(size)))
            if width != int(size):
                raise Wrong(f"{code} has two sizes")
            names.append(".".join([*scopes, name]))
        else:
            raise Wrong(f"{word} among the declarations")
    raise Wrong("no end of the declarations")


def word_of(digits):
    """The word of binary digits, the highest first, or None where not all are known."""
    return int(digits, 2) if set(digits) <= set("01") else None


def changes(words, signals):
    """What stands behind the declarations: pairs of a time and None, of a code and its digits, and of "$comment" and its words."""
    for word in words:
        if word == "$comment":
            yield word, " ".join(words_to_end(words))
        elif word in ("$dumpvars", "$dumpall", "$dumpon", "$dumpoff", END):
            continue
        elif word[0] == "#":
            yield int(word[1:]), None
        else:
            digits, code = (word[1:], next(words)) if word[0] in "bB" else (word[0], word[1:])
            if code not in signals or not digits or set(digits) - set("01xzXZ") or len(digits) > signals[code][1]:
                raise Wrong(f"{word} {code} is no change")
            yield code, digits


def read(text):
    """The signals by their names, with their codes and widths, and the changes in order."""
    words = iter(text.split())
    signals = declared(words)
    return {name: (code, width) for code, (names, width) in signals.items() for name in names}, changes(words, signals)


def states(text):
    """For each time that stands in the text the time and the digits of each code from then on, up to the next."""
    names, found = read(text)
    now, time = {}, None
    for key, digits in found:
        if isinstance(key, int):
            if time is not None:
                yield names, time, now
            if time is not None and key <= time:
                raise Wrong(f"time {key} comes after {time}")
            time = key
        elif key != "$comment":
            now[key] = digits
    yield names, time, now
