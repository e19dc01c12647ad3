"""What is wrong with the words of `rtl`: which one is missing, unknown, there twice or out of order. The forms alone would leave that to be found."""
from causes import near

MARKS = ("faults", "modules", "rom=file", "rom=words")
LONGEST = 120


def of(words):
    """Lines on the words of a command that is no form of `rtl`, or none."""
    if words[1:2] == ["net"]:
        return ["`rtl net` takes DEPTHS and LINKS, and then M, IMG and IN of each of one to eight cores"]
    if len(words) < 3:
        return [f"{'no word is' if len(words) == 1 else 'one word is'} given, and a machine and an image or a program have to stand behind `rtl`"]
    marks = words[3:]
    for mark in marks:
        if mark not in MARKS:
            meant = near.nearest(mark, MARKS)
            return [f"{mark[:LONGEST]!r} is no word that may stand behind the machine and its code{f'; is it {meant}?' if meant else ''}"]
    twice = next((mark for mark in marks if marks.count(mark) > 1), None)
    if twice:
        return [f"{twice!r} stands there twice"]
    if "rom=words" in marks:
        return ["`rom=words` stands alone behind the machine and its code: the words of the code are the same with the other words"]
    return ["`rom=file` stands last, behind `faults` and `modules`"]
