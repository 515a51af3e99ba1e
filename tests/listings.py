"""The lines that the program writes, for the scripts that read them: listings, views, and what other commands put.

All texts are bytes. A head is a whole number of units of 10^-9, a flow is a fraction; of both there are the lower and
the upper one. A cell is its layer, row and column, a time the number of a stress period and of a time step in it.
"""
import re
from fractions import Fraction

CELL = rb"\d+ \d+ \d+"
HEAD = rb"HEAD (%s) (-?\d+\.\d{9}) (-?\d+\.\d{9})" % CELL
FLOWS = rb"-?\d+\.\d{9,27} -?\d+\.\d{9,27}"
TERM = rb"(?:STORAGE|CONSTANT HEAD|WELLS|DRAINS|RIVER LEAKAGE|HEAD DEP BOUNDS|RECHARGE|ET)"
FLOW = rb"(?:IN|OUT) %s|ZONE \d+ \d+" % TERM

# The kinds of lines, a letter each.
LINES = {
    "F": rb"HEADS 2 DIGITS \d+ UNIT -?\d+(?: TO)?", "S": rb"STEP (\d+) (\d+)", "H": HEAD,
    "I": rb"IN %s %s" % (FLOWS, TERM), "O": rb"OUT %s %s" % (FLOWS, TERM), "Z": rb"ZONE \d+ \d+ %s" % FLOWS,
    "E": rb"END", "M": rb"MODEL [!-~]+", "R": rb"REFUSED \d+ [A-Za-z]+ [!-~]+ \d+(?: %s)?" % CELL,
    "U": rb"UNFINISHED \d+ \d+", "D": rb"READFAULT", "C": rb"CERTIFIED",
    "N": rb"NOBOUND 2[1-7] [A-Za-z]+ \d+ \d+ (?:%s|%s)" % (CELL, FLOW),
    "X": rb"NOT CERTIFIED \d+ \d+ (?:%s (?:LOW|HIGH)|%s)" % (CELL, FLOW),
    "V": rb"WATCH (\d+) (\d+)", "T": rb"FILE p\.[a-z]{3}", "W": rb"[-\w().]+(?: [-\w().]+)*",
}
KINDS = {kind: re.compile(form) for kind, form in LINES.items()}


def kinds(text):
    """The kinds of a text's lines; '?' for a line of no kind or without an end."""
    if text[-1:] != b"\n":
        return "?"
    return "".join(next((kind for kind, form in KINDS.items() if form.fullmatch(line)), "?")
                   for line in lines_of(text))


def are_views(text):
    """Whether a text is of whole views alone."""
    return text == b"" or re.fullmatch("(?:VH+)+", kinds(text)) is not None


def lines_of(text):
    """The whole lines of a text, without their ends."""
    return text.split(b"\n")[:-1]


def units(head):
    return int(head.replace(b".", b""))


def numbers(words):
    return tuple(map(int, words))


class Step:
    """The lines of a step, or of a view, below its first one."""

    def __init__(self, time):
        self.time, self.heads, self.terms = time, {}, {}

    def take(self, line):
        """Takes a line, and says whether it is one of heads or of a term."""
        words = line.split(b" ")
        if words[0] == b"HEAD":
            self.heads[numbers(words[1:4])] = units(words[4]), units(words[5])
        elif words[0] in (b"IN", b"OUT"):
            self.terms[b" ".join([words[0], *words[3:]]).decode()] = tuple(Fraction(word.decode())
                                                                           for word in words[1:3])
        return words[0] in (b"HEAD", b"IN", b"OUT")

    def widths(self):
        return [upper - lower for lower, upper in self.heads.values()]


def steps_of(text, first=b"STEP"):
    """The steps of a listing, in order; with WATCH the views in a text of views."""
    found = []
    for line in lines_of(text):
        word, _, time = line.partition(b" ")
        if word == first:
            found.append(Step(numbers(time.split())))
        elif found:
            found[-1].take(line)
    return found


def without_zones(text):
    return b"".join(line + b"\n" for line in lines_of(text) if not line.startswith(b"ZONE "))
