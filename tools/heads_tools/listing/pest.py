"""Heads at observation points as PEST reads them: an output file of the model, its instructions (.ins), and the lines
of the control file that say what was measured."""
from __future__ import annotations

import itertools
import re
from fractions import Fraction
from pathlib import Path

from ..common.text import Problem, counted
from ..common.whole_files import whole_file
from .listing import UNITS_IN_ONE
from .observe import Observation

OUTPUT, INSTRUCTIONS, MEASURED = "observed.out", "observed.ins", "observed.pst"
MOST_LETTERS = 20
FIRST = "heads-tools: observation, middle of its pair, lower head, upper head"
COLUMNS = 22, 46


def names_of(observations: list[Observation]) -> list[str]:
    """A name of 20 letters at most for each, as PEST wants it: small letters, digits, points; no two the same."""
    out: list[str] = []
    for each in observations:
        name = re.sub(r"[^a-z0-9_.]", "_", each.point.name.lower())[:MOST_LETTERS] or "point"
        ends = (f"_{n}" for n in itertools.count(2))
        free = name
        while free in out:
            end = next(ends)
            free = name[: MOST_LETTERS - len(end)] + end
        out.append(free)
    return out


def middle(pair: tuple[int, int]) -> str:
    """The middle of a pair, to half a unit: a number to fit by, and no bound."""
    value = Fraction(sum(pair), 2 * UNITS_IN_ONE)
    return f"{float(value):.12e}"


def write_pest(folder: Path, observations: list[Observation]) -> list[str]:
    """Writes the three files into a folder; what there is to say."""
    kept = [each for each in observations if each.pair is not None and each.point.measured is not None]
    if not kept:
        raise Problem("PEST needs points with a measured head, and none of these has one that the model has a head for")
    names = names_of(kept)
    with whole_file(folder / OUTPUT) as file:
        file.write(f"{FIRST}\n")
        for name, each in zip(names, kept):
            low, high = (f"{float(Fraction(units, UNITS_IN_ONE)):.12e}" for units in each.pair or (0, 0))
            file.write(f"{name:<{COLUMNS[0]}}{middle(each.pair or (0, 0)):>{COLUMNS[1] - COLUMNS[0]}} {low} {high}\n")
    with whole_file(folder / INSTRUCTIONS) as file:
        file.write("pif @\n@heads-tools@\n")
        file.writelines(f"l1 [{name}]{COLUMNS[0] + 1}:{COLUMNS[1]}\n" for name in names)
    with whole_file(folder / MEASURED) as file:
        file.write("# heads-tools: sections of a control file of PEST\n")
        file.write("* observation groups\nheads\n* observation data\n")
        for name, each in zip(names, kept):
            file.write(f"{name:<{COLUMNS[0]}}{float(each.point.measured or 0):.12e} {each.point.weight:g} heads\n")
        file.write(f"* model input/output\n{INSTRUCTIONS} {OUTPUT}\n")
    return [f"written for PEST: {counted(len(kept), 'observation')} in {OUTPUT}, {INSTRUCTIONS} and {MEASURED}"]
