#!/usr/bin/env python3
"""Compares the listings of the models in this folder with their known answers, in exact fractions.

    python3 compare_known.py [FOLDER]..     each with m.heads (of `heads-tools run m.nam`) and expect.csv; all where left out

An exact answer has to lie between the lower and the upper head; a published one within so much of them as expect.csv says.
"""
import csv
import sys
from fractions import Fraction
from pathlib import Path


def pairs(listing):
    """The lower and the upper head of each (period, step, layer, row, col)."""
    out, step = {}, ()
    for line in listing.read_text().split("\n"):
        words = line.split()
        if words[:1] == ["STEP"]:
            step = tuple(words[1:3])
        elif words[:1] == ["HEAD"]:
            out[step + tuple(words[1:4])] = (Fraction(words[4]), Fraction(words[5]))
    return out


def compare(folder):
    """Whether all answers are where they have to be; prints what they come to."""
    found, exact, wrong, farthest = pairs(folder / "m.heads"), 0, 0, Fraction(0)
    rows = list(csv.DictReader((folder / "expect.csv").open()))
    for row in rows:
        low, high = found[tuple(row[k] for k in ("period", "step", "layer", "row", "col"))]
        head, within = Fraction(row["head"]), Fraction(row["within"])
        away = max(low - head, head - high, Fraction(0))
        exact += within == 0
        wrong += away > within
        farthest = max(farthest, away)
    width = max(high - low for low, high in found.values())
    print(f"{folder.name}: {len(rows)} answers, {exact} of them exact; {wrong} not where they have to be; "
          f"the farthest from its pair by {float(farthest):.3g}; widest pair {float(width):.3g}")
    return not wrong


def main():
    top = Path(__file__).resolve().parent
    folders = [Path(w) for w in sys.argv[1:]] or sorted(f.parent for f in top.glob("*/expect.csv"))
    lacking = [f.name for f in folders if not (f / "m.heads").is_file()]
    if lacking:
        sys.exit(f"no m.heads in {', '.join(lacking)}: `heads-tools run {lacking[0]}/m.nam` first")
    sys.exit(not all([compare(f) for f in folders]))


if __name__ == "__main__":
    main()
