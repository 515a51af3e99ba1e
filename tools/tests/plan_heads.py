"""Exact heads without a plan's wells and with them, of the decks in plan_listing/, solved in fractions by recheck.py's
equations; and the numbers of a plan's listing as they stand in it."""
import os
import random
from fractions import Fraction

from weather_decks import histories


def exact_heads(folder, high="m.nam", seed=1):
    """For each step (period, step) the heads of all cells without the wells and with them, in one weather."""
    from recheck import Model, text_of

    here = os.getcwd()
    os.chdir(folder)
    try:
        low, high = Model("m.nam"), Model(high)
        wells = [[(cell, [rate]) for cell, (rate,) in entries] for entries in low.read_list(text_of("plan.wel"), 1)]
        guesses = [[[Fraction(10)] * 5] * 2 for _ in low.times]
        found = histories(low, high, wells, random.Random(seed), guesses)
        return {(time.period + 1, time.step + 1): heads[:2] for time, heads in zip(low.times, found)}
    finally:
        os.chdir(here)


def write_heads(path, steps, part, changes=()):
    """A table of heads of a run: part 0 without the wells, 1 with them. `changes`: what is added at steps and cells."""
    lines = [
        f"{period},{step},1,1,{cell + 1},{float(head + dict(changes).get((period, step, cell + 1), 0))!r}"
        for (period, step), heads in steps.items()
        for cell, head in enumerate(heads[part])
    ]
    path.write_text("period,step,layer,row,col,head\n" + "\n".join(lines) + "\n")
    return path


def numbers(listing, word):
    """The lines of a listing that begin with a word: step and cell, or step and term, to the texts of both numbers."""
    out, step = {}, None
    for line in listing.read_text().splitlines()[1:]:
        first, *rest = line.split(" ")
        if first == "STEP":
            step = tuple(map(int, rest))
        elif first == word:
            named = " ".join(rest[2:]) if word == "SOURCE" else tuple(map(int, rest[:3]))
            out[step, named] = tuple(rest[:2] if word == "SOURCE" else rest[3:])
    return out
