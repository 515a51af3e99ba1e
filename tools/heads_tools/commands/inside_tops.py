"""What `inside` says of heads below the tops of their cells: those that the deck gives, and those of a listing that
lies beside it, where `heads check` certifies it."""
from __future__ import annotations

from fractions import Fraction
from pathlib import Path

import numpy as np

from ..common.spelling import exact
from ..common.text import Problem, counted
from ..deck.model import Model
from ..listing.below_top import ALL_FULL, BelowTop
from ..listing.listing import read_listing
from ..program.verdict import check_listing

UNKNOWN = (
    "whether heads lie below the tops of their cells is said by `heads-tools run` and `heads-tools look --name`"
)
MOST_PAIRS = 2_000_000


def tops_lines(nam: Path, model: Model) -> list[str]:
    return [f"tops: {line}" for line in [*given_lines(model), *listed_lines(nam, model)]]


def given_heads_of(model: Model) -> dict[tuple[int, int, int], Fraction]:
    """The least head that the deck gives to each cell whose head isn't solved for: STRT where IBOUND is below 0, and
    CHD."""
    deck, out = model.deck, {}
    for k, i, j in (np.argwhere(model.ibound < 0) + 1).tolist():
        out[k, i, j] = Fraction(deck.strt[k - 1].exact((i - 1) * deck.ncol + j - 1))
    entries = [e for entries in deck.lists.get("CHD", []) for e in entries or []]
    for entry in (e for e in entries if model.ibound[tuple(n - 1 for n in e.cell)] != 0):
        heads = [Fraction(exact(word)) for word in entry.words[:2]]
        out[entry.cell] = min([*heads, *([out[entry.cell]] if entry.cell in out else [])])
    return out


def given_lines(model: Model) -> list[str]:
    deck, given = model.deck, given_heads_of(model)
    top = lambda cell: Fraction(deck.top_of(cell[0] - 1).exact((cell[1] - 1) * deck.ncol + cell[2] - 1))
    below = [cell for cell, head in given.items() if head < top(cell)]
    if not below:
        return []
    first = " ".join(map(str, min(below)))
    return [
        f"in {len(below)} of {counted(len(given), 'cell')} with a given head (IBOUND below 0, CHD) that head lies "
        f"below the cell's top, first in {first} (layer row column): there the aquifer isn't confined, and the model "
        "takes it as full"
    ]


def listed_lines(nam: Path, model: Model) -> list[str]:
    """What a listing beside the deck says, if it is one of this model."""
    path, unknown = nam.with_suffix(".heads"), UNKNOWN
    if not path.is_file():
        return [unknown]
    try:
        listing = read_listing(path)
        if not listing.is_whole or listing.is_span or len(listing.cells) * len(listing.steps) > MOST_PAIRS:
            return [unknown]
        if not check_listing(nam, listing).is_certified:
            return [f"{path.name} isn't certified as a listing of this model; {unknown}"]
        return [f"{path.name}, certified: {line}" for line in BelowTop(model.deck, listing).sentences() or [ALL_FULL]]
    except Problem:
        return [unknown]
