"""Lines of many cells, made in bulk: a million pairs of heads take two seconds."""
from __future__ import annotations

from itertools import chain
from typing import IO

import numpy as np

UNITS_IN_ONE = 10**9
LINES_AT_ONCE = 65_536


def write_cells(file: IO[str], begin: str, comma: str, cells: np.ndarray, *heads: np.ndarray) -> None:
    """A line for each cell: `begin`, its layer, row and column, and its heads, as its lower and its upper one, with
    nine decimals."""
    line = begin.replace("%", "%%") + comma.join(["%d"] * 3 + ["%s%d.%09d"] * len(heads)) + "\n"
    for first in range(0, len(cells), LINES_AT_ONCE):
        part = slice(first, first + LINES_AT_ONCE)
        columns = [*cells[part].T.tolist(), *chain.from_iterable(decimals(each[part]) for each in heads)]
        file.write(line * len(columns[0]) % tuple(chain.from_iterable(zip(*columns))))


def decimals(units: np.ndarray) -> list[list]:
    """Signs, whole parts and decimals of heads in 10^-9."""
    whole, part = np.divmod(np.abs(units), UNITS_IN_ONE)
    return [np.where(units < 0, "-", "").tolist(), whole.tolist(), part.tolist()]
