"""A listing of one step, whose terms are as wide as they can be: what `heads check` needs to test the heads alone."""
from __future__ import annotations

from pathlib import Path

import numpy as np

from ..common.text import decimal_text
from ..common.whole_files import whole_file
from .cell_lines import write_cells

WIDE = 8 * 10**37


def write_wide_listing(
    path: Path, digits: int, unit: int, cells: np.ndarray, low: np.ndarray, high: np.ndarray, names: list[str]
) -> None:
    """A listing of one step, in a folder of heads-tools' own, with terms as wide as they can be."""
    zero, wide = (decimal_text(units, digits + 9) for units in (0, WIDE))
    with whole_file(path, is_own=True) as file:
        file.write(f"HEADS 2 DIGITS {digits} UNIT {unit}\nSTEP 1 1\n")
        write_cells(file, "HEAD ", " ", cells, low, high)
        file.writelines(f"{word} {zero} {wide} {name}\n" for word in ("IN", "OUT") for name in names)
        file.write("END\n")
