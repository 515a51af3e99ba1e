"""Lists of stresses in MODFLOW's binary files, as FloPy writes them: singles without marks, for each entry layer, row,
column, the package's numbers and its auxiliary ones."""
from __future__ import annotations

import numpy as np

from ..common.spelling import number, quoted_words
from ..common.text import Problem
from .deck import COLUMNS, Entry
from .reading import Reading
from .sources import binary_words, find_file

AUXILIARY = ("AUX", "AUXILIARY")
SINGLE = "<f4"


def binary_entries(reading: Reading, kind: str, name: str, count: int, is_whole_file: bool) -> list[Entry]:
    """The entries of a binary file: of a unit from where it was read up to, else of a file of its own."""
    deck, now = reading.deck, reading.now
    path, _ = find_file(reading.folder, name)
    own = 3 + len(COLUMNS[kind])
    width = own + sum(word.upper() in AUXILIARY for word in quoted_words(deck.options[kind]))
    at, size = 0 if is_whole_file else reading.binary_at.get(name, 0), 4 * width * count
    raw = path.read_bytes()[at:]
    if len(raw) < size or (is_whole_file and len(raw) != size):
        raise Problem(
            f"{path.name} has {len(raw)} bytes for a binary list of {count} entries, and {size} are due: {width}"
            " numbers of 4 bytes for each"
        )
    reading.binary_at[name] = at + size
    values = np.frombuffer(raw, SINGLE, width * count).reshape(count, width)[:, :own]
    cells = values[:, :3]
    if not (np.isfinite(values).all() and (cells == np.round(cells)).all()):
        raise Problem(f"{path.name} is no binary list of {kind}: a layer, row or column isn't whole")
    reading.need(
        f"binary list of {path.name} written as text of up to 9 digits, the shortest that names each value"
    )
    words = [[number(word).text for word in binary_words(row)] for row in values[:, 3:]]
    return [
        Entry((int(cell[0]), int(cell[1]), int(cell[2])), row, now.name, now.at) for cell, row in zip(cells, words)
    ]
