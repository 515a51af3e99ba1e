"""How large a deck is."""
from __future__ import annotations

from pathlib import Path

from ..common.text import Problem
from .grid_files import read_dis
from .name_file import read_names
from .reading import Reading


def size_of(nam: Path) -> tuple[int | None, int]:
    """The count of a model's time steps, where its DIS can be read, and that of its cells."""
    reading = Reading(nam)
    try:
        read_names(reading)
        read_dis(reading)
    except (Problem, IndexError, ValueError, KeyError):
        return None, 0
    return sum(p.nstp for p in reading.deck.periods) or None, reading.deck.cells
