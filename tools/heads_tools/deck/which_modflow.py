"""Which name files are of MODFLOW 6."""
from __future__ import annotations

from pathlib import Path

from ..common.text import read_text

MOST_LETTERS = 4000
FIRST_BLOCKS = ("OPTIONS", "TIMING", "PACKAGES", "MODELS")


def is_simulation(nam: Path) -> bool:
    """Whether a file is one of MODFLOW 6: by its name, or by the block with which it begins."""
    if nam.name.lower().endswith("mfsim.nam"):
        return True
    lines = (line.split() for line in read_text(nam)[:MOST_LETTERS].split("\n"))
    first: list[str] = next((words for words in lines if words and not words[0].startswith(("#", "!", "//"))), [])
    return len(first) > 1 and first[0].upper() == "BEGIN" and first[1].upper() in FIRST_BLOCKS
