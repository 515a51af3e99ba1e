"""A line of a deck that a refusal names."""
from __future__ import annotations

from dataclasses import dataclass
from pathlib import Path

from ..common.marks import plain
from ..common.spelling import NUMBER
from ..common.text import on_disk, read_raw, words
from ..deck.deck import COLUMNS
from ..deck.names import kind_of


@dataclass
class Spot:
    """A line of a deck: its file, its number, its text, the package that the file belongs to, and what is to be said of
    the file where its text isn't plain."""

    file: str
    line: int
    text: str
    kind: str
    lines: list[str]
    due: str = ""
    mark: str = ""

    @property
    def first(self) -> str:
        w = words(self.text)
        return w[0].upper() if w else ""

    @property
    def item(self) -> int:
        """Which line after the comments this is, from 1."""
        begin = next((n for n, line in enumerate(self.lines, 1) if words(line) and not line.startswith("#")), 0)
        return self.line - begin + 1


def spot_of(folder: Path, file: str, line: int) -> Spot:
    path = on_disk(folder, file)
    content, mark = plain(read_raw(path) if path.is_file() else b"")
    lines = content.decode("latin-1").split("\n")
    text = lines[line - 1].rstrip("\r") if 0 < line <= len(lines) else ""
    return Spot(file, line, text, kind_of(folder, file), lines, mark=mark)


def is_count(spot: Spot, place: int) -> bool:
    """Whether the word at this place of a line (from 0) has to be a whole number without a point."""
    if spot.due.startswith("PERLEN"):
        return place == 1
    if ", entry " in spot.due:
        return place < 3
    begins = spot.item == 1 and spot.kind not in ("BAS6", "")
    return begins or spot.due.startswith(("ITMP", "the line of flags"))


def is_short_entry(spot: Spot) -> bool:
    """Whether a line of a list has a cell, and fewer numbers than its package's entries have."""
    found = words(spot.text)
    return (
        spot.kind in COLUMNS
        and spot.item > 2
        and 3 <= len(found) < 3 + len(COLUMNS[spot.kind])
        and all(NUMBER.fullmatch(word) for word in found)
    )
