"""The limits of what the program takes: those without the word --wide, and those with it."""
from __future__ import annotations

from dataclasses import dataclass
from pathlib import Path

from .text import on_disk, read_text, words

WIDE_WORD = "--wide"


@dataclass(frozen=True)
class Limits:
    """The most cells, rows or columns, layers, entries of a list for a period, and bytes of a file."""

    cells: int
    side: int
    layers: int
    entries: int
    bytes: int

    def faults_of(self, nlay: int, nrow: int, ncol: int) -> list[str]:
        """What a grid would have to be, where it is too large."""
        cells = nlay * nrow * ncol
        tests = [
            (not 1 <= nlay <= self.layers, f"NLAY from 1 to {self.layers:,}"),
            (not (1 <= nrow <= self.side and 1 <= ncol <= self.side), f"NROW and NCOL from 1 to {self.side:,}"),
            (cells > self.cells, f"at most {self.cells:,} cells in all (these are {cells:,})"),
        ]
        return [text for is_bad, text in tests if is_bad]

    def has_room(self, shape: tuple[int, int, int]) -> bool:
        return not self.faults_of(*shape)


PLAIN = Limits(65_536, 1_024, 64, 65_536, 67_108_864)
WIDE = Limits(4_194_304, 4_096, 1_024, 4_194_304, 1_073_741_824)


def is_wide(options: list[str]) -> bool:
    return WIDE_WORD in options


def limits_of(has_word: bool) -> Limits:
    return WIDE if has_word else PLAIN


def wide_words(has_word: bool) -> list[str]:
    """The word, where it is asked for."""
    return [WIDE_WORD] if has_word else []


def asks_for_wide(last: str, folder: Path) -> bool:
    """Whether the last line of a run in a folder is one that the wide limits can change: a floor or a ceiling out of
    range; a file, a grid or a list that is larger than the plain limits and within the wide ones."""
    w = last.split()
    if w[:2] in (["NOBOUND", "26"], ["NOBOUND", "27"]):
        return True
    if w[:1] != ["REFUSED"] or w[1:2] not in (["2"], ["12"], ["17"]) or len(w) < 5:
        return False
    path = on_disk(folder, w[3])
    if not path.is_file():
        return False
    if w[1] == "2":
        return PLAIN.bytes < path.stat().st_size <= WIDE.bytes
    counts = whole_numbers(path, int(w[4]) if w[4].isdigit() else 0)
    if w[1] == "17":
        return bool(counts) and PLAIN.entries < counts[0] <= WIDE.entries
    if len(counts) < 3:
        return False
    grid = counts[0], counts[1], counts[2]
    return not PLAIN.has_room(grid) and WIDE.has_room(grid)


def whole_numbers(path: Path, line: int) -> list[int]:
    """The whole numbers with which a line of a file begins."""
    lines = read_text(path).split("\n")
    out: list[int] = []
    for word in words(lines[line - 1]) if 0 < line <= len(lines) else []:
        if not word.isdigit():
            break
        out.append(int(word))
    return out


def is_large(shape: tuple[int, int, int], limits: Limits = PLAIN) -> bool:
    """Whether a grid has more layers, rows, columns or cells than the program takes."""
    return not limits.has_room(shape)
