"""A MODFLOW-2005 deck as it stands in its files, in any spelling: words of numbers, not values."""
from __future__ import annotations

from dataclasses import dataclass, field
from pathlib import Path

from ..common.text import counted
from .sources import Array

KINDS = ("DIS", "BAS6", "LPF", "WEL", "RIV", "DRN", "GHB", "RCH", "CHD", "EVT")
PASSED = {"LIST", "OC", "PCG", "PCGN", "SIP", "DE4", "GMG", "LMT6", "MULT", "ZONE", "PVAL", "DATA", "DATA(BINARY)"}
ONLY_PRINTS = {
    "HOB",
    "CHOB",
    "DROB",
    "GBOB",
    "RVOB",
    "OBS",
    "HYD",
    "GAGE",
    "MNWI",
    "GLOBAL",
    "DATAGLO",
    "DATAGLO(BINARY)",
    "LMG",
    "NWT",
    "SMS",
    "\x1a",
}
COLUMNS = {
    "WEL": ("Q",),
    "RIV": ("Stage", "Cond", "Rbot"),
    "DRN": ("Elevation", "Cond"),
    "GHB": ("Bhead", "Cond"),
    "CHD": ("Shead", "Ehead"),
}
SCALED = {"WEL": (0,), "RIV": (1,), "DRN": (1,), "GHB": (1,), "CHD": (0, 1)}


@dataclass
class Period:
    """A stress period of DIS: its length, steps and multiplier as words, and whether it is steady."""

    perlen: str
    nstp: int
    tsmult: str
    is_steady: bool


@dataclass
class Entry:
    """An entry of a list: layer, row, column from 1, the words of its numbers, the line that it stands on."""

    cell: tuple[int, int, int]
    words: list[str]
    file: str
    line: int


@dataclass
class Areal:
    """RCH or EVT: the option, for each period the flags and the new arrays by name, and the line of the option."""

    option: int
    periods: list[tuple[list[int], dict[str, Array]]] = field(default_factory=list)
    line: int = 0


def unread() -> Array:
    """An array that wasn't read yet."""
    return Array([], "0", (0, 0))


@dataclass(repr=False)
class Deck:
    """What the files of a name file say. Lists have, for each period, entries or None for 'as in the last one'."""

    path: Path
    files: dict[str, str] = field(default_factory=dict)
    units: dict[str, str] = field(default_factory=dict)
    name_lines: list[str] = field(default_factory=list)
    comments: dict[str, list[str]] = field(default_factory=dict)
    options: dict[str, str] = field(default_factory=dict)
    nlay: int = 0
    nrow: int = 0
    ncol: int = 0
    itmuni: int = 0
    lenuni: int = 0
    laycbd: list[int] = field(default_factory=list)
    delr: Array = field(default_factory=unread)
    delc: Array = field(default_factory=unread)
    top: Array = field(default_factory=unread)
    bottom: list[Array] = field(default_factory=list)
    bed_bottom: dict[int, Array] = field(default_factory=dict)
    periods: list[Period] = field(default_factory=list)
    is_free: bool = True
    ibound: list[Array] = field(default_factory=list)
    strt: list[Array] = field(default_factory=list)
    layer_words: list[list[str]] = field(default_factory=list)
    properties: list[dict[str, Array]] = field(default_factory=list)
    lists: dict[str, list[list[Entry] | None]] = field(default_factory=dict)
    areal: dict[str, Areal] = field(default_factory=dict)

    def __repr__(self) -> str:
        size = f"{self.nlay} x {self.nrow} x {self.ncol}"
        return f"<deck {self.path.name}: {size} cells, {counted(len(self.periods), 'period')}, {' '.join(self.files)}>"

    def top_of(self, layer: int) -> Array:
        """The elevation above a layer, counted from 0: the bottom of the bed above it, where there is one."""
        return self.bed_bottom.get(layer - 1, self.bottom[layer - 1]) if layer else self.top

    @property
    def is_transient(self) -> bool:
        return any(not p.is_steady for p in self.periods)

    @property
    def cells(self) -> int:
        return self.nlay * self.nrow * self.ncol

EVT_ARRAYS = ("SURF", "EVTR", "EXDP")
