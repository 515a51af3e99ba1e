"""CHD, WEL, RIV, DRN, GHB, and RCH and EVT as lists: entries of each stress period."""
from __future__ import annotations

from typing import NamedTuple

from ..common.text import Problem
from .blocks import File, Line
from .grid import Cell, Grid
from .numbers import number_word, product_word, value_of
from .options import options_of
from .simulation import Simulation

# The numbers of an entry, and which of them AUXMULTNAME multiplies.
COLUMNS = {
    "CHD6": ("head",),
    "WEL6": ("q",),
    "RIV6": ("stage", "cond", "rbot"),
    "DRN6": ("elev", "cond"),
    "GHB6": ("bhead", "cond"),
    "RCH6": ("recharge",),
    "EVT6": ("surface", "rate", "depth"),
}
MULTIPLIED = {"CHD6": 0, "WEL6": 0, "RIV6": 1, "DRN6": 1, "GHB6": 1, "RCH6": 0, "EVT6": 1}
LIST_BLOCKS = ("OPTIONS", "DIMENSIONS", "PERIOD")
NO_FLOW = "has no flow (MODFLOW 6 stops here, too)"


class Row(NamedTuple):
    """An entry of a list: its cell, the words of its numbers, the line that it stands on."""

    cell: Cell
    words: list[str]
    line: Line


# The entries of each period, None where they are those of the last one.
Lists = list["list[Row] | None"]


def read_list(simulation: Simulation, grid: Grid, kind: str, file: File) -> Lists:
    """The entries of each period. Each entry with a fault is noted and left out."""
    options = options_of(file, ("AUXMULTNAME",))
    most, blocks = file.dimension("MAXBOUND"), file.periods(len(simulation.periods))
    if kind == "EVT6":
        look_at_segments(file)
    multiplier = multiplier_at(options, kind)
    out: Lists = []
    for p in range(1, len(simulation.periods) + 1):
        if p not in blocks:
            out.append(None if out else [])
            continue
        block = blocks[p]
        if len(block.lines) > most:
            text = f"{len(block.lines)} entries, and MAXBOUND is {most} (MODFLOW 6 stops here, too)"
            grid.folder.add(block.begin.fault(text))
        rows = [grid.folder.tried(row_of, grid, kind, line, multiplier) for line in block.lines]
        out.append([row for row in rows if row])
    return out


def look_at_segments(file: File) -> None:
    """Evapotranspiration of one straight segment alone is read."""
    for line in file.lines("DIMENSIONS"):
        if line.words[0].upper() == "NSEG" and file.dimension("NSEG") > 1:
            raise line.fault("NSEG is above 1: `heads` reads one straight segment")


def multiplier_at(options: dict[str, Line], kind: str) -> int | None:
    """The place in a line of the auxiliary variable that multiplies, where there is one."""
    if "AUXMULTNAME" not in options:
        return None
    line = options["AUXMULTNAME"]
    name = line.word(1, "a name").upper()
    names = [word.upper() for word in options["AUXILIARY"].words[1:]] if "AUXILIARY" in options else []
    if names.count(name) != 1:
        raise line.fault(f"AUXMULTNAME {name} isn't one of the names of AUXILIARY")
    return 3 + len(COLUMNS[kind]) + names.index(name)


def row_of(grid: Grid, kind: str, line: Line, multiplier: int | None) -> Row:
    """The entry of a line."""
    k, i, j = (line.whole(at, name) for at, name in enumerate(("a layer", "a row", "a column")))
    at = grid.index((k, i, j))
    if at is None:
        raise line.fault(f"the cell {k} {i} {j} lies outside the grid of {grid.nlay}, {grid.nrow}, {grid.ncol}")
    if not grid.is_active[at]:
        raise line.fault(f"the cell {k} {i} {j} {NO_FLOW}")
    names = COLUMNS[kind]
    words = [word_at(line, 3 + n, name) for n, name in enumerate(names)]
    if multiplier is not None:
        n = MULTIPLIED[kind]
        factor = word_at(line, multiplier, "the multiplier")
        words[n] = in_line(line, product_word, words[n], factor, f"{names[n]} times its multiplier")
    if "cond" in names and value_of(words[1]) < 0:
        raise line.fault("cond is below 0")
    if kind == "EVT6":
        look_at_evapotranspiration(line.fault, words)
    return Row((k, i, j), words, line)


def look_at_evapotranspiration(fault, words: list[str]) -> None:
    """What is refused of surface, rate and depth."""
    if value_of(words[1]) < 0:
        raise fault("rate is below 0")
    if value_of(words[1]) and value_of(words[2]) <= 0:
        raise fault("depth isn't above 0: a step, which `heads` doesn't read")


def word_at(line: Line, at: int, name: str) -> str:
    """The number at a place of a line."""
    return in_line(line, number_word, line.word(at, name))


def in_line(line: Line, call, *given) -> str:
    """What a call returns; its fault is one of the line."""
    try:
        return call(*given)
    except Problem as error:
        raise line.fault(str(error)) from None


def merged(lists: list[Lists]) -> Lists:
    """The lists of several packages as one."""
    if len(lists) == 1:
        return lists[0]
    now: list[list[Row]] = [[] for _ in lists]
    out: Lists = []
    for rows in zip(*lists):
        if out and all(each is None for each in rows):
            out.append(None)
            continue
        now = [old if new is None else new for old, new in zip(now, rows)]
        out.append([row for each in now for row in each])
    return out


def look_at_given_heads(grid: Grid, lists: Lists) -> None:
    """A cell that leaves CHD's list is free again in MODFLOW 6, and keeps its head in MODFLOW-2005."""
    before: dict[Cell, Row] = {}
    for p, rows in enumerate(lists, 1):
        if rows is None:
            continue
        now: dict[Cell, Row] = {}
        for row in rows:
            if row.cell in now:
                text = f"the cell {row.cell} stands in period {p} twice (line {now[row.cell].line.number}, too)"
                grid.folder.add(row.line.fault(f"CHD6: {text}"))
            now[row.cell] = row
        for cell in sorted(before.keys() - now.keys()):
            text = f"CHD6: {cell} leaves the list in period {p}: free again in MODFLOW 6, not in MODFLOW-2005"
            grid.folder.add(before[cell].line.fault(text))
        before = now
