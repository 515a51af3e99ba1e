"""RCH and EVT: as lists or arrays, one entry to a column of layers."""
from __future__ import annotations

from .arrays import Arrays, Reading, Shape
from .blocks import Block, File
from .grid import Grid
from .lists import LIST_BLOCKS, Lists, Row, look_at_evapotranspiration, merged, read_list
from .numbers import sum_word, value_of
from .options import options_of
from .simulation import Simulation

NAMES = {"RCH6": ("RECHARGE",), "EVT6": ("SURFACE", "RATE", "DEPTH")}
LAYERS = {"RCH6": "IRCH", "EVT6": "IEVT"}
# Which of an entry's numbers is the flow per area: an entry where it is 0 does nothing.
RATE = {"RCH6": 0, "EVT6": 1}

# By column of layers (row * columns + column), the entry of each period; None: as in the last one.
Columns = list["dict[int, Row] | None"]


def read_areal(simulation: Simulation, grid: Grid, kind: str) -> Columns:
    """The entries of all packages of a kind, one to a column of layers."""
    lists = []
    lines = simulation.packages[kind]
    if len(lines) > 1:
        grid.folder.note(lines[1], f"{len(lines)} packages {kind} joined into one: their budget terms join, too")
    for line in lines:
        file = simulation.file(line, LIST_BLOCKS)
        is_arrays = any(option.words[0].upper() == "READASARRAYS" for option in file.lines("OPTIONS"))
        read = read_arrays if is_arrays else read_list
        lists.append(read(simulation, grid, kind, file))
    return [None if rows is None else by_column(grid, kind, rows) for rows in merged(lists)]


def by_column(grid: Grid, kind: str, rows: list[Row]) -> dict[int, Row]:
    """Entries by their column. Recharge of one cell is summed."""
    out: dict[int, Row] = {}
    for row in rows:
        if not value_of(row.words[RATE[kind]]):
            continue
        at = (row.cell[1] - 1) * grid.ncol + row.cell[2] - 1
        if at not in out:
            out[at] = row
        elif kind == "RCH6" and out[at].cell == row.cell:
            total = sum_word(out[at].words[0], row.words[0], "the sum of recharge in a cell")
            out[at] = Row(row.cell, [total], row.line)
        else:
            first = out[at].line
            first_place = f"that of {out[at].cell} stands in {first.file}, line {first.number}"
            text = f"a second entry in the column of layers of {row.cell} ({first_place})"
            grid.folder.add(row.line.fault(f"{kind}: {text}: MODFLOW-2005's package has one"))
    return out


def read_arrays(simulation: Simulation, grid: Grid, kind: str, file: File) -> Lists:
    """The entries that arrays say (READASARRAYS). A period's block has to give again each array that an earlier one
    gave: what MODFLOW 6 does with one that is left out isn't known here."""
    options = options_of(file, ("READASARRAYS", "AUXMULTNAME"))
    if "AUXMULTNAME" in options:
        grid.folder.add(options["AUXMULTNAME"].fault("AUXMULTNAME isn't read where arrays are: write them multiplied"))
    blocks, seen = file.periods(len(simulation.periods)), set(NAMES[kind])
    out: Lists = []
    for p in range(1, len(simulation.periods) + 1):
        if p not in blocks or not blocks[p].lines:
            out.append(None if out else [])
            continue
        arrays = arrays_of(grid, kind, file, blocks[p])
        for name in sorted(seen):
            arrays.due(name)
        seen |= arrays.keys()
        out.append(rows_of(grid, kind, arrays))
    return out


def arrays_of(grid: Grid, kind: str, file: File, block: Block) -> Arrays:
    shapes = {name: Shape(0, grid.nrow, grid.ncol) for name in NAMES[kind]}
    shapes[LAYERS[kind]] = Shape(0, grid.nrow, grid.ncol, True)
    auxiliary = tuple(
        word.upper()
        for line in file.lines("OPTIONS")
        if line.words[0].upper() == "AUXILIARY"
        for word in line.words[1:]
    )
    return Reading(file, block, shapes, auxiliary).arrays()


def rows_of(grid: Grid, kind: str, arrays: Arrays) -> list[Row]:
    """The entries of the columns in which arrays have a rate. In a column without flow it is without effect."""
    layers, rate, out = arrays.get(LAYERS[kind]), arrays[NAMES[kind][RATE[kind]]], []
    idle = []
    for at in range(grid.layer):
        if not value_of(rate.text(at)):
            continue
        layer = layers.whole(at) if layers else 1
        if layers and not 1 <= layer <= grid.nlay:
            raise layers.fault(at, f"{LAYERS[kind]} is {layer}, outside 1 to {grid.nlay}")
        cell = (layer - 1) * grid.layer + at
        if not any(grid.is_active[at :: grid.layer]):
            idle.append(at)
        elif not grid.is_active[cell]:
            text = f"{rate.name} at {grid.cell(cell)}, which has no flow, above or below cells that have"
            grid.folder.add(rate.fault(at, f"{text}: write 0 there, or the layer that takes it into {LAYERS[kind]}"))
        else:
            words = [arrays[name].text(at) for name in NAMES[kind]]
            if kind == "EVT6":
                place = f", at {grid.cell(cell)}"
                look_at_evapotranspiration(lambda text, at=at: rate.fault(at, text + place), words)
            out.append(Row(grid.cell(cell), words, rate.line(at)))
    if idle:
        text = f"{rate.name} in columns of layers without flow dropped: no cell takes it"
        grid.folder.note(rate.line(idle[0]), text)
    return out
