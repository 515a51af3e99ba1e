"""DIS: the grid, and which cells have flow."""
from __future__ import annotations

from dataclasses import dataclass, field
from typing import Callable, Iterable

from ..common.limits import PLAIN, WIDE
from ..common.text import Problem, counted
from .arrays import Reading, Shape, Values
from .blocks import Fault, File, Folder
from .numbers import value_of
from .options import options_of
from .simulation import LENGTH_UNITS, Simulation, unit_of

ARRAY_BLOCKS = ("OPTIONS", "DIMENSIONS", "GRIDDATA")
Cell = tuple[int, int, int]


@dataclass
class Grid:
    """The grid: its sizes, the widths and elevations as words, and which cells have flow."""

    folder: Folder
    nlay: int
    nrow: int
    ncol: int
    lenuni: int = 0
    words: dict[str, list[str]] = field(default_factory=dict)
    is_active: list[bool] = field(default_factory=list)

    @property
    def layer(self) -> int:
        """The cells of a layer."""
        return self.nrow * self.ncol

    @property
    def cells(self) -> int:
        return self.nlay * self.layer

    def cell(self, at: int) -> Cell:
        """Layer, row and column from 1."""
        k, rest = divmod(at, self.layer)
        return k + 1, rest // self.ncol + 1, rest % self.ncol + 1

    def index(self, cell: Cell) -> int | None:
        """The number of a cell; None outside of the grid."""
        if not all(1 <= x <= most for x, most in zip(cell, (self.nlay, self.nrow, self.ncol))):
            return None
        return (cell[0] - 1) * self.layer + (cell[1] - 1) * self.ncol + cell[2] - 1

    def shape(self, is_whole: bool = False) -> Shape:
        return Shape(self.nlay, self.nrow, self.ncol, is_whole)

    def active(self) -> Iterable[int]:
        return (at for at in range(self.cells) if self.is_active[at])

    def has_neighbour(self, at: int, is_along_row: bool) -> bool:
        """Whether a cell has a neighbour with flow in its row, or else in its column of the layer."""
        length, step = (self.ncol, 1) if is_along_row else (self.layer, self.ncol)
        first = at - at % length
        return any(first <= beside < first + length and self.is_active[beside] for beside in (at - step, at + step))

    def refuse(self, values: Values, cells: list[int], text: str) -> None:
        """Refuses an array for these cells, by the line and the place of the first."""
        if cells:
            more = f", and {counted(len(cells) - 1, 'more cell')}," if len(cells) > 1 else ""
            self.folder.add(values.fault(cells[0], f"{values.name} at {self.cell(cells[0])}{more} {text}"))

    def each(self, values: Values, default: str, of: Callable[[int], str] | None = None) -> list[str]:
        """A word for each cell: of the array, or what `of` makes of a cell; the default in cells without flow. The
        first fault of an array is noted, with the count of the cells that have one."""
        out = [default] * self.cells
        faults: list[tuple[int, Fault]] = []
        for at in self.active():
            try:
                out[at] = of(at) if of else values.text(at)
            except Problem as fault:
                faults.append((at, fault if isinstance(fault, Fault) else values.fault(at, str(fault))))
        self.note_faults(faults)
        return out

    def note_faults(self, faults: list[tuple[int, Fault]]) -> None:
        if faults:
            at, fault = faults[0]
            more = f" (and in {counted(len(faults) - 1, 'more cell')})" if len(faults) > 1 else ""
            self.folder.add(Fault(fault.file, fault.line, f"{fault.text}, at {self.cell(at)}{more}"))


def read_grid(simulation: Simulation) -> Grid:
    """The grid of DIS6."""
    file = simulation.file(simulation.packages["DIS6"][0], ARRAY_BLOCKS)
    options = options_of(file, ("LENGTH_UNITS",))
    grid = Grid(simulation.folder, file.dimension("NLAY"), file.dimension("NROW"), file.dimension("NCOL"))
    if unit := options.get("LENGTH_UNITS"):
        grid.lenuni = unit_of(grid.folder, unit, LENGTH_UNITS)
    sizes = grid.nlay, grid.nrow, grid.ncol
    if over := WIDE.faults_of(*sizes):
        raise file.fault("`heads` takes " + "; ".join(over))
    if over := PLAIN.faults_of(*sizes):
        grid.folder.report.add("wide", file.name, 0, "without --wide `heads` takes " + "; ".join(over))
    shapes = {
        "DELR": Shape(0, 1, grid.ncol),
        "DELC": Shape(0, 1, grid.nrow),
        "TOP": Shape(0, grid.nrow, grid.ncol),
        "BOTM": grid.shape(),
        "IDOMAIN": grid.shape(True),
    }
    arrays = Reading(file, file.block("GRIDDATA"), shapes).arrays()
    for name in ("DELR", "DELC", "TOP", "BOTM"):
        arrays.due(name)
    if "IDOMAIN" in arrays.failed:
        arrays.due("IDOMAIN")
    look_at_domain(grid, arrays.get("IDOMAIN"))
    for name in ("DELR", "DELC", "TOP", "BOTM"):
        values = arrays[name]
        grid.words[name] = [values.text(at) for at in range(len(values.words))]
    look_at_sizes(grid, file, arrays)
    return grid


def look_at_domain(grid: Grid, idomain: Values | None) -> None:
    """Which cells have flow. IDOMAIN -1 joins the cells above and below it; where it joins none it is 0."""
    grid.is_active = [True] * grid.cells
    if idomain is None:
        return
    numbers = [idomain.whole(at) for at in range(grid.cells)]
    grid.is_active = [x > 0 for x in numbers]
    through = [at for at, x in enumerate(numbers) if x < 0]
    joins = [at for at in through if has_active(grid, range(at % grid.layer, at, grid.layer))]
    joins = [at for at in joins if has_active(grid, range(at + grid.layer, grid.cells, grid.layer))]
    grid.refuse(idomain, joins, "is below 0: it joins the cells above and below it, which no MODFLOW-2005 grid does")
    if through and not joins:
        text = "IDOMAIN below 0 written as 0: above or below all cells with flow of its column it joins nothing"
        grid.folder.report.add("needed", idomain.parts[0].line.file, idomain.parts[0].line.number, text)
    if not any(grid.is_active):
        raise idomain.fault(0, "no cell has flow")


def has_active(grid: Grid, cells: Iterable[int]) -> bool:
    return any(grid.is_active[at] for at in cells)


def look_at_sizes(grid: Grid, file: File, arrays: dict[str, Values]) -> None:
    """Widths that aren't above 0, and cells with flow without thickness."""
    for name in ("DELR", "DELC"):
        bad = [at for at, word in enumerate(grid.words[name]) if value_of(word) <= 0]
        if bad:
            grid.folder.add(arrays[name].fault(bad[0], f"{name} {bad[0] + 1} isn't above 0"))
    levels = grid.words["TOP"] + grid.words["BOTM"]
    thin = [at for at in grid.active() if value_of(levels[at]) <= value_of(levels[at + grid.layer])]
    grid.refuse(arrays["BOTM"], thin, "isn't below the cell's top (MODFLOW 6 stops here, too)")
