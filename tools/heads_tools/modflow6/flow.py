"""IC, NPF and STO: starting heads, conductivities and storage of confined cells."""
from __future__ import annotations

from dataclasses import dataclass
from decimal import Decimal

from ..common.text import Problem, counted
from .arrays import Reading, Values
from .blocks import Block, File
from .grid import ARRAY_BLOCKS, Grid
from .numbers import product_word, quotient_word, value_of
from .options import options_of
from .simulation import Simulation

LEAST_MULTIPLIER = Decimal("0.001")
ANGLES = ("ANGLE1", "ANGLE2", "ANGLE3")
NOT_CONFINED = (
    "isn't 0: such a cell's transmissivity changes with the head. To make it confined is your decision, not a spelling"
)


@dataclass
class Properties:
    """A word for each cell: starting head, conductivity along rows, that along columns over it, vertical
    conductivity."""

    strt: list[str]
    hk: list[str]
    hani: list[str]
    vka: list[str]


@dataclass
class Storage:
    """A word for each cell, of the specific storage or of the storage coefficient."""

    ss: list[str]
    is_coefficient: bool = False


def read_properties(simulation: Simulation, grid: Grid) -> Properties | None:
    strt = grid.folder.tried(read_heads_at_start, simulation, grid)
    flow = grid.folder.tried(read_conductivities, simulation, grid)
    return Properties(strt, *flow) if strt and flow else None


def read_heads_at_start(simulation: Simulation, grid: Grid) -> list[str]:
    file = simulation.file(simulation.packages["IC6"][0], ARRAY_BLOCKS)
    options_of(file)
    arrays = Reading(file, file.block("GRIDDATA"), {"STRT": grid.shape()}).arrays()
    return grid.each(arrays.due("STRT"), "0")


def read_conductivities(simulation: Simulation, grid: Grid) -> tuple[list[str], list[str], list[str]]:
    """The three conductivities of NPF. Each fault is noted."""
    file = simulation.file(simulation.packages["NPF6"][0], ARRAY_BLOCKS)
    options = options_of(file, ("K22OVERK", "K33OVERK"))
    shapes = {name: grid.shape() for name in ("K", "K22", "K33", *ANGLES)} | {"ICELLTYPE": grid.shape(True)}
    arrays = Reading(file, file.block("GRIDDATA"), shapes, ("WETDRY",)).arrays()
    for name in ("K22", "K33"):
        if f"{name}OVERK" in options and name not in arrays:
            grid.folder.add(options[f"{name}OVERK"].fault(f"{name}OVERK stands here, and the array {name} doesn't"))
    celltype = arrays.due("ICELLTYPE")
    grid.refuse(celltype, [at for at in grid.active() if celltype.whole(at)], NOT_CONFINED)
    for name in ANGLES:
        if name in arrays:
            turned = [at for at in grid.active() if value_of(safe(arrays[name], at))]
            grid.refuse(arrays[name], turned, "isn't 0: turned conductivities make other equations")
    k = arrays.due("K")
    hk = grid.each(k, "1")
    for name in ("K", "K22", "K33"):
        if name in arrays:
            none = [at for at in grid.active() if value_of(safe(arrays[name], at)) <= 0]
            grid.refuse(arrays[name], none, "isn't above 0 (MODFLOW 6 stops here, too)")
    vka = verticals(grid, arrays.get("K33"), hk, "K33OVERK" in options)
    hani = ratios(grid, arrays.get("K22"), hk, "K22OVERK" in options)
    return hk, hani, vka


def safe(values: Values, at: int) -> str:
    """A value's word, 1 where it can't be read, which is noted elsewhere."""
    try:
        return values.text(at)
    except Problem:
        return "1"


def ratios(grid: Grid, k22: Values | None, hk: list[str], is_ratio: bool) -> list[str]:
    """Conductivity along columns over that along rows. Where no decimal says it, and the cell has no neighbour with
    flow along one of the two, that one counts nowhere: then both are the other, and `hk` is changed."""
    if k22 is None:
        return ["1"] * grid.cells
    given = k22.text
    alone: list[int] = []

    def ratio(at: int) -> str:
        if is_ratio or not value_of(hk[at]):
            return given(at)
        try:
            return quotient_word(given(at), hk[at], "K22/K")
        except Problem:
            is_in_column = grid.has_neighbour(at, is_along_row=False)
            if is_in_column and grid.has_neighbour(at, is_along_row=True):
                raise
            if is_in_column:
                hk[at] = given(at)
        alone.append(at)
        return "1"

    out = grid.each(k22, "1", ratio)
    if alone:
        where, line = f"{counted(len(alone), 'cell')}, the first one {grid.cell(alone[0])}", k22.line(alone[0])
        why = "and flow goes along rows or along columns alone there: written with HANI 1"
        grid.folder.report.add("needed", line.file, line.number, f"K22/K is no decimal in {where}, {why}")
    return out


def verticals(grid: Grid, k33: Values | None, hk: list[str], is_ratio: bool) -> list[str]:
    """Vertical conductivity: K where K33 isn't given."""
    if k33 is None:
        return list(hk)
    given = k33.text

    def vertical(at: int) -> str:
        return product_word(hk[at], given(at), "K33 times K") if is_ratio else given(at)

    return grid.each(k33, "1", vertical)


def read_storage(simulation: Simulation, grid: Grid) -> Storage:
    """STO, and which periods are steady; without it all are."""
    if "STO6" not in simulation.packages:
        return Storage(["0"] * grid.cells)
    file = simulation.file(simulation.packages["STO6"][0], (*ARRAY_BLOCKS, "PERIOD"))
    options = options_of(file, ("STORAGECOEFFICIENT",))
    read_states(simulation, file)
    shapes = {"ICONVERT": grid.shape(True), "SS": grid.shape()}
    arrays = Reading(file, file.block("GRIDDATA"), shapes, ("SY",)).arrays()
    convert = arrays.due("ICONVERT")
    convertible = [at for at in grid.active() if convert.whole(at)]
    grid.refuse(convert, convertible, "isn't 0: its storage changes with the head")
    if all(p.is_steady for p in simulation.periods):
        return Storage(["0"] * grid.cells, "STORAGECOEFFICIENT" in options)
    ss = arrays.due("SS")
    words = grid.each(ss, "0")
    grid.refuse(ss, [at for at in grid.active() if value_of(words[at]) < 0], "is below 0")
    return Storage(words, "STORAGECOEFFICIENT" in options)


def read_states(simulation: Simulation, file: File) -> None:
    """Which periods are steady: each as the last one that says it."""
    blocks, state = file.periods(len(simulation.periods)), None
    for p, period in enumerate(simulation.periods, 1):
        state = state_of(blocks[p]) if p in blocks and blocks[p].lines else state
        if state is None:
            raise file.fault(f"it doesn't say of period {p} whether it is STEADY-STATE or TRANSIENT")
        period.is_steady = state == "STEADY-STATE"
        if not period.is_steady:
            look_at_length(simulation, p)


def state_of(block: Block) -> str:
    states = {line.words[0].upper() for line in block.lines}
    for line in block.lines:
        if line.words[0].upper() not in ("STEADY-STATE", "TRANSIENT"):
            raise line.fault(f"STEADY-STATE or TRANSIENT is due, and here stands `{line.text[:40]}`")
    if len(states) > 1:
        raise block.begin.fault("both STEADY-STATE and TRANSIENT")
    return states.pop()


def look_at_length(simulation: Simulation, number: int) -> None:
    """What `heads` takes of a transient period's length and multiplier."""
    period, line = simulation.periods[number - 1], simulation.period_lines[number - 1]
    mult = value_of(period.tsmult)
    if value_of(period.perlen) <= 0:
        simulation.folder.add(line.fault(f"PERLEN of the transient period {number} isn't above 0"))
    if mult != 1 and not (LEAST_MULTIPLIER <= mult <= 1000 and period.nstp <= 1000):
        text = "other than 1 it lies from 0.001 to 1000, with at most 1,000 steps"
        simulation.folder.add(line.fault(f"TSMULT of the transient period {number}: {text}"))
