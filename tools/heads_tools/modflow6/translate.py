"""The deck of a MODFLOW 6 simulation: its confined cells have the same equations."""
from __future__ import annotations

from pathlib import Path

from ..common.limits import PLAIN, WIDE
from ..deck.deck import KINDS, Areal, Deck, Entry
from ..deck.sources import Array, Report
from .areal import LAYERS, Columns, read_areal
from .blocks import Folder
from .flow import Properties, Storage, read_properties, read_storage
from .grid import Grid, read_grid
from .lists import LIST_BLOCKS, Lists, look_at_given_heads, merged, read_list
from .simulation import Simulation, read_simulation_file

TRANSLATED = (
    "a MODFLOW 6 simulation written as a MODFLOW-2005 deck. No theorem speaks of this translation: what `heads` says is"
    " said of the deck that was written"
)
STEM = "p"
UNITS = {kind: str(11 + n) for n, kind in enumerate(KINDS)}
LIST_KINDS = ("CHD6", "WEL6", "RIV6", "DRN6", "GHB6")
AREAL_NAMES = {"RCH6": ("RECH",), "EVT6": ("SURF", "EVTR", "EXDP")}
IDLE = {"RCH6": ("0",), "EVT6": ("0", "0", "1")}


def read_simulation(nam: Path) -> tuple[Deck, Report, list[Path]]:
    """The deck of a simulation, what there is to say of it, and the files that were read. With a refusal the deck isn't
    whole."""
    folder, deck = Folder(nam.parent, Report()), Deck(nam.with_name(f"{STEM}.nam"))
    folder.report.add("needed", nam.name, 0, TRANSLATED)
    simulation = folder.tried(read_simulation_file, folder, nam.name)
    if simulation and simulation.periods and "DIS6" in simulation.packages:
        grid = folder.tried(read_grid, simulation)
        if grid:
            fill(deck, simulation, grid)
    return deck, folder.report, folder.read


def fill(deck: Deck, simulation: Simulation, grid: Grid) -> None:
    """Reads all packages, and fills the deck where none of them has a fault."""
    folder, packages = grid.folder, simulation.packages
    properties = read_properties(simulation, grid) if {"IC6", "NPF6"} <= packages.keys() else None
    storage = folder.tried(read_storage, simulation, grid)
    lists = {kind: folder.tried(read_lists, simulation, grid, kind) for kind in LIST_KINDS if kind in packages}
    if given := lists.get("CHD6"):
        look_at_given_heads(grid, given)
    areal = {kind: folder.tried(read_areal, simulation, grid, kind) for kind in LAYERS if kind in packages}
    if folder.report.refusals or not properties or not storage:
        return
    fill_grid(deck, simulation, grid, properties, storage)
    for kind, each in lists.items():
        if each is not None:
            fill_list(deck, grid, kind[:3], each)
    for kind, columns in areal.items():
        if columns is not None:
            fill_areal(deck, grid, kind, columns)
    place = "; ".join(f"{name}:{text}" for name, text in folder.place.items())
    files = [f"{kind} {UNITS[kind]} {name}" for kind, name in deck.files.items()]
    deck.name_lines = [f"# {TRANSLATED}.", *([f"#{place}"] if place else []), *files]
    deck.units = {UNITS[kind]: name for kind, name in deck.files.items()}


def read_lists(simulation: Simulation, grid: Grid, kind: str) -> Lists | None:
    """The lists of all packages of a kind as one."""
    lines = simulation.packages[kind]
    read = lambda line: read_list(simulation, grid, kind, simulation.file(line, LIST_BLOCKS))
    lists = [grid.folder.tried(read, line) for line in lines]
    if len(lines) > 1:
        grid.folder.note(lines[1], f"{len(lines)} packages {kind} joined into one list: their budget terms join, too")
    return merged([each for each in lists if each is not None]) if None not in lists else None


def named(deck: Deck, kind: str, option: str) -> None:
    """Gives a package its file, its option line, and a comment that says where it comes from."""
    deck.files[kind] = f"{STEM}.{kind[:3].lower()}"
    deck.options[kind] = option


def array_of(words: list[str], rows: int, cols: int) -> Array:
    return Array(words[:1] if len(set(words)) == 1 else words, "1", (rows, cols))


def layers_of(grid: Grid, words: list[str]) -> list[Array]:
    """The arrays of the layers."""
    starts = range(0, grid.cells, grid.layer)
    return [array_of(words[at : at + grid.layer], grid.nrow, grid.ncol) for at in starts]


def fill_grid(deck: Deck, simulation: Simulation, grid: Grid, properties: Properties, storage: Storage) -> None:
    """DIS, BAS6 and LPF."""
    deck.nlay, deck.nrow, deck.ncol = grid.nlay, grid.nrow, grid.ncol
    deck.itmuni, deck.lenuni, deck.laycbd = simulation.itmuni, grid.lenuni, [0] * grid.nlay
    deck.delr, deck.delc = array_of(grid.words["DELR"], 1, grid.ncol), array_of(grid.words["DELC"], 1, grid.nrow)
    deck.top, deck.bottom = array_of(grid.words["TOP"], grid.nrow, grid.ncol), layers_of(grid, grid.words["BOTM"])
    deck.periods = simulation.periods
    named(deck, "DIS", "")
    named(deck, "BAS6", "FREE")
    deck.options["HNOFLO"] = "-999.99"
    deck.ibound = layers_of(grid, ["1" if x else "0" for x in grid.is_active])
    deck.strt = layers_of(grid, properties.strt)
    named(deck, "LPF", "0 -1E+30 0" + " STORAGECOEFFICIENT" * storage.is_coefficient)
    deck.layer_words = [[word] * grid.nlay for word in ("0", "0", "-1", "0", "0")]
    arrays = {"HK": properties.hk, "HANI": properties.hani, "VKA": properties.vka}
    arrays |= {"SS": storage.ss} if deck.is_transient else {}
    by_name = {name: layers_of(grid, words) for name, words in arrays.items()}
    deck.properties = [{name: layers[k] for name, layers in by_name.items()} for k in range(grid.nlay)]


def fill_list(deck: Deck, grid: Grid, kind: str, lists: Lists) -> None:
    """A list package. A constant head of a period is that of its begin and its end."""
    most = max((len(rows) for rows in lists if rows is not None), default=0)
    named(deck, kind, f"{most} 0")
    if over := next((rows for rows in lists if rows and len(rows) > WIDE.entries), None):
        grid.folder.add(over[WIDE.entries].line.fault(f"more than {WIDE.entries:,} entries in a period"))
    if most > PLAIN.entries:
        text = f"without --wide `heads` takes at most {PLAIN.entries:,} entries"
        grid.folder.report.add("wide", deck.files[kind], 0, text)
    times = 2 if kind == "CHD" else 1
    deck.lists[kind] = [
        None if rows is None else [Entry(r.cell, r.words * times, r.line.file, r.line.number) for r in rows]
        for rows in lists
    ]


def fill_areal(deck: Deck, grid: Grid, kind: str, columns: Columns) -> None:
    """RCH or EVT with the option 2: a layer for each column."""
    named(deck, kind[:3], "2 0")
    areal = deck.areal[kind[:3]] = Areal(2)
    names = (*AREAL_NAMES[kind], LAYERS[kind])
    for at in columns:
        if at is None:
            areal.periods.append(([-1] * len(names), {}))
            continue
        rows = (at.get(c) for c in range(grid.layer))
        words = [[*(row.words if row else IDLE[kind]), str(row.cell[0] if row else 1)] for row in rows]
        arrays = {name: array_of([w[n] for w in words], grid.nrow, grid.ncol) for n, name in enumerate(names)}
        areal.periods.append(([0] * len(names), arrays))
