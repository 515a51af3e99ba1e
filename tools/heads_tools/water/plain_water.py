"""plain --dry and --as-confined: decks of models with convertible layers, without the cells that a run dried, and with
confined layers where the convertible ones are full."""
from __future__ import annotations

import dataclasses
from dataclasses import dataclass
from pathlib import Path

import numpy as np

from ..common.limits import wide_words
from ..common.text import Problem, counted, decimal_text
from ..common.whole_files import whole_file, whole_folder
from ..deck.deck import Deck
from ..deck.sources import Array, Report
from ..deck.writing import NOTES, write_deck, written_name
from ..listing.headfile import read_heads
from ..listing.listing import Listing
from ..numbers.whole import pair_of_heads
from ..program.explain import explain
from ..program.program import DEFAULT_DIGITS, run
from ..program.reading import refused
from .convertible import Convertible, is_convertible, read_convertible
from .run_heads import RunHeads

DIGITS = (DEFAULT_DIGITS, 9, 15, 6, 18, 3)
WHY_CONFINED = (
    "Why: where a cell is full its saturated thickness is that of the cell, and its storage is by SS alone, so LPF's"
    " equations of convertible layers are those of confined ones there. All exact heads of this deck lie between its"
    " listed ones, and so at or above the tops: they solve the equations of the deck with LAYTYP other than 0, too. Of"
    " other solutions of those equations, in which a cell isn't full, nothing is said. That step isn't proved."
)


@dataclass
class WrittenWater:
    """A deck that was written: its name file, lines for people, and what the program says where it refuses it."""

    path: Path
    lines: list[str]
    refused: list[str]

    def notes(self) -> list[str]:
        return self.lines


def plain_water(nam: Path, folder: Path, dried: Path | None, as_confined: bool) -> WrittenWater:
    """Writes the deck without the cells that a run dried, with confined layers, or both, and a file of notes."""
    water, report = read_convertible(nam, takes_confined=not as_confined)
    if folder.resolve() == nam.resolve().parent:
        raise Problem("the plain deck goes into another folder than the deck's own")
    notes = [str(r) for r in report.needed]
    if dried:
        water, more = without_dry(water, dried)
        notes += more
    deck = confined(water.deck) if as_confined else water.deck
    name = written_name(deck)
    with whole_folder(folder, is_own=(folder / NOTES).is_file()) as new:
        write_deck(deck, new)
        if as_confined:
            notes += full_lines(water, new / name, report)
        is_read = not any(is_convertible(deck, k) for k in range(deck.nlay))
        told = refused(new / name, bool(report.wide)) if is_read else []
        if not is_read:
            notes.append("its layers stay convertible: `heads-tools certify --convertible` takes it, `heads` doesn't")
        notes += [f"CAREFUL: {r}" for r in report.warnings] + [f"GIVE --wide: {r}" for r in report.wide]
        notes += ["REFUSED ALL THE SAME: " + "\n  ".join(told)] * bool(told)
        with whole_file(new / NOTES, is_own=True) as file:
            file.write("\n".join(notes) + "\n")
    return WrittenWater(folder / name, notes, told)


# Cells that the run dried.


def without_dry(water: Convertible, path: Path) -> tuple[Convertible, list[str]]:
    """The model without the cells that a run dried at some step, and a line for each."""
    given = RunHeads(path, read_heads(path, water.shape, np.inf), water)
    first: dict[int, tuple[int, int]] = {}
    for key in sorted(given.heads):
        lacking = np.flatnonzero(water.active & ~np.isfinite(given.heads[key]))
        if lacking.size:
            raise Problem(f"{path} has no head at layer row column {water.name(lacking[0])}: is the cell dry?")
        for cell in np.flatnonzero(given.dry[key]).tolist():
            first.setdefault(cell, key)
    if not first:
        return water, [f"{path.name}: no cell is dry (HDRY), so none was taken out"]
    notes = [f"layer row column {water.name(c)}: IBOUND 0, {when(first[c], min(given.heads))}" for c in sorted(first)]
    cells = np.zeros(len(water.active), bool)
    cells[list(first)] = True
    model = dataclasses.replace(water.model, ibound=np.where(cells.reshape(water.shape), 0, water.model.ibound))
    factor = "0" if water.size == 1 else "1"
    ibound = [Array([str(v) for v in layer.ravel()], factor, water.shape[1:]) for layer in model.ibound]
    model.deck = dataclasses.replace(water.deck, ibound=ibound)
    return Convertible(model), [*notes, *areal_notes(water, cells), *list_notes(water, cells)]


def when(key: tuple[int, int], begin: tuple[int, int]) -> str:
    """From which step on a cell was dry."""
    if key == begin:
        return "the run dried it" + (" by its first step" if key != (0, 0) else "")
    return (
        f"the run dried it at period {key[0]} step {key[1]}: CAREFUL, the deck has no cell there from the beginning, so"
        " up to that step it is another model than the run's"
    )


def areal_notes(water: Convertible, dry: np.ndarray) -> list[str]:
    """Where recharge and evapotranspiration of columns with dry cells go."""
    out, size = [], water.size
    columns = dry.reshape(water.shape[0], size)
    left = water.active.reshape(columns.shape) & ~columns
    for kind, what, option in (("RCH", "recharge", "NRCHOP"), ("EVT", "evapotranspiration", "NEVTOP")):
        areal = water.deck.areal.get(kind)
        if areal is None:
            continue
        passed, lost = np.zeros(size, bool), np.zeros(size, bool)
        for target in targets(water, kind):
            hit = (target >= 0) & columns[np.maximum(target, 0), np.arange(size)]
            goes_on = hit & (areal.option == 3) & left.any(axis=0)
            passed, lost = passed | goes_on, lost | (hit & ~goes_on)
        if passed.any():
            out.append(f"{option} {areal.option}: the {what} of {named(water, passed)} goes to the next cell below")
        if lost.any():
            out.append(f"{option} {areal.option}: the {what} of {named(water, lost)} is lost, since its cell is dry")
    return out


def targets(water: Convertible, kind: str) -> list[np.ndarray]:
    """By column the layer from 0 that gets recharge or evapotranspiration, -1 where none does, for each period that
    names layers."""
    areal, name = water.deck.areal[kind], "IRCH" if kind == "RCH" else "IEVT"
    active = water.active.reshape(water.shape[0], -1)
    if areal.option == 1:
        return [np.where(active[0], 0, -1)]
    if areal.option == 3:
        return [np.where(active.any(axis=0), active.argmax(axis=0), -1)]
    return [arrays[name].floats().astype(int).ravel() - 1 for _, arrays in areal.periods if name in arrays]


def named(water: Convertible, columns: np.ndarray) -> str:
    """Columns of cells by row and column."""
    found = np.flatnonzero(columns)
    first = ", ".join(f"{r // water.shape[2] + 1} {r % water.shape[2] + 1}" for r in found[:8].tolist())
    return f"{counted(len(found), 'column')} (row column {first}{', ..' if len(found) > 8 else ''})"


def list_notes(water: Convertible, dry: np.ndarray) -> list[str]:
    """Entries of lists in dry cells, which act nowhere."""
    out = []
    for kind, periods in water.deck.lists.items():
        entries = [e for period in periods for e in period or [] if dry[water.model.index(e.cell)]]
        for e in entries:
            out.append(f"{e.file}, line {e.line}: this entry of {kind} is in a dry cell and acts nowhere")
    return out


# Confined decks of full layers.


def confined(deck: Deck) -> Deck:
    """The deck with LAYTYP 0 in all layers."""
    layers = [{name: array for name, array in layer.items() if name != "SY"} for layer in deck.properties]
    return dataclasses.replace(deck, layer_words=[["0"] * deck.nlay, *deck.layer_words[1:]], properties=layers)


def full_lines(water: Convertible, nam: Path, report: Report) -> list[str]:
    """Runs the confined deck, and says by how much its lower heads stay above the tops of the convertible layers;
    raises Problem where one doesn't."""
    notes = start_lines(water)
    layers = " ".join(str(k + 1) for k, some in enumerate(water.layers) if some)
    listing = listed(nam, bool(report.wide))
    cells = water.in_layer[np.flatnonzero(water.active)]
    tops = water.tops[np.flatnonzero(water.active)]
    least, where = None, ""
    for step in listing.steps:
        above = np.where(cells, step.low - tops, np.iinfo(np.int64).max)
        at = int(above.argmin())
        name = " ".join(map(str, listing.cells[at].tolist()))
        place = f"layer row column {name}, period {step.period} step {step.step}"
        if above[at] < 0:
            low, top = (decimal_text(int(units), 9) for units in (step.low[at], tops[at]))
            raise Problem(
                f"{place}: the lower head {low} is below the cell's top {top}, so that the layer may not be full there,"
                " and a confined deck is another model. `heads-tools certify --convertible` takes the deck as it is"
            )
        if least is None or above[at] < least:
            least, where = int(above[at]), place
    unit, count = water.model.length, counted(int(cells.sum()), "cell")
    return [
        f"LAYTYP of layer {layers} written as 0: {count} of them are full at each of"
        f" {counted(len(listing.steps), 'step')}, by {nam.with_suffix('.heads').name}",
        f"Each lower head of these layers is {decimal_text(least or 0, 9)} {unit} or more above its cell's top;"
        f" least at {where}.",
        WHY_CONFINED,
        *notes,
    ]


def start_lines(water: Convertible) -> list[str]:
    """What there is to say of starting heads below the tops; raises Problem where the first step's storage has them."""
    strt = pair_of_heads(water.deck.strt)[0]
    low = np.flatnonzero(water.in_layer & (water.model.ibound.ravel() > 0) & (strt < water.tops))
    if not low.size:
        return []
    cells = f"{counted(int(low.size), 'cell')}, first at layer row column {water.name(low[0])}"
    if not water.deck.periods[0].is_steady:
        raise Problem(
            f"STRT is below the top in {cells}: the first step takes water up by SY there, and a confined deck is"
            " another model. `heads-tools certify --convertible` takes the deck as it is"
        )
    return [
        f"CAREFUL: STRT is below the top in {cells}. The first period is steady, so the equations don't have STRT; a"
        " run of MODFLOW-2005 begins there and may dry cells on its way"
    ]


def listed(nam: Path, has_wide: bool) -> Listing:
    """The listing of the confined deck, with the digits that fit."""
    for digits in DIGITS:
        options = ["--digits", str(digits), *wide_words(has_wide)]
        ended = run(nam, options, nam.with_suffix(".heads"), is_told=False)
        if ended.status == 0:
            return ended.listing()
        if ended.last.split()[:2] not in (["NOBOUND", "21"], ["NOBOUND", "22"]):
            break
    lines = explain(ended.last, nam.parent, digits).lines
    raise Problem("the confined deck has no listing, so nothing shows that its layers are full: " + " ".join(lines))
