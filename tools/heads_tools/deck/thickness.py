"""What a deck says of its cells' thickness and conductivity otherwise than LPF with confined layers does."""
from __future__ import annotations

import re

import numpy as np

from ..common.text import Problem, counted
from .parameters import all_digits, decimals
from .reading import Reading
from .sources import Array

ZERO = re.compile(r"[+-]?[0.]+([EeDd][+-]?\d+|[+-]\d+)?")


def active_cells(reading: Reading) -> np.ndarray:
    """Where a deck has flow, shape (layers, rows, cols)."""
    deck = reading.deck
    if len(deck.ibound) < deck.nlay or len(deck.strt) < deck.nlay:
        raise Problem("IBOUND and STRT have to be read before it")
    return np.array([array.floats() != 0 for array in deck.ibound])


def cell_at(layer: int, at: int, cols: int) -> str:
    return f"{layer} {at // cols + 1} {at % cols + 1}"


def take_start_as_top(reading: Reading, line: int) -> None:
    """THICKSTRT with LAYTYP below 0 in layer 1: its thickness for conductances is STRT less its bottom. So STRT is its
    top here; storage by SS, which MODFLOW's manual doesn't speak of there, is refused where the two differ. `line`:
    that of LPF's options."""
    deck, active = reading.deck, active_cells(reading)[0]
    top, start = decimals(deck.top), decimals(deck.strt[0])
    changed = (top != start) & active
    if not changed.any():
        reading.need("THICKSTRT dropped: in layer 1 STRT is the top")
        return
    if deck.is_transient and "STORAGECOEFFICIENT" not in deck.options["LPF"].upper():
        reading.report.add(
            "refusals",
            deck.files["LPF"],
            line,
            "THICKSTRT with SS: MODFLOW's manual gives the thickness STRT less the bottom for conductances, and says"
            " nothing of storage. Write SS times the thickness that is meant, and STORAGECOEFFICIENT",
        )
        return
    cell = cell_at(1, int(np.flatnonzero(changed)[0]), deck.ncol)
    count = counted(int(changed.sum()), "cell")
    reading.need(f"LAYTYP below 0 with THICKSTRT: STRT written as the top of layer 1, in {count}, the first one {cell}")
    deck.top = Array(list(deck.strt[0].words), deck.strt[0].factor, deck.top.shape)


def demand_even_thickness(reading: Reading) -> None:
    """UPW takes the saturated thickness of the upstream one of two cells, LPF both: refuses neighbours that differ."""
    deck, active = reading.deck, active_cells(reading)
    for k in range(deck.nlay):
        with all_digits():
            thick = decimals(deck.top_of(k)) - decimals(deck.bottom[k])
        for down, here, there in (
            (1, np.s_[:-1, :], np.s_[1:, :]),
            (0, np.s_[:, :-1], np.s_[:, 1:]),
        ):
            differs = (thick[here] != thick[there]) & active[k][here] & active[k][there]
            if not differs.any():
                continue
            row, col = (int(x[0]) for x in np.nonzero(differs))
            one, two = f"{k + 1} {row + 1} {col + 1}", f"{k + 1} {row + 1 + down} {col + 2 - down}"
            reading.report.add(
                "refusals",
                deck.files["LPF"],
                1,
                f"UPW, and the neighbours {one} and {two} (layer row column) aren't equally thick: MODFLOW-NWT takes"
                " the thickness of the upstream cell there, LPF both",
            )
            return


def take_dry_cells_out(reading: Reading) -> None:
    """Cells of HK 0 without a vertical conductance: MODFLOW-2005 makes them inactive, so IBOUND is 0 there."""
    deck = reading.deck
    if not any(has_zero(layer["HK"]) for layer in deck.properties):
        return
    active = active_cells(reading)
    for k, layer in enumerate(deck.properties):
        none = dry = (layer["HK"].floats() == 0) & active[k]
        if deck.nlay > 1:
            is_ratio = float(deck.layer_words[3][k]) != 0
            dry = none & (layer["VKA"].floats() == 0) & (not is_ratio)
        take_out(reading, k, dry, "HK is 0")
        if (none & ~dry).any():
            cell = cell_at(k + 1, int(np.flatnonzero(none & ~dry)[0]), deck.ncol)
            reading.report.add(
                "refusals",
                layer["HK"].file,
                layer["HK"].line,
                f"the cell {cell} (layer row column): HK isn't above 0, and VKA isn't 0: MODFLOW-2005 may keep such a"
                " cell for its vertical flow, and `heads` has none such",
            )


def has_zero(array: Array) -> bool:
    """Whether a number of an array is 0. It is asked of each deck, so no number is made of a word."""
    return any(ZERO.fullmatch(word) for word in set(array.words))


def take_out(reading: Reading, k: int, cells: np.ndarray, why: str) -> None:
    """Writes IBOUND 0 into cells of a layer."""
    if not cells.any():
        return
    deck, array = reading.deck, reading.deck.ibound[k]
    cell, count = cell_at(k + 1, int(np.flatnonzero(cells)[0]), deck.ncol), counted(int(cells.sum()), "cell")
    where = "the cell" if cells.sum() == 1 else f"{count}, the first one"
    said = "IBOUND 0 there, as MODFLOW-2005 makes such cells inactive"
    reading.need(f"{why} in {where} {cell} (layer row column): {said}")
    words = [str(int(value)) for value in np.where(cells, 0, array.floats()).ravel()]
    deck.ibound[k] = Array(words, "1", array.shape, array.file, array.line)
