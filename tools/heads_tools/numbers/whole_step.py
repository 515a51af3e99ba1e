"""The equations of a time step in whole numbers: balances, and the flows of each term.

Numbers are those of whole.py. A flow into a cell falls as the cell's own head rises, so between two heads it is least
at the upper and most at the lower one. `side` is 0 for the least, 1 for the most."""
from __future__ import annotations

from fractions import Fraction
from typing import Any, Iterator

import numpy as np

from ..common.spelling import exact
from ..common.text import Problem
from ..deck.deck import Entry
from ..deck.sources import Array
from .equations import Given
from .whole import (
    HEAD_PLACES,
    Pair,
    WholeModel,
    constant_head,
    pair_of,
    places_of,
    product,
    quotient,
    scaled,
    step_length,
    whole,
)


class WholeStep:
    """The equations of a step. `constant`: heads of constant cells in 10^-9, rounded down and up, at all cells."""

    def __init__(self, network: WholeModel, period: int, number: int, given: Given):
        self.network, self.model, self.period, self.number = network, network.model, period, number
        ibound = self.model.ibound.ravel()
        self.is_constant = (ibound < 0) | ((ibound > 0) & np.isin(np.arange(ibound.size), list(given)))
        self.is_variable = (ibound > 0) & ~self.is_constant
        self.constant = tuple(side.copy() for side in network.start)
        for cell, (entry, is_now) in given.items():
            head = constant_head(self.model, period, number, entry, is_now)
            for side, units in zip(self.constant, pair_of(head, HEAD_PLACES)):
                side[cell] = units
        self.add_storage()
        self.add_lists()
        self.add_areal()

    def add_storage(self) -> None:
        self.storage_at = np.zeros(0, int)
        if not self.model.deck.periods[self.period - 1].is_steady:
            self.storage_at = np.flatnonzero(self.is_variable & (self.network.ss != 0))
        length = step_length(self.model, self.period, self.number) if self.storage_at.size else Fraction(1)
        self.storage = self.network.storage(self.storage_at, length)

    def add_lists(self) -> None:
        """The entries of WEL, GHB, RIV and DRN in variable cells: `at`, conductances (or flows), levels as pairs."""
        places = self.network.digits
        self.lists: dict[str, tuple[Any, ...]] = {}
        for kind, c, levels in (("WEL", 0, ()), ("GHB", 1, (0,)), ("RIV", 1, (0, 2)), ("DRN", 1, (0,))):
            at, found = [], []
            for entry in self.entries(kind):
                cell = self.model.index(entry.cell)
                if self.is_variable[cell] and exact(entry.words[c]) != 0:
                    at.append(cell)
                    size = places + HEAD_PLACES * (kind == "WEL")
                    pairs = [pair_of(exact(entry.words[c]), size)]
                    found.append(pairs + [pair_of(exact(entry.words[n]), HEAD_PLACES) for n in levels])
            columns = [tuple(whole([row[n][s] for row in found]) for s in (0, 1)) for n in range(1 + len(levels))]
            self.lists[kind] = (np.array(at, int), *columns)

    def entries(self, kind: str) -> list[Entry]:
        """The list of a package that holds in this period."""
        periods = self.model.deck.lists.get(kind, [])[: self.period]
        return next((entries for entries in reversed(periods) if entries is not None), [])

    def add_areal(self) -> None:
        """Recharge by receiving cell; evapotranspiration's conductances, surfaces and extinction elevations."""
        none = np.zeros(0, int)
        nothing = whole([]), whole([])
        self.recharge: tuple[np.ndarray, Pair] = (none, nothing)
        self.evap: tuple[np.ndarray, Pair, Pair, Pair] = (none, nothing, nothing, nothing)
        for kind in self.model.deck.areal:
            arrays, at, spots = self.receivers(kind)
            places = max(map(places_of, arrays.values()))
            values = {name: scaled(array, places)[spots] for name, array in arrays.items()}
            one, digits = whole([1] * len(at)), self.network.digits
            down = 2 * self.network.places
            area = self.network.area(spots)
            if kind == "RCH":
                flows = quotient(values["RECH"] * area, one, digits + HEAD_PLACES - down - places)
                self.recharge = (at, flows)
                continue
            some = values["EVTR"] > 0
            surf, rate, depth = (values[name][some] for name in ("SURF", "EVTR", "EXDP"))
            heads = lambda units: quotient(units, one[some], HEAD_PLACES - places)
            self.evap = (at[some], quotient(rate * area[some], depth, digits - down), heads(surf), heads(surf - depth))

    def receivers(self, kind: str) -> tuple[dict[str, Array], np.ndarray, np.ndarray]:
        """The arrays of RCH or EVT that hold, the variable cells that receive it, and their places on the map."""
        model, areal = self.model, self.model.deck.areal[kind]
        arrays: dict[str, Array] = {}
        for _, new in areal.periods[: self.period]:
            arrays |= new
        layers_of = arrays.pop("IRCH" if kind == "RCH" else "IEVT", None)
        size, active = model.area.size, (model.ibound != 0).reshape(model.shape[0], -1)
        layers = np.zeros(size, int)
        if areal.option == 2:
            if layers_of is None:
                raise Problem(f"{kind}: no layers are read")
            layers = layers_of.floats().astype(int).ravel() - 1
        elif areal.option == 3:
            layers = np.where(active.any(axis=0), active.argmax(axis=0), -1)
        spots = np.flatnonzero(layers >= 0)
        at = layers[spots] * size + spots
        kept = self.is_variable[at]
        return arrays, at[kept], spots[kept]

    def links(self) -> Iterator[tuple[np.ndarray, np.ndarray, Pair]]:
        """The branches between variable cells, by direction."""
        for a, b, (low, high) in self.network.links:
            both = self.is_variable[a] & self.is_variable[b]
            yield a[both], b[both], (low[both], high[both])

    def holders(self) -> Iterator[tuple[np.ndarray, np.ndarray, Pair]]:
        """The branches from variable cells to constant ones, by direction."""
        for first, second, (low, high) in self.network.links:
            for a, b in ((first, second), (second, first)):
                some = self.is_variable[a] & self.is_constant[b]
                yield a[some], b[some], (low[some], high[some])

    def flows(self, heads: np.ndarray, old: np.ndarray, side: int) -> Iterator[tuple[str, np.ndarray, np.ndarray]]:
        """Term, cells and least or most flows into them at these heads, for all but links of two variable cells."""
        for at, holder, pair in self.holders():
            yield "CONSTANT HEAD", at, product(pair, self.constant[side][holder] - heads[at], side)
        yield "STORAGE", self.storage_at, product(self.storage, old[self.storage_at] - heads[self.storage_at], side)
        at, flow = self.lists["WEL"]
        yield "WELLS", at, flow[side]
        yield "RECHARGE", self.recharge[0], self.recharge[1][side]
        at, c, level = self.lists["GHB"]
        yield "HEAD DEP BOUNDS", at, product(c, level[side] - heads[at], side)
        at, c, stage, bottom = self.lists["RIV"]
        fall = stage[side] - np.maximum(heads[at].astype(object), bottom[1 - side])
        yield "RIVER LEAKAGE", at, product(c, fall, side)
        at, c, level = self.lists["DRN"]
        yield "DRAINS", at, -c[1 - side] * np.maximum(heads[at] - level[side], 0)
        at, c, surf, ext = self.evap
        over = np.minimum(heads[at].astype(object), surf[1 - side]) - ext[side]
        yield "ET", at, -c[1 - side] * np.maximum(over, 0)

    def balance(self, heads: np.ndarray, old: np.ndarray, side: int) -> np.ndarray:
        """The least or the most of each cell's balance, shape (cells,); of a variable cell alone it means something."""
        total = np.zeros(heads.size, int).astype(object)
        for x, y, pair in self.links():
            rise = heads[y] - heads[x]
            total[x] += product(pair, rise, side)
            total[y] += product(pair, -rise, side)
        for _, at, flow in self.flows(heads, old, side):
            np.add.at(total, at, flow)
        return total
