"""What the script of an interactive map needs, as JSON: the grid, steps, and quantities with both their numbers for
each cell and step, packed. map/scene.mjs says what it makes of them."""
from __future__ import annotations

import base64
import zlib
from dataclasses import dataclass
from typing import Any

import numpy as np

from ..listing.below_top import units_at
from ..deck.deck import Deck
from ..listing.listing import UNITS_IN_ONE
from .pictures import MARKS, Plan

HEAD, FALL, CHANGE = "head", "fall", "change"
BYTES = 8


@dataclass
class Field:
    """A quantity with a lower and an upper number, in 10^-9, steps by cells. `kind`: heads, or base less plan (FALL:
    above 0 where the head is lowered), or plan less base (CHANGE)."""

    name: str
    kind: str
    low: np.ndarray
    high: np.ndarray


@dataclass
class Difference:
    """The difference of two fields, by their numbers: the script makes it, with bounds."""

    name: str
    kind: str
    less: tuple[int, int]


@dataclass
class Scene:
    """What a map shows. `verdict`, `source`: what a figure of it says below its title and at its end; `cells`: layer,
    row and column of each cell with flow; `steps`: period, step and the time at the end of each; `time`: the unit of
    times, empty where they aren't known; `zones`: of each cell with flow."""

    title: str
    verdict: str
    source: str
    shape: tuple[int, int, int]
    plan: Plan
    cells: np.ndarray
    steps: list[tuple[int, int, float]]
    time: str
    fields: list[Field | Difference]
    tops: np.ndarray | None = None
    bottoms: np.ndarray | None = None
    zones: np.ndarray | None = None
    is_certified: bool = False

    def data(self) -> dict[str, Any]:
        plan = self.plan
        return {
            "title": self.title,
            "verdict": self.verdict,
            "source": self.source,
            "shape": list(self.shape),
            "x": plan.x.tolist(),
            "y": (plan.y[0] - plan.y).tolist(),
            "is_true": plan.axis == plan.unit,
            "unit": plan.unit,
            "steps": [list(step) for step in self.steps],
            "time": self.time,
            "count": len(self.cells),
            "cells": packed(numbers_of(self.cells, self.shape)),
            "fields": [field_data(field) for field in self.fields],
            "tops": elevations(self.tops),
            "bottoms": elevations(self.bottoms),
            "zones": None if self.zones is None else packed(self.zones),
            "is_certified": self.is_certified,
            "marks": marks_of(plan, self.shape),
        }


def numbers_of(cells: np.ndarray, shape: tuple[int, int, int]) -> np.ndarray:
    """The numbers of cells (layer, row, column, from 1) in a grid, from 0."""
    return np.ravel_multi_index(tuple((cells - 1).T), shape).astype(np.int64)


def packed(values: np.ndarray) -> str:
    """Whole numbers, steps by cells, as a text: differences along the cells in the first step, and from step to step in
    the others; their bytes in the order of their size, deflated."""
    steps = np.atleast_2d(values).astype("<i8")
    changes = np.diff(steps, axis=0, prepend=np.zeros((1, steps.shape[1]), "<i8"))
    changes[0, 1:] = np.diff(steps[0])
    sizes = np.ascontiguousarray(changes).view(np.uint8).reshape(-1, BYTES)
    return base64.b64encode(zlib.compress(np.ascontiguousarray(sizes.T).tobytes(), 6)).decode()


def elevations(units: np.ndarray | None) -> dict[str, str] | None:
    """Elevations in 10^-9, packed without the zeros that all of them end with."""
    if units is None:
        return None
    factor = 1
    while factor < UNITS_IN_ONE and not (units % (10 * factor)).any():
        factor *= 10
    return {"factor": str(factor), "values": packed(units // factor)}


def field_data(field: Field | Difference) -> dict[str, Any]:
    named = {"name": field.name, "kind": field.kind}
    if isinstance(field, Difference):
        return named | {"less": list(field.less)}
    return named | {"low": packed(field.low), "width": packed(field.high - field.low)}


def marks_of(plan: Plan, shape: tuple[int, int, int]) -> list[dict[str, Any]]:
    """The entries of each kind that the plan has."""
    out = []
    for kind, (_, _, name) in MARKS.items():
        cells = plan.entries.get(kind, np.zeros((0, 3), int))
        if len(cells):
            numbers = np.unique(numbers_of(np.asarray(cells), shape))
            out.append({"kind": kind, "name": name, "cells": numbers.tolist()})
    return out


def bottoms_of(deck: Deck, cells: np.ndarray) -> np.ndarray:
    """The bottom of each cell, in 10^-9."""
    return units_at(deck, cells, lambda layer: deck.bottom[layer])
