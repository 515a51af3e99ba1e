"""Zones of a listing: their numbers by cell, and the net flow of each."""
from __future__ import annotations

from pathlib import Path

import numpy as np

from ..common.text import Problem
from ..deck.array_records import read_array
from ..deck.reading import Reading
from ..deck.sources import Source
from .listing import Step


def read_zones(path: Path, nam: Path, shape: tuple[int, int, int]) -> np.ndarray:
    """The zone of each cell from a zone file: an array of whole numbers for each layer."""
    reading = Reading(nam)
    reading.at = Source(path, path.name, reading.report)
    layers = [read_array(reading, *shape[1:], f"the zones of layer {k + 1}") for k in range(shape[0])]
    zones = np.array([layer.floats() for layer in layers])
    wrong = np.argwhere((zones != np.round(zones)) | (zones < 0) | (zones > 999))
    if len(wrong):
        cell = tuple(wrong[0])
        at = " ".join(str(n + 1) for n in cell)
        raise Problem(f"{path}, cell {at} (layer row column): {zones[cell]:g} is no zone, a whole number from 0 to 999")
    return zones.astype(int)


def net_flows(step: Step) -> dict[int, tuple[int, int]]:
    """What flows into each zone from the other zones, less what flows out: bounds in the unit of the step's flows."""
    out: dict[int, tuple[int, int]] = {}
    for a, b, low, high in step.zones:
        for zone, (lo, hi) in ((a, (-high, -low)), (b, (low, high))):
            least, most = out.get(zone, (0, 0))
            out[zone] = (least + lo, most + hi)
    return out
