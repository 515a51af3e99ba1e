"""The flows between zones at listed heads, with bounds in whole numbers: sums over the branches from cells of one zone
to cells of another, where one of the two cells is variable."""
from __future__ import annotations

from collections.abc import Iterable, Iterator

import numpy as np

from ..deck.model import Model
from .whole import Pair, WholeModel, product

Branches = Iterable[tuple[np.ndarray, np.ndarray, Pair]]
ZoneFlow = tuple[int, int, int, int]
ZONES = 1000
SLACK, ROUNDINGS = 10**15, 2


def zone_branches(model: Model, digits: int) -> list[tuple[np.ndarray, np.ndarray, Pair]]:
    """The branches between cells with flow, by direction, with conductances that hold the bounds which the program
    takes: it rounds each of some ten operations outward to 18 digits, so a part of 10^15 more is enough."""
    out = []
    for a, b, (low, high) in WholeModel(model, digits).links:
        out.append((a, b, (np.maximum(low - low // SLACK - ROUNDINGS, 0), high + high // SLACK + ROUNDINGS)))
    return out


def parts_zones(zones: np.ndarray, a: np.ndarray, b: np.ndarray) -> np.ndarray:
    """Whether two cells have two zones, 0 being none."""
    return (zones[a] != zones[b]) & (zones[a] != 0) & (zones[b] != 0)


def zone_flows(
    branches: Branches, zones: np.ndarray, is_variable: np.ndarray, low: np.ndarray, high: np.ndarray
) -> list[ZoneFlow]:
    """From, to, least and most, by ascending pairs of zones: those of all heads between `low` and `high`."""
    sums: dict[int, list[int]] = {}
    for pairs, least, most in turned(branches, zones, is_variable, low, high):
        for side, flows in enumerate((least, most)):
            for pair in np.unique(pairs).tolist():
                sums.setdefault(pair, [0, 0])[side] += int(flows[pairs == pair].sum())
    return [(pair // ZONES, pair % ZONES, least, most) for pair, (least, most) in sorted(sums.items())]


def turned(
    branches: Branches, zones: np.ndarray, is_variable: np.ndarray, low: np.ndarray, high: np.ndarray
) -> Iterator[tuple[np.ndarray, np.ndarray, np.ndarray]]:
    """Pairs of zones as one number, and the least and most flows from the lesser zone to the greater one."""
    for first, second, (least, most) in branches:
        some = parts_zones(zones, first, second) & (is_variable[first] | is_variable[second])
        a, b, pair = first[some], second[some], (least[some], most[some])
        x, y = (np.where(zones[a] < zones[b], *ends) for ends in ((a, b), (b, a)))
        numbers = zones[x] * ZONES + zones[y]
        yield numbers, product(pair, low[x] - high[y], 0), product(pair, high[x] - low[y], 1)
