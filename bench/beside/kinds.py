"""Decks of the kinds of model that bench/beside measures, each of a size, the same bytes each time (numpy)."""
from __future__ import annotations

import zlib
from dataclasses import dataclass, field
from pathlib import Path
from typing import Callable, Iterable

import numpy as np

Row = tuple[float, ...]
STEADY = (1, 1, 1, "SS")


def smooth(random: np.random.Generator, shape: tuple[int, ...], lengths: float | tuple[float, ...]) -> np.ndarray:
    """A Gaussian field of mean 0 and deviation 1 whose values are alike within these numbers of cells."""
    squares: np.ndarray = np.zeros(shape)
    for axis, count in enumerate(shape):
        waves = 2 * np.pi * np.fft.fftfreq(count, 1.0)
        length = lengths if isinstance(lengths, (int, float)) else lengths[axis]
        squares = squares + (waves.reshape([-1 if i == axis else 1 for i in range(len(shape))]) * length) ** 2
    noise = np.fft.fftn(random.standard_normal(shape))
    values = np.fft.ifftn(noise * (1 + squares) ** (-(len(shape) + 1) / 4)).real
    return (values - values.mean()) / values.std()


def array(values: np.ndarray | float, form: str = "%.5g") -> str:
    """The record and the values of an array, or one value for all of it."""
    values = np.atleast_2d(values)
    if np.all(values == values.flat[0]):
        return f"CONSTANT {form % values.flat[0]}\n"
    return "INTERNAL 1 (FREE) -1\n" + "".join(" ".join(form % value for value in row) + "\n" for row in values)


@dataclass
class Deck:
    """A model of layers of one width. If it is held, the first column of each layer has the constant head `start`."""

    layers: int
    rows: int
    columns: int
    width: float = 100.0
    top: float = 60.0
    thickness: float = 20.0
    start: float = 50.0
    is_held: bool = True
    conductivity: np.ndarray = field(default_factory=lambda: np.ones((1, 1, 1)))
    vertical: float = 1.0
    recharge: float = 3e-4
    lists: dict[str, list[Row]] = field(default_factory=dict)
    evapotranspiration: tuple[np.ndarray, float, float] | None = None
    period: tuple[float, int, float, str] = STEADY
    storage: float = 1e-5

    def parts(self) -> Iterable[tuple[str, str]]:
        """The packages and their text."""
        layers, zeros = range(self.layers), " ".join(["0"] * self.layers) + "\n"
        bottoms = "".join(array(self.top - self.thickness * (k + 1)) for k in layers)
        size = f"{self.layers} {self.rows} {self.columns} 1 4 2\n"
        yield "DIS", size + zeros + array(self.width) * 2 + array(self.top) + bottoms + "%g %d %g %s\n" % self.period
        active = np.ones((self.rows, self.columns), int)
        active[:, 0] = -1 if self.is_held else 1
        yield "BAS6", "FREE\n" + array(active, "%d") * self.layers + "-999.99\n" + array(self.start) * self.layers
        rows = "0 -1E+30 0\n" + zeros * 2 + zeros.replace("0", "1") + zeros * 2
        for k in layers:
            values = np.broadcast_to(self.conductivity, (self.layers, self.rows, self.columns))[k]
            rows += array(values) + array(values * self.vertical)
            rows += array(self.storage) if self.period[3] == "TR" else ""
        yield "LPF", rows
        for name, entries in self.lists.items():
            lines = (" ".join("%d" % v if i < 3 else "%.6g" % v for i, v in enumerate(row)) for row in entries)
            yield name, f"{len(entries)} 0\n{len(entries)} 0\n" + "".join(line + "\n" for line in lines)
        yield "RCH", "3 0\n0\n" + array(self.recharge)
        if self.evapotranspiration:
            surface, rate, depth = self.evapotranspiration
            yield "EVT", "3 0\n0 0 0\n" + array(surface, "%.6g") + array(rate) + array(depth)

    def write(self, folder: Path) -> None:
        names = ""
        for unit, (name, text) in enumerate(self.parts(), 11):
            (folder / f"m.{name.lower()}").write_text(text)
            names += f"{name} {unit} m.{name.lower()}\n"
        (folder / "m.nam").write_text(names)


def river(random: np.random.Generator, side: int, column: int) -> list[Row]:
    """A river that winds along a column."""
    rows: list[Row] = []
    for i in range(side):
        column = int(np.clip(column + random.integers(-1, 2), 1, side - 2))
        rows.append((1, i + 1, column + 1, 48 - 2 * i / side, 100, 45 - 2 * i / side))
    return rows


def lognormal(random: np.random.Generator, side: int, deviation: float, mean: float) -> np.ndarray:
    return mean * np.clip(np.exp(deviation * smooth(random, (1, side, side), side / 16)), 1e-7, 2e3)


def cells_of(random: np.random.Generator, side: int, count: int) -> Iterable[tuple[int, int, int]]:
    """Cells of a layer, but for its first column."""
    for place in random.choice(side * (side - 1), count, replace=False):
        yield 1, int(place) // (side - 1) + 1, int(place) % (side - 1) + 2


def sheet(random: np.random.Generator, side: int, period: tuple[float, int, float, str] = STEADY) -> Deck:
    """One layer of conductivities from 1 to 10, whose last column is a river."""
    field = random.integers(1, 11, (1, side, side))
    last: list[Row] = [(1, i + 1, side, 9, 50, 8) for i in range(side)]
    places = ((1, 2), (2, 1), (2, 3), (3, 2))
    wells: list[Row] = [(1, max(1, side * i // 4), max(1, side * j // 4), -100) for i, j in places]
    lists = {"WEL": wells, "RIV": last}
    deck = Deck(1, side, side, top=10, thickness=10, start=10, conductivity=field, recharge=2e-5, lists=lists)
    deck.period = period
    return deck


def cube(random: np.random.Generator, side: int) -> Deck:
    """The same in as many layers as rows."""
    deck = sheet(random, side)
    deck.layers, deck.top, deck.conductivity = side, 10.0 * side, random.integers(1, 11, (side, side, side))
    deck.vertical = 0.1
    return deck


def rivers(random: np.random.Generator, side: int) -> Deck:
    """A network of rivers whose conductances vary by seven orders, and nothing else that holds heads."""
    found: dict[tuple[float, ...], Row] = {}
    for branch in range(6):
        for row in river(random, side, (branch + 1) * side // 7):
            bed = row[3] + random.uniform(-0.3, 0.3)
            found[row[:3]] = (*row[:3], bed, 10 ** random.uniform(-3, 4), bed - 2)
    return Deck(1, side, side, is_held=False, conductivity=lognormal(random, side, 1.5, 5), recharge=5e-4,
                lists={"RIV": list(found.values())})


def wells(random: np.random.Generator, side: int) -> Deck:
    """Wells in one of 32 cells."""
    rows: list[Row] = [(*cell, -10 * random.uniform(0.2, 1)) for cell in cells_of(random, side, side * side // 32)]
    return Deck(1, side, side, conductivity=lognormal(random, side, 1.5, 20), recharge=6e-4,
                lists={"RIV": river(random, side, 3 * side // 4), "WEL": rows})


def drains(random: np.random.Generator, side: int) -> Deck:
    """Drains in half of the cells, about their heads."""
    rows: list[Row] = [
        (*cell, 52 + 2 * random.standard_normal(), 10 ** random.uniform(-1, 3))
        for cell in cells_of(random, side, side * side // 2)
    ]
    return Deck(1, side, side, conductivity=lognormal(random, side, 1, 5), recharge=8e-4, lists={"DRN": rows})


def evapotranspiration(random: np.random.Generator, side: int) -> Deck:
    """Evapotranspiration from a surface about the heads of all cells."""
    surface = 54 + 3 * smooth(random, (side, side), side / 8)
    return Deck(1, side, side, conductivity=lognormal(random, side, 1, 3), recharge=8e-4,
                evapotranspiration=(surface, 3e-3, 3))


def contrasts(random: np.random.Generator, side: int) -> Deck:
    """Conductivities whose logarithms have a deviation of 2."""
    rows: list[Row] = [(*cell, -20 * random.uniform(0.2, 1)) for cell in cells_of(random, side, max(4, side // 8))]
    return Deck(1, side, side, conductivity=lognormal(random, side, 2, 3),
                lists={"RIV": river(random, side, 3 * side // 4), "WEL": rows})


def channels(random: np.random.Generator, side: int) -> Deck:
    """Channels of sand in clay, in eight layers."""
    shape = (8, side, side)
    sand = np.abs(smooth(random, shape, (1, 2.5, side / 5))) < 0.35
    field = np.where(sand, 40, 1e-4) * np.exp(0.3 * smooth(random, shape, 2))
    return Deck(8, side, side, thickness=4, conductivity=field, vertical=0.1, recharge=1e-5,
                lists={"RIV": river(random, side, 3 * side // 4)})


def karst(random: np.random.Generator, side: int) -> Deck:
    """Conduits of 10^3 in rock of 10^-2, in ten layers: walks at random."""
    field = np.full((10, side, side), 1e-2)
    most = np.array(field.shape) - 1
    for _ in range(side // 2):
        place = random.integers(0, most + 1)
        for _ in range(3 * side):
            field[tuple(place)] = 1e3
            axis = random.choice(3, p=[0.1, 0.45, 0.45])
            place[axis] = np.clip(place[axis] + random.choice([-1, 1]), 0, most[axis])
    ends: list[Row] = [(1, i + 1, side, 94, 50) for i in range(side)]
    deck = Deck(10, side, side, width=50, top=100, thickness=5, start=95, conductivity=field, lists={"DRN": ends})
    deck.vertical, deck.recharge = 1 / 3, 1e-4
    return deck


def faults(random: np.random.Generator, side: int) -> Deck:
    """Three layers cut into blocks by faults of 10^-6, with a drain in each fourth block."""
    field = 5 * np.exp(smooth(random, (3, side, side), (1, 4, 4)))
    field[:, 12::13, :] = field[:, :, 12::13] = 1e-6
    rows: list[Row] = [(1, i + 1, j + 1, 48, 20) for i in range(6, side, 26) for j in range(6, side, 26)]
    return Deck(3, side, side, conductivity=field, vertical=0.1, recharge=1e-5, lists={"DRN": rows})


KINDS: dict[str, Callable[[np.random.Generator, int], Deck]] = {
    "sheet": sheet,
    "cube": cube,
    "rivers": rivers,
    "wells": wells,
    "drains": drains,
    "evt": evapotranspiration,
    "contrasts": contrasts,
    "channels": channels,
    "karst": karst,
    "faults": faults,
}


def deck_of(case: str) -> Deck:
    """The deck of a case: KIND:SIDE, or steps:SIDE:COUNT, a sheet in steps of a day."""
    kind, side, *more = case.split(":")
    random = np.random.default_rng(zlib.crc32(case.encode()))
    if kind == "steps":
        return sheet(random, int(side), (float(more[0]), int(more[0]), 1, "TR"))
    return KINDS[kind](random, int(side))
