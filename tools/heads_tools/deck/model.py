"""A deck's model as numpy arrays of doubles: shapes (layers, rows, cols), lengths in the deck's length unit."""
from __future__ import annotations

from dataclasses import dataclass, field
from fractions import Fraction
from pathlib import Path

import numpy as np

from ..common.text import LENGTHS, TIMES, Problem, counted
from .deck import Deck
from .packages import read_deck


@dataclass(repr=False)
class Model:
    """`thick`, `bed`: thickness of layers and of the beds below them (0 where there is none); `vk`: vertical
    conductivity, VKA or HK / VKA; `ss`: specific storage, or the coefficient where `is_coefficient`."""

    deck: Deck
    delr: np.ndarray
    delc: np.ndarray
    top: np.ndarray
    bottom: np.ndarray
    thick: np.ndarray
    bed: np.ndarray
    ibound: np.ndarray
    strt: np.ndarray
    hk: np.ndarray
    hani: np.ndarray
    vk: np.ndarray
    ss: np.ndarray
    vkcb: np.ndarray
    is_coefficient: bool
    times: dict[tuple[int, int], tuple[float, float]] = field(default_factory=dict)

    def __repr__(self) -> str:
        nlay, nrow, ncol = self.shape
        return f"<model {self.deck.path.name}: {nlay} x {nrow} x {ncol} cells, {counted(len(self.times), 'time step')}>"

    @property
    def shape(self) -> tuple[int, int, int]:
        layers, rows, columns = self.thick.shape
        return layers, rows, columns

    @property
    def length(self) -> str:
        return LENGTHS.get(self.deck.lenuni, "length units")

    @property
    def time(self) -> str:
        return TIMES.get(self.deck.itmuni, "time units")

    @property
    def area(self) -> np.ndarray:
        """Horizontal area of cells, shape (rows, cols)."""
        return np.outer(self.delc, self.delr)

    def index(self, cell: tuple[int, int, int]) -> int:
        """The number of a cell from its layer, row and column."""
        return ((cell[0] - 1) * self.shape[1] + cell[1] - 1) * self.shape[2] + cell[2] - 1

    def cell(self, index: int) -> tuple[int, int, int]:
        k, rest = divmod(int(index), self.shape[1] * self.shape[2])
        return (k + 1, rest // self.shape[2] + 1, rest % self.shape[2] + 1)


def read_model(nam: str | Path, any_size: bool = False) -> Model:
    """The model of a deck. A deck with a refusal has none; more cells than the program takes with --wide are one,
    unless `any_size`."""
    deck, report = read_deck(Path(nam), any_size=any_size)
    if report.refusals:
        raise Problem(f"{report.refusals[0]} (`heads-tools inside` says all)")
    return model_of(deck)


def growth(mult: float, count: int) -> float:
    """1 + T + .. + T^(count-1), T being TSMULT."""
    return float(count) if mult == 1 else (mult**count - 1) / (mult - 1)


def value(word: str) -> float:
    return float(word.replace("D", "E").replace("d", "e"))


def exact_value(word: str) -> Fraction:
    return Fraction(word.strip().replace("D", "E").replace("d", "e"))


def model_of(deck: Deck) -> Model:
    """The model of a deck that was read whole."""
    shape = (deck.nlay, deck.nrow, deck.ncol)
    stack = lambda arrays: np.array([a.floats() for a in arrays]).reshape(shape)
    bottom, top = stack(deck.bottom), deck.top.floats()
    bed_bottom = bottom.copy()
    for k, array in deck.bed_bottom.items():
        bed_bottom[k] = array.floats()
    above = np.concatenate([top[None], bed_bottom[:-1]])
    layer = lambda name, default: np.array(
        [p[name].floats() if name in p else default(k) for k, p in enumerate(deck.properties)]
    ).reshape(shape)
    chani, layvka = ([float(x) for x in deck.layer_words[at]] for at in (2, 3))
    flat = lambda v: np.full(shape[1:], v)
    hk, vka = layer("HK", None), layer("VKA", None)
    vk = np.array(
        [v if layvka[k] == 0 else np.divide(hk[k], v, out=np.zeros_like(v), where=v != 0) for k, v in enumerate(vka)]
    )
    options = deck.options.get("LPF", "").upper().replace(",", " ").split()[3:]
    model = Model(
        deck,
        deck.delr.floats()[0],
        deck.delc.floats()[0],
        top,
        bottom,
        above - bottom,
        bottom - bed_bottom,
        stack(deck.ibound).astype(np.int64),
        stack(deck.strt),
        hk,
        layer("HANI", lambda k: flat(chani[k])),
        vk,
        layer("SS", lambda k: flat(0.0)),
        layer("VKCB", lambda k: flat(0.0)),
        "STORAGECOEFFICIENT" in options,
    )
    model.times = times_of(deck)
    return model


def times_of(deck: Deck) -> dict[tuple[int, int], tuple[float, float]]:
    """For each period and step, the time since the period's begin and since the model's begin, at the step's end."""
    out, begin = {}, 0.0
    for p, period in enumerate(deck.periods, 1):
        length, mult = value(period.perlen), value(period.tsmult)
        for step in range(1, period.nstp + 1):
            within = length if step == period.nstp else length * growth(mult, step) / growth(mult, period.nstp)
            out[p, step] = (within, begin + within)
        begin += length
    return out


def exact_ends(deck: Deck) -> dict[tuple[int, int], Fraction]:
    """The time since the model's begin at the end of each period and step, exactly."""
    out, begin = {}, Fraction(0)
    for p, period in enumerate(deck.periods, 1):
        length, mult, count = exact_value(period.perlen), exact_value(period.tsmult), period.nstp
        a, b = mult.numerator, mult.denominator
        for step in range(1, count + 1):
            share = Fraction(step, count)
            if mult != 1:
                share = Fraction((a**step - b**step) * b ** (count - step), a**count - b**count)
            out[p, step] = begin + length * share
        begin += length
    return out
