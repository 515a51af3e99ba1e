"""A model's finite-difference equations in whole numbers.

A conductance is a pair of whole numbers of 10^-digits, between which the exact one of the deck's decimals lies; a head
is one of 10^-9; a flow is a pair, least and most, of 10^-(digits + 9). Nothing is rounded but outward. Arrays of
Python's own whole numbers (dtype object) hold what may pass 64 bits. `side` is 0 for the least, 1 for the most."""
from __future__ import annotations

from decimal import Decimal
from fractions import Fraction

import numpy as np

from ..common.spelling import EXACT, exact, exponent_of
from ..common.text import Problem
from ..deck.deck import Entry
from ..deck.model import Model
from ..deck.sources import Array

HEAD_PLACES = 9
MOST_CONDUCTANCE = 2**62
MOST_HEAD = 4 * 10**18
Pair = tuple[np.ndarray, np.ndarray]


def floor_of(value: Decimal | Fraction, places: int) -> int:
    """The greatest whole number of 10^-places that isn't above a value."""
    exactly = Fraction(value)
    return exactly.numerator * 10**places // exactly.denominator


def pair_of(value: Decimal | Fraction, places: int) -> tuple[int, int]:
    """The whole numbers of 10^-places next to a value: not above it, and not below it."""
    return floor_of(value, places), -floor_of(-value, places)


def whole(values: list[int]) -> np.ndarray:
    out = np.empty(len(values), object)
    out[:] = values
    return out


def scaled(array: Array, places: int) -> np.ndarray:
    """An array's values as whole numbers of 10^-places, shape (rows * cols,). They have no more places than that."""
    factor = Decimal(1) if array.is_constant or not exact(array.factor) else exact(array.factor)
    units = {word: floor_of(EXACT.multiply(exact(word), factor), places) for word in set(array.words)}
    size = array.shape[0] * array.shape[1]
    return whole([units[array.words[0]]] * size if array.is_constant else [units[word] for word in array.words])


def places_of(array: Array) -> int:
    """The most decimals of an array's values."""
    most = max(-exponent_of(exact(word).normalize(EXACT)) for word in set(array.words))
    factor = 0 if array.is_constant else -exponent_of(exact(array.factor).normalize(EXACT))
    return max(0, most) + max(0, factor)


def quotient(numerator: np.ndarray, denominator: np.ndarray, power: int) -> Pair:
    """The pairs of whole numbers next to numerator / denominator * 10^power."""
    up, down = 10 ** max(power, 0), 10 ** max(-power, 0)
    numerator, denominator = numerator * up, denominator * down
    return numerator // denominator, -(-numerator // denominator)


def product(pair: Pair, by: np.ndarray, side: int) -> np.ndarray:
    """The least or the most of c * by, where c lies in a pair whose numbers aren't negative."""
    low, high = pair
    return np.where((by < 0) == (side == 0), high, low).astype(object) * by.astype(object)


def joined(parts: list[np.ndarray], dtype: type = object) -> np.ndarray:
    return np.concatenate(parts).astype(dtype) if parts else np.zeros(0, dtype)


class WholeModel:
    """The branches between cells with flow, and what storage and areal flows are made of. `links`: for each direction
    the two cells' numbers and their conductances' pairs."""

    def __init__(self, model: Model, digits: int):
        self.model, self.digits, deck = model, digits, model.deck
        layers = [array for layer in deck.properties for array in layer.values()]
        lengths = [deck.delr, deck.delc, deck.top, *deck.bottom, *deck.bed_bottom.values()]
        rows = [Array([row[k]], "1", (1, 1)) for row in deck.layer_words[2:3] for k in range(deck.nlay)]
        self.places = max(map(places_of, lengths + layers + rows))
        self.active = model.ibound.ravel() != 0
        self.cells = np.arange(self.active.size).reshape(model.shape)
        self.delr, self.delc = self.scaled(deck.delr), self.scaled(deck.delc)
        self.read_layers()
        self.links = [self.along_rows(), self.along_columns(), self.downward()]
        if any((high >= MOST_CONDUCTANCE).any() for _, _, (_, high) in self.links):
            raise Problem(f"a conductance is too great for --digits {digits}")
        self.start = pair_of_heads(deck.strt)

    def scaled(self, array: Array) -> np.ndarray:
        return scaled(array, self.places)

    def read_layers(self) -> None:
        """Thickness, bed and properties of all cells, shape (cells,). Vertical resistances of half a cell are
        `half` / `half_by`."""
        deck, one = self.model.deck, 10**self.places
        above = self.scaled(deck.top)
        thick, bed, hk, hani, half, half_by, vkcb, ss = ([] for _ in range(8))
        none = np.zeros(above.size, int).astype(object)
        for k, layer in enumerate(deck.properties):
            bottom = self.scaled(deck.bottom[k])
            bed_bottom = self.scaled(deck.bed_bottom[k]) if k in deck.bed_bottom else bottom
            thick.append(above - bottom)
            bed.append(bottom - bed_bottom)
            above = bed_bottom
            hk.append(self.scaled(layer["HK"]))
            chani = Array([deck.layer_words[2][k]], "1", deck.top.shape)
            hani.append(self.scaled(layer.get("HANI", chani)))
            vka, is_ratio = self.scaled(layer["VKA"]), float(deck.layer_words[3][k]) != 0
            half.append(thick[-1] * vka if is_ratio else thick[-1])
            half_by.append(2 * hk[-1] * one if is_ratio else 2 * vka)
            vkcb.append(self.scaled(layer["VKCB"]) if "VKCB" in layer else none)
            ss.append(self.scaled(layer["SS"]) if "SS" in layer else none)
        self.thick, self.bed, self.hk, self.hani = map(joined, (thick, bed, hk, hani))
        self.half, self.half_by, self.vkcb, self.ss = map(joined, (half, half_by, vkcb, ss))

    def ends(self, first: np.ndarray, second: np.ndarray) -> tuple[np.ndarray, np.ndarray]:
        """The cells with flow of two sides of a direction's branches."""
        a, b = first.ravel(), second.ravel()
        both = self.active[a] & self.active[b]
        return a[both], b[both]

    def place(self, cells: np.ndarray) -> tuple[np.ndarray, np.ndarray]:
        """Rows and columns of cells, from 0."""
        nrow, ncol = self.model.shape[1:]
        return cells // ncol % nrow, cells % ncol

    def branches(self, a: np.ndarray, b: np.ndarray, pair: Pair) -> tuple[np.ndarray, np.ndarray, Pair]:
        low, high = (np.minimum(side, MOST_CONDUCTANCE).astype(np.int64) for side in pair)
        return a, b, (low, high)

    def along_rows(self) -> tuple[np.ndarray, np.ndarray, Pair]:
        """2 DELC Ta Tb / (DELR_a Tb + DELR_b Ta), T being HK times thickness."""
        a, b = self.ends(self.cells[:, :, :-1], self.cells[:, :, 1:])
        row, col = self.place(a)
        ta, tb = (self.hk[x] * self.thick[x] for x in (a, b))
        pair = quotient(
            2 * self.delc[row] * ta * tb,
            self.delr[col] * tb + self.delr[np.minimum(col + 1, self.delr.size - 1)] * ta,
            self.digits - 2 * self.places,
        )
        return self.branches(a, b, pair)

    def along_columns(self) -> tuple[np.ndarray, np.ndarray, Pair]:
        """2 DELR Ta Tb / (DELC_a Tb + DELC_b Ta), T being HK times HANI times thickness."""
        a, b = self.ends(self.cells[:, :-1], self.cells[:, 1:])
        row, col = self.place(a)
        ta, tb = (self.hk[x] * self.hani[x] * self.thick[x] for x in (a, b))
        pair = quotient(
            2 * self.delr[col] * ta * tb,
            self.delc[row] * tb + self.delc[np.minimum(row + 1, self.delc.size - 1)] * ta,
            self.digits - 3 * self.places,
        )
        return self.branches(a, b, pair)

    def downward(self) -> tuple[np.ndarray, np.ndarray, Pair]:
        """Area over the resistances of half of each cell, and of the bed between them."""
        a, b = self.ends(self.cells[:-1], self.cells[1:])
        bed_by = np.where(self.bed[a] != 0, self.vkcb[a], 1)
        by = self.half_by[a] * bed_by * self.half_by[b]
        resistance = self.half[a] * bed_by * self.half_by[b] + self.half[b] * self.half_by[a] * bed_by
        resistance = resistance + self.bed[a] * self.half_by[a] * self.half_by[b]
        return self.branches(a, b, quotient(self.area(a) * by, resistance, self.digits - 2 * self.places))

    def area(self, cells: np.ndarray) -> np.ndarray:
        """Areas of cells, in 10^-(2 places)."""
        row, col = self.place(cells)
        return self.delr[col] * self.delc[row]

    def storage(self, cells: np.ndarray, length: Fraction) -> Pair:
        """Storage over a step's length: SS times thickness (none of a coefficient) times area / length."""
        s, power = self.ss[cells] * self.area(cells), self.digits - 3 * self.places
        if not self.model.is_coefficient:
            s, power = s * self.thick[cells], power - self.places
        return quotient(s * length.denominator, np.full(len(s), length.numerator, object), power)


def pair_of_heads(arrays: list[Array]) -> Pair:
    """Heads of all layers in 10^-9, rounded down and up, shape (cells,)."""
    sides: tuple[list[int], list[int]] = ([], [])
    for array in arrays:
        factor = Decimal(1) if array.is_constant or not exact(array.factor) else exact(array.factor)
        units = {w: pair_of(EXACT.multiply(exact(w), factor), HEAD_PLACES) for w in set(array.words)}
        times = array.shape[0] * array.shape[1] if array.is_constant else 1
        for side, values in enumerate(sides):
            values += [min(max(units[w][side], -MOST_HEAD), MOST_HEAD) for w in array.words] * times
    return np.array(sides[0], np.int64), np.array(sides[1], np.int64)


def step_length(model: Model, period: int, number: int) -> Fraction:
    """The length of a step of a transient period, both counted from 1."""
    times = model.deck.periods[period - 1]
    perlen, mult = Fraction(exact(times.perlen)), Fraction(exact(times.tsmult))
    if mult == 1:
        return perlen / times.nstp
    return perlen * (mult - 1) / (mult**times.nstp - 1) * mult ** (number - 1)


def constant_head(model: Model, period: int, number: int, entry: Entry, is_now: bool) -> Fraction:
    """The head of a cell of CHD at the end of a step, exactly. `is_now`: this period's list names it."""
    begin, end = (Fraction(exact(w)) for w in entry.words)
    times = model.deck.periods[period - 1]
    if not is_now or begin == end or number == times.nstp or exact(times.perlen) == 0:
        return end
    mult = Fraction(1) if times.is_steady else Fraction(exact(times.tsmult))
    grown = lambda count: Fraction(count) if mult == 1 else (mult**count - 1) / (mult - 1)
    return begin + (end - begin) * grown(number) / grown(times.nstp)
