"""A step's confined model whose tops are the water table: at given heads its branches are those of the model with
convertible layers. Its signs are computed here in whole numbers, and `heads check` tests them on its deck."""
from __future__ import annotations

import dataclasses
import tempfile
from fractions import Fraction
from pathlib import Path

import numpy as np

from ..common.limits import wide_words
from ..common.spelling import EXACT, number
from ..common.text import Problem, decimal_text
from ..deck.deck import Areal, Deck, Entry, Period
from ..deck.model import model_of
from ..deck.sources import Array
from ..deck.writing import write_deck
from ..listing.wide_listing import write_wide_listing
from ..numbers.equations import TERMS
from ..numbers.whole import HEAD_PLACES, MOST_HEAD, Pair, WholeModel, floor_of, whole
from ..numbers.whole_step import WholeStep
from ..program.program import call
from .convertible import ONE, Convertible, Heads
from .water_steps import StepData

SIDES = ("LOW", "HIGH")
ANCHOR = "1"
# The program rounds each operation of a formula to 18 digits; here a formula is rounded once. One unit and this share of
# a number are room for that.
ROUNDINGS = 10**16


class Frozen:
    """The frozen model of a step at heads of one side: 0 the lower ones, 1 the upper ones. `heads`: 10^-9, by cell;
    `flow`: the stored water that comes free over the step's length, at least (side 0) or at most, by cell."""

    def __init__(self, water: Convertible, data: StepData, digits: int, side: int, heads: Heads, old: Heads):
        self.water, self.data, self.digits, self.side = water, data, digits, side
        self.heads = np.where(data.is_constant, data.constant[side], heads)
        self.deck = frozen_deck(water, data, self.heads)
        self.step = whole_step(self.deck, data, digits)
        if (data.constant[0] != data.constant[1])[data.is_constant].any():
            others = np.where(data.is_constant, data.constant[1 - side], self.heads)
            widen(self.step, whole_step(frozen_deck(water, data, others), data, digits))
        self.flow = self.storage(old)

    def storage(self, old: Heads) -> dict[int, Fraction]:
        """The flow out of storage into each variable cell from its old head to its head."""
        data, water = self.data, self.water
        if data.stored is None:
            return {}
        cells = np.flatnonzero(data.is_variable).tolist()
        held = lambda heads, cell: water.water(data.stored, cell, heads[cell])
        return {cell: held(old, cell) - held(self.heads, cell) for cell in cells}

    def stored(self, old: Heads) -> Pair:
        """The least and the most flow of stored water into each variable cell, with room for roundings."""
        places, flows = self.digits + HEAD_PLACES, self.storage(old)
        falls = {cell: abs(int(old[cell]) - int(self.heads[cell])) for cell in flows}
        least = [floor_of(flow, places) - room(flow, falls[cell], places) for cell, flow in flows.items()]
        most = [-floor_of(-flow, places) + room(flow, falls[cell], places) for cell, flow in flows.items()]
        return whole(least), whole(most)

    def rounded(self, flow: Fraction, places: int) -> int:
        """A flow in 10^-places, on this side's safe side."""
        return floor_of(flow, places) if self.side == 0 else -floor_of(-flow, places)

    def wrong_sign(self) -> int | None:
        """The first variable cell that doesn't gain at least 10^-9 at the lower heads, or doesn't lose as much at the
        upper ones."""
        places = self.digits + HEAD_PLACES
        total = self.step.balance(self.heads, self.heads, self.side)
        for cell, flow in self.flow.items():
            total[cell] += self.rounded(flow, places)
        strict = 10**self.digits
        is_wrong = total < strict if self.side == 0 else total > -strict
        found = np.flatnonzero(self.data.is_variable & is_wrong.astype(bool))
        return int(found[0]) if found.size else None

    def check(self, has_wide: bool) -> str:
        """The last line of `heads check` on the frozen deck, with storage and the unit of flow as wells. Its words for
        a place name the cell of the model."""
        deck = self.with_wells()
        pair = [self.heads, np.where(self.data.is_variable, MOST_HEAD, self.heads)]
        if self.side == 1:
            pair = [np.where(self.data.is_variable, -MOST_HEAD, self.heads), self.heads]
        cells = np.flatnonzero(self.water.active)
        places = np.argwhere(self.water.model.ibound != 0) + 1
        with tempfile.TemporaryDirectory(prefix="heads_frozen_") as name:
            folder = Path(name)
            write_deck(deck, folder)
            terms = list(TERMS)[: 8 if "EVT" in deck.areal else 7]
            units = pair[0][cells], pair[1][cells]
            write_wide_listing(folder / "m.heads", self.digits, deck.lenuni, places, *units, terms)
            return call(["check", "m.nam", "m.heads", "--digits", str(self.digits), *wide_words(has_wide)], folder).last

    def with_wells(self) -> Deck:
        """The frozen deck with wells for stored water and for the unit of flow. A cell with storage has a general head
        at its own head, too: it gives no flow there, and holds the cell as storage does."""
        unit = Fraction(-1 if self.side == 0 else 1, ONE)
        wells, anchors = [], []
        for cell in np.flatnonzero(self.data.is_variable).tolist():
            place = self.water.model.cell(cell)
            flow = self.rounded(self.flow.get(cell, Fraction(0)) + unit, HEAD_PLACES)
            wells.append(Entry(place, [short(decimal_text(flow, HEAD_PLACES))], "", 0))
            if cell in self.flow:
                anchors.append(Entry(place, [decimal_text(int(self.heads[cell]), HEAD_PLACES), ANCHOR], "", 0))
        deck, lists = self.deck, {kind: list(entries) for kind, entries in self.deck.lists.items()}
        for kind, more in (("WEL", wells), ("GHB", anchors)):
            if more:
                lists[kind] = [[*(lists.get(kind, [[]])[0] or []), *more]]
        return named(dataclasses.replace(deck, lists=lists, options={"WEL": "1 0", "GHB": "1 0"} | deck.options))


def short(word: str) -> str:
    """A word of a flow of at most 18 digits."""
    if number(word).change:
        raise Problem(f"a storage flow of {word} has more than 18 digits: other units of length or of time")
    return word


def whole_step(deck: Deck, data: StepData, digits: int) -> WholeStep:
    step = WholeStep(WholeModel(model_of(deck), digits), 1, 1, {})
    step.constant = data.constant
    return step


def room(flow: Fraction, fall: int, places: int) -> int:
    """By how much the program's bound of stored water may be off: a unit of its storage below the top and above it, for
    each 10^-9 that the head falls."""
    return 2 * fall + int(abs(flow) * 10**places) // ROUNDINGS + 1 if flow else 0


def wider(pair: Pair) -> Pair:
    """A number's bounds, with room for those that the program has of it; zero is exact."""
    low, high = pair[0].astype(object), pair[1].astype(object)
    more = lambda units: np.where(units != 0, abs(units) // ROUNDINGS + 1, 0)
    return low - more(low), high + more(high)


def widen_rounded(step: WholeStep) -> None:
    """Gives the program room in the conductances of branches and of evapotranspiration, and in recharge."""
    step.network.links = [(a, b, wider(pair)) for a, b, pair in step.network.links]
    step.recharge = (step.recharge[0], wider(step.recharge[1]))
    step.evap = (step.evap[0], wider(step.evap[1]), *step.evap[2:])


def widen(step: WholeStep, other: WholeStep) -> None:
    """Gives each branch of a step the conductances of both, and all between them."""
    pairs = zip(step.network.links, other.network.links)
    step.network.links = [(a, b, (np.minimum(p[0], q[0]), np.maximum(p[1], q[1]))) for (a, b, p), (_, _, q) in pairs]


def named(deck: Deck) -> Deck:
    """The deck with files of its own names."""
    kinds = ["DIS", "BAS6", "LPF", *deck.lists, *deck.areal]
    files = {kind: f"m.{kind.lower()}" for kind in kinds}
    lines = [f"{kind} {unit} {file}" for unit, (kind, file) in enumerate(files.items(), 11)]
    return dataclasses.replace(deck, path=Path("m.nam"), files=files, name_lines=lines, comments={})


def frozen_deck(water: Convertible, data: StepData, heads: Heads) -> Deck:
    """The confined, steady deck of a step: no elevation above a cell with the water table is above its head."""
    deck, shape = water.deck, water.shape[1:]
    top, bottom, bed_bottom = deck.top, list(deck.bottom), dict(deck.bed_bottom)
    for k in range(deck.nlay):
        here = slice(k * water.size, (k + 1) * water.size)
        is_low = water.has_table[here] & (heads[here] < water.tops[here])
        if not is_low.any():
            continue
        words = [
            decimal_text(int(head), HEAD_PLACES) if low else plain_word(deck.top_of(k), r)
            for r, (head, low) in enumerate(zip(heads[here], is_low))
        ]
        array = Array(words, "1", shape) if len(words) > 1 else Array(words, "0", shape)
        if k == 0:
            top = array
        elif k - 1 in bed_bottom:
            bed_bottom[k - 1] = array
        else:
            bottom[k - 1] = array
    ibound = np.where(data.is_constant, -1, water.active.astype(int)).reshape(water.shape)
    strt = heads.reshape(water.shape)
    return dataclasses.replace(
        deck,
        top=top,
        bottom=bottom,
        bed_bottom=bed_bottom,
        periods=[Period("1", 1, "1", True)],
        is_free=True,
        options=dict(deck.options) | {"BAS6": "FREE", "LPF": "0 -1E+30 0"},
        layer_words=[["0"] * deck.nlay, *deck.layer_words[1:]],
        properties=[{n: a for n, a in p.items() if n not in ("SS", "SY")} for p in deck.properties],
        ibound=[Array([str(v) for v in layer.ravel()], "1", shape) for layer in ibound],
        strt=[Array([decimal_text(int(v), HEAD_PLACES) for v in layer.ravel()], "1", shape) for layer in strt],
        lists={kind: [entries_of(deck, kind, data.period)] for kind in deck.lists if kind != "CHD"},
        areal={kind: areal_of(areal, kind, data.period) for kind, areal in deck.areal.items()},
    )


def plain_word(array: Array, at: int) -> str:
    """A value of an array as one word, without a factor."""
    word = f"{array.exact(at).normalize(EXACT):f}"
    if number(word).change:
        raise Problem(f"the elevation {word} has more than 18 digits")
    return word


def entries_of(deck: Deck, kind: str, period: int) -> list[Entry]:
    return next((entries for entries in reversed(deck.lists[kind][:period]) if entries is not None), [])


def areal_of(areal: Areal, kind: str, period: int) -> Areal:
    """RCH or EVT with the arrays that hold in a period."""
    arrays: dict[str, Array] = {}
    for _, changed in areal.periods[:period]:
        arrays |= changed
    flags = [1] * ((1 if kind == "RCH" else 3) + (areal.option == 2))
    return Areal(areal.option, [(flags, arrays)])


def budget(low: Frozen, high: Frozen, old: Pair) -> dict[str, list[int]]:
    """Each term's least and most in, least and most out, in 10^-(digits + 9), between the lower and the upper heads: a
    flow into a cell is least at the upper ones and most at the lower ones. `old`: the heads of the step before."""
    sums = {name: [0, 0, 0, 0] for name in TERMS}
    widen_rounded(low.step)
    widen_rounded(high.step)

    def add(name: str, least: np.ndarray, most: np.ndarray) -> None:
        for at, values in enumerate((least, most, -most, -least)):
            sums[name][at] += int(np.maximum(values, 0).sum()) if len(values) else 0

    flows = zip(high.step.flows(high.heads, high.heads, 0), low.step.flows(low.heads, low.heads, 1))
    for (name, _, least), (_, _, most) in flows:
        add(name, least, most)
    least, _ = high.stored(old[0])
    _, most = low.stored(old[1])
    add("STORAGE", least, most)
    return {name: sums[name] for name in list(TERMS)[: 8 if "EVT" in low.deck.areal else 7]}
