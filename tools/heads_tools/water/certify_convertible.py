"""certify --convertible: a listing of a model with convertible layers round the heads of a run.

At each step two solves in doubles, with a little less and a little more water, give lower and upper heads. All heads
between them have to be gentle (gentle.py), and at each cell the balance at the lower heads is at least 10^-9, at the
upper ones at most -10^-9. `heads check` tests these signs on two confined decks (frozen.py), and they are computed here
in whole numbers, too, since the program passes a cell at its floor or its ceiling without a sign. Then the listing has
to be certified by `heads check --convertible`, where the program has the word: what that certifies is proved."""
from __future__ import annotations

import os
import sys
import tempfile
from pathlib import Path

import numpy as np

from ..common.kept_files import demand_free
from ..common.limits import PLAIN, is_large, wide_words
from ..common.text import counted
from ..listing.headfile import read_heads
from ..listing.listing import Listing, Step
from ..numbers.certify import Certified, write_listing
from ..numbers.whole import Pair, pair_of_heads
from ..program.explain import explain
from ..program.program import call, checks_convertible
from .convertible import Convertible, read_convertible
from .frozen import SIDES, Frozen, budget
from .gentle import GENTLE, NotGentle, first_not_gentle
from .run_heads import RunHeads
from .water_solver import WaterStep
from .water_steps import Found, StepData, steps_of

MARGINS = (1.5, 4.0, 12.0, 40.0, 200.0)
ONE = 10**9
PROVED = "heads check --convertible certified the listing, and what that certifies is proved."
NOT_PROVED = (
    "Tested and not proved: that these signs enclose the gentle heads of the model. This program has no check"
    " --convertible, which proves it. Saturated thickness, storage and the budget are computed by heads-tools."
)


class Refused(Exception):
    """Where a step isn't certified: the words of its place, its status and lines for people."""

    def __init__(self, last: str, lines: list[str], status: int = 8):
        super().__init__(last)
        self.ended = Certified(status, last, [last, *lines])

    @property
    def is_narrow(self) -> bool:
        """Whether wider margins may help: a sign is missing."""
        return self.ended.last.endswith(SIDES)


def certify_convertible(
    nam: Path, heads: Path, digits: int, out: Path, factor: float | None = None, has_wide: bool = False
) -> Certified:
    """Writes the listing where each step is certified, else nothing."""
    demand_free(out)
    water, report = read_convertible(nam)
    for remark in [*report.needed, *report.warnings]:
        print(f"CAREFUL: {remark}", file=sys.stderr)
    run = RunHeads(heads, read_heads(heads, water.shape, np.inf), water)
    work = Bounds(water, run, digits, (factor,) if factor else MARGINS, has_wide or needs_wide(water))
    tried = out.with_name(out.name + ".tried")
    try:
        listing = work.listing(tried)
    except Refused as refused:
        return refused.ended
    write_listing(listing, water.model)
    is_proved = checks_convertible()
    if is_proved and (refusal := check_refusal(nam, listing, work.has_wide)):
        return refusal
    os.replace(tried, out)
    listing.path = out
    return Certified(0, "CERTIFIED", [*said(water, listing, work, is_proved), *run.differences(listing)], listing)


def check_refusal(nam: Path, listing: Listing, has_wide: bool) -> Certified | None:
    """How `heads check --convertible` ends on a listing that it doesn't certify."""
    words = ["check", nam.name, str(listing.path.resolve()), "--digits", str(listing.digits), "--convertible"]
    ended = call([*words, *wide_words(has_wide)], nam.parent)
    if ended.last == "CERTIFIED":
        return None
    return Certified(ended.status or 6, ended.last, [ended.last, f"{listing.path} is no certificate"])


def needs_wide(water: Convertible) -> bool:
    """Whether a frozen deck is larger than the program takes without --wide: it has a well in each cell."""
    entries = [len(each or []) for kind in ("WEL", "GHB") for each in water.deck.lists.get(kind, [])]
    return is_large(water.shape) or int(water.active.sum()) + max(entries, default=0) > PLAIN.entries


def said(water: Convertible, listing: Listing, work: Bounds, is_proved: bool) -> list[str]:
    """What a certified listing says, and what was proved and tested."""
    flow = f"{water.model.length}3/{water.model.time}"
    cells = counted(int(water.in_layer.sum()), "cell")
    balance = f"10^-{listing.digits + 9}" if is_proved else "10^-9"
    return [
        f"CERTIFIED for gentle heads: {listing.path} (margins of {work.widest_margin:g} roundings)",
        f"All histories of gentle heads that balance each cell at each step to less than {balance} {flow} lie between"
        " the listed heads, with their budget's flows. Of solutions that aren't gentle nothing is said.",
        GENTLE,
        f"heads check certified two confined decks for each of {counted(len(listing.steps), 'step')}, whose tops are"
        " the water tables of the lower and of the upper heads; the signs were computed here in whole numbers, too.",
        PROVED if is_proved else NOT_PROVED,
        f"{listing.summary()}; {work.unconfined} of {cells} of convertible layers have a water table at some step",
    ]


class Bounds:
    """Lower and upper heads of all steps, each tested."""

    def __init__(self, water: Convertible, run: RunHeads, digits: int, margins: tuple[float, ...], has_wide: bool):
        self.water, self.run, self.digits, self.margins, self.has_wide = water, run, digits, margins, has_wide
        self.widest_margin = 0.0
        self.ever_low = np.zeros(len(water.active), bool)

    @property
    def unconfined(self) -> int:
        return int(self.ever_low.sum())

    def listing(self, path: Path) -> Listing:
        water, model = self.water, self.water.model
        active = np.flatnonzero(water.active)
        cells = np.argwhere(model.ibound != 0) + 1
        out = Listing(path, self.digits, model.deck.lenuni, cells=cells, end="END", is_convertible=True)
        old, start = pair_of_heads(water.deck.strt), model.strt.ravel()
        for data in steps_of(water):
            start, found = self.step(data, old, start)
            old = found.low, found.high
            self.ever_low |= water.in_layer & (found.high < water.tops)
            out.steps.append(Step(data.period, data.number, found.low[active], found.high[active], found.terms))
        return out

    def step(self, data: StepData, old: Pair, start: np.ndarray) -> tuple[np.ndarray, Found]:
        """The middle heads in doubles, and the tested pair."""
        solver = WaterStep(self.water, data, 10.0**-self.digits)
        before = (old[0] / ONE + old[1] / ONE) / 2
        held = (data.constant[0] / ONE + data.constant[1] / ONE) / 2
        guess = np.where(data.is_constant, held, self.run.start(data, start))
        fault = self.run.fault(data)
        begin = above_bottoms(self.water, guess) if fault is None else raised(self.water, guess, data)
        middle = solver.solve(begin, before, 0.0)
        ended = self.tried(data, solver, old, middle, self.margins[0])
        for factor in self.margins[1:]:
            if isinstance(ended, Found) or not ended.is_narrow:
                break
            ended = self.tried(data, solver, old, middle, factor)
        if fault is not None:
            others = ended if isinstance(ended, Found) else None
            about = self.run.about(data, fault, others, solver.imbalance(guess, before))
            raise self.not_gentle(data, fault, f"The heads of {self.run.path.name} aren't gentle", about)
        if isinstance(ended, Refused):
            raise ended
        return middle, ended

    def tried(
        self, data: StepData, solver: WaterStep, old: Pair, middle: np.ndarray, factor: float
    ) -> Found | Refused:
        """The pair of one margin, or why it isn't certified."""
        pair = []
        for side, sign in ((0, -factor), (1, factor)):
            heads = solver.solve(middle, old[side] / ONE, sign)
            units = np.floor(heads * ONE) if side == 0 else np.ceil(heads * ONE)
            pair.append(np.where(data.is_constant, data.constant[side], units.astype(np.int64)))
        low, high = pair
        if fault := first_not_gentle(self.water, low, high, data.is_variable):
            return self.not_gentle(data, fault, f"Heads within pairs of {factor:g} roundings needn't be gentle", [])
        frozen = [Frozen(self.water, data, self.digits, side, pair[side], old[side]) for side in (0, 1)]
        for side in (0, 1):
            if (cell := frozen[side].wrong_sign()) is not None:
                return self.not_certified(data, self.water.name(cell), SIDES[side], factor)
        for side in (0, 1):
            if (last := frozen[side].check(self.has_wide)) != "CERTIFIED":
                return self.refused(data, last, factor)
        self.widest_margin = max(self.widest_margin, factor)
        return Found(low, high, budget(frozen[0], frozen[1], old))

    def not_gentle(self, data: StepData, fault: NotGentle, what: str, lines: list[str]) -> Refused:
        last = f"NOT CERTIFIED {data.period} {data.number} {self.water.name(fault.cell)} GENTLE"
        return Refused(last, [f"{what}: {fault.text}.", *lines, GENTLE])

    def not_certified(self, data: StepData, place: str, side: str, factor: float) -> Refused:
        text = f"No pair was found at which this cell's balance has its sign, with margins of {factor:g} roundings."
        return Refused(f"NOT CERTIFIED {data.period} {data.number} {place} {side}", [text])

    def refused(self, data: StepData, last: str, factor: float) -> Refused:
        """What the program's end on a frozen deck means for the model."""
        w = last.split()
        if w[:2] == ["NOT", "CERTIFIED"] and len(w) >= 8:
            return self.not_certified(data, " ".join(w[4:7]), " ".join(w[7:]), factor)
        with tempfile.TemporaryDirectory() as folder:
            meaning = explain(last, Path(folder), self.digits)
        where = f"That is the end of heads check on the confined deck of {data.name}."
        return Refused(last, [where, *meaning.lines], meaning.status or 6)


def above_bottoms(water: Convertible, heads: np.ndarray) -> np.ndarray:
    """Heads to begin with: in cells with the water table above their bottoms."""
    bottom = water.model.bottom.ravel()
    least = bottom + np.minimum(0.5 * water.model.thick.ravel(), 20.0)
    return np.where(water.has_table & (heads <= bottom), least, heads)


def raised(water: Convertible, heads: np.ndarray, data: StepData) -> np.ndarray:
    """Heads above which the water table isn't looked for: at the greatest head, or at the top of the cell."""
    top = (water.model.bottom + water.model.thick).ravel()
    greatest = float(heads[water.active].max(initial=-np.inf))
    return np.where(water.has_table & data.is_variable, np.maximum(heads, np.minimum(top, greatest)), heads)
