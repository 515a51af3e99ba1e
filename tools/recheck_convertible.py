#!/usr/bin/env python3
"""A third party's check of a listing of a model with convertible layers, in exact fractions. It stands on recheck.py.

    python3 recheck_convertible.py NAME LISTING [ZONES]      (in the deck's folder)

Status 0: HOLDS. 1: a place can't be confirmed. 2: a deck or the listing can't be read. 3: the words aren't these.
HOLDS says: each history of gentle heads that balances each variable cell to less than one unit of flow (10^-places of
the listing) at each step lies between the listed heads, and its flows in their pairs, step by step.

Convertible layers (LAYTYP not 0). A cell's saturated thickness is the lesser of its head and its top, less its bottom;
it stands for the thickness in row, column and vertical branches. Its water is SY A min(head, top) + SS THICK A
max(head - top, 0), without THICK under STORAGECOEFFICIENT. So at given heads a step is that of a confined model.

Gentle heads: each cell of a convertible layer has its head above its bottom; along a row or a column the head falls to
a variable cell by at most that cell's saturated thickness, or the cell is full; below a cell with flow the head isn't
below that cell's bottom, where one of the two is convertible.

What is tested of a step. l and u are its listed heads; a history's old heads lie between those of the step before.
  (1) The head of each constant cell lies in its pair.
  (2) No lower head lies above the upper one, and all heads between are gentle: it is enough to take the lower head of a
      cell and the upper head of its neighbour.
  (3) Each variable cell's balance at the heads l, with the lower old heads, is one unit or more; at u, with the upper
      old heads, minus one unit or less.
  (4) Each term's pair holds what its flows come to where each cell's head goes from u to l, and each pair of zones
      what flows through the faces between them, by each conductance and each fall of head between l and u.

Why that is enough. At gentle heads the flow through a branch into a cell falls weakly as the cell's own head rises and
rises weakly with the other one. Take C(x, y)(y - x), where the halves of the branch have the thicknesses p of the cell
with the lower head x and q of the other, and the drop is d = y - x. As x and p rise by the same small step, C rises by
at most C/p of its value times the half's share of the resistance, and the drop falls: the flow falls where d <= p. As
y rises, drop and thickness rise. In vertical branches the lower cell is full, so the thickness of the upper one changes
with its head alone: by at most the share 1/p of C, while the drop to the lower cell, which lies at or above the upper
cell's bottom, is at most p. Stored water rises with the head, all other flows fall as a cell's own head rises.

Now let x be the history's heads and take the cells where l > x. Go from x to l in these cells first and then in all
others: the flows among these cells cancel in the sum of their balances, and each flow from outside into them is at l
at most what it is at x. So the sum of balances at l is at most that at x, which is less than as many units as there are
cells: against (3). Hence l <= x, and x <= u likewise. (4) and the next step follow.
"""
import copy
import sys
from fractions import Fraction
from itertools import chain
from typing import NamedTuple, Optional

from recheck import (
    HOLDS, NOT_CONFIRMED, NOT_READ, ONE, USAGE, ZERO, Branch, Faces, Fault, Listing, Model, Step, Text, Time, Values,
    lines_of, text_of,
)  # fmt: skip

REFUSED_OPTIONS = ("CONSTANTCV", "NOCVCORRECTION", "NOVFC")


class Stored(NamedTuple):
    """What a convertible cell gives from storage: `drained` and `compressed` are the water of a unit of head below and
    above the top, over the length of the step."""
    drained: Fraction
    compressed: Fraction
    top: Fraction
    term: str = "STORAGE"

    def water(self, head: Fraction) -> Fraction:
        return self.drained * min(head, self.top) + self.compressed * max(head - self.top, ZERO)

    def flow(self, head: Fraction, old: Fraction) -> Fraction:
        return self.water(old) - self.water(head)


class WaterModel(Model):
    """A deck with convertible layers."""
    def __init__(self, name: str):
        super().__init__(name)
        self.top, self.bottom = Values(), Values()
        for cell, thick in enumerate(self.thick):
            above = cell - self.sheet
            self.top.append(self.surface[cell] if above < 0 else self.bottom[above] - self.bed[above])
            self.bottom.append(self.top[cell] - thick)

    def read_layers(self, text: Text) -> None:
        first = next(text)
        options = [word.upper() for word in first[3:]]
        for word in REFUSED_OPTIONS:
            if word in options:
                raise ValueError(f"the option {word} changes vertical branches")
        super().read_layers(chain([first], text))
        if "THICKSTRT" in options and any(value < 0 for value in self.laytyp):
            raise ValueError("under THICKSTRT a LAYTYP below 0 takes its thickness from STRT")

    def is_convertible(self, cell: int) -> bool:
        return self.laytyp[cell // self.sheet] != 0

    def saturated(self, cell: int, head: Fraction) -> Fraction:
        return min(head, self.top[cell]) - self.bottom[cell] if self.is_convertible(cell) else self.thick[cell]

    def step_at(self, time: Time, heads: Values) -> Step:
        """The equations of a step at these heads: a confined model's, and the water of convertible cells."""
        model = copy.copy(self)
        model.thick = [self.saturated(cell, head) if self.ibound[cell] else ONE for cell, head in enumerate(heads)]
        model.faces = [face for cell, kind in enumerate(self.ibound) if kind != 0 for face in model.faces_of(cell)]
        step = Step(model, time._replace(length=None))
        for cell in step.cells:
            if time.length is not None:
                height = ONE if self.is_coefficient else self.thick[cell]
                drained = self.sy[cell] * self.area[cell] / time.length
                compressed = self.ss[cell] * height * self.area[cell] / time.length
                if self.is_convertible(cell):
                    step.branches[cell].append(Stored(drained, compressed, self.top[cell]))  # type: ignore[arg-type]
                else:
                    step.branches[cell].append(Branch("STORAGE", compressed, None))
        return step

    def conductances(self, first: int, second: int, listing: Listing) -> Values:
        """Between two neighbours, the smaller number first, where each is at its lower or its upper head. A conductance
        rises with each thickness in a row or a column, and falls with it in a vertical branch: its range ends here."""
        model, out = copy.copy(self), Values()
        model.thick = list(self.thick)
        for head in (listing.lower[first], listing.upper[first]):
            for other in (listing.lower[second], listing.upper[second]):
                model.thick[first], model.thick[second] = self.saturated(first, head), self.saturated(second, other)
                out.append(next(conductance for _, cell, conductance in model.faces_of(first) if cell == second))
        return out


class WaterListing(Listing):
    """A listing of a model with convertible layers."""
    def __init__(self, name: str, model: Model):
        self.lines, self.at, self.model = lines_of(name), 0, model
        self.places = 9 + int(self.take(rf"HEADS 2 DIGITS (\d+) UNIT {model.unit} CONVERTIBLE")[0])


def hold_constants(step: Step, listing: Listing) -> None:
    """Each constant head lies in its pair; from here on it stands there itself."""
    for cell, head in sorted(step.constant.items()):
        if not listing.lower[cell] <= head <= listing.upper[cell]:
            side = "LOW" if listing.lower[cell] > head else "HIGH"
            raise Fault(f"{step.name} {step.place[cell]} {side}: the constant head {float(head)} isn't in its pair")
        listing.lower[cell] = listing.upper[cell] = head


def steep(model: WaterModel, cell: int, is_variable: bool, listing: Listing) -> Optional[str]:
    """Why heads between the listed ones needn't be gentle at a cell, or None."""
    head, above = listing.lower[cell], cell - model.sheet
    if head > listing.upper[cell]:
        return "the lower head lies above the upper one"
    if model.is_convertible(cell) and head <= model.bottom[cell]:
        return "the lower head isn't above the cell's bottom"
    if is_variable and model.is_convertible(cell) and head < model.top[cell]:
        for other in beside(model, cell):
            if listing.upper[other] - head > head - model.bottom[cell]:
                fall = float(listing.upper[other] - head)
                return f"from {model.place[other]} the head falls by {fall:.6g}, more than the saturated thickness"
    if above >= 0 and model.ibound[above] and (model.is_convertible(cell) or model.is_convertible(above)):
        if head < model.bottom[above]:
            return "the lower head lies below the bottom of the cell above"
    return None


def beside(model: Model, cell: int) -> list[int]:
    """The neighbours with flow along the row and the column."""
    row, col = divmod(cell % model.sheet, model.ncol)
    others = (
        (col > 0, cell - 1),
        (col + 1 < model.ncol, cell + 1),
        (row > 0, cell - model.ncol),
        (row + 1 < model.nrow, cell + model.ncol),
    )
    return [other for is_there, other in others if is_there and model.ibound[other]]


def demand_gentle(model: WaterModel, step: Step, listing: Listing) -> None:
    variable = set(step.cells)
    for cell, kind in enumerate(model.ibound):
        if kind != 0 and (why := steep(model, cell, cell in variable, listing)):
            raise Fault(f"{step.name} {model.place[cell]} GENTLE: {why}")


def check_signs(low: Step, high: Step, listing: Listing, old_low: Values, old_high: Values) -> None:
    unit = Fraction(1, 10**listing.places)
    for cell in low.cells:
        sides = ("LOW", 1, low, listing.lower, old_low), ("HIGH", -1, high, listing.upper, old_high)
        for side, sign, step, heads, old in sides:
            if (balance := sign * step.balance(cell, heads, old)) < unit:
                wrong = f"the balance lacks {float(unit - balance):.3g} of one unit of its sign"
                raise Fault(f"{low.name} {low.place[cell]} {side}: {wrong}")


def check_zones(model: WaterModel, step: Step, listing: Listing, faces: Faces) -> None:
    """From zone a to b: what each face has by any of its conductances and any fall of head between."""
    lower, upper = listing.lower, listing.upper
    for (a, b), (low, high) in listing.zones.items():
        sums = [ZERO, ZERO]
        for x, y, _ in faces[a, b]:
            conductances = model.conductances(min(x, y), max(x, y), listing)
            sums[0] += min(c * (lower[x] - upper[y]) for c in conductances)
            sums[1] += max(c * (upper[x] - lower[y]) for c in conductances)
        if low > sums[0] or high < sums[1]:
            raise Fault(f"{step.name} ZONE {a} {b}: the pair doesn't hold the flow")


def check_listing(model: WaterModel, listing: Listing, zones: list[int]) -> None:
    """A Fault at the first place of the listing that isn't confirmed."""
    low, high = model.strt, model.strt
    for time in model.times:
        full = Step(model, time)
        faces = full.zone_faces(zones)
        listing.read_step(time, faces)
        hold_constants(full, listing)
        demand_gentle(model, full, listing)
        at_low, at_high = model.step_at(time, listing.lower), model.step_at(time, listing.upper)
        check_signs(at_low, at_high, listing, low, high)
        # each flow into a cell is least at the upper heads and greatest at the lower ones
        pairs, listing.zones = listing.zones, {}
        at_high.check_flows(at_low, listing, low, high, {})
        listing.zones = pairs
        check_zones(model, full, listing, faces)
        low, high = listing.lower, listing.upper
    listing.take("END")
    if listing.lines[listing.at :] not in ([""], []):
        raise Fault(f"line {listing.at + 1} of the listing: something stands after END")


def main(words: list[str]) -> int:
    if len(words) not in (2, 3):
        print("usage: recheck_convertible.py NAME LISTING [ZONES]   (in the deck's folder)", file=sys.stderr)
        return USAGE
    try:
        model = WaterModel(words[0])
        zones = [0] * len(model.ibound)
        if words[2:]:
            zones = [int(value) for value in model.maps(text_of(words[2], has_comments=False), model.nlay)]
        check_listing(model, WaterListing(words[1], model), zones)
    except Fault as fault:
        print(f"NOT CONFIRMED: {fault}")
        return NOT_CONFIRMED
    except (OSError, StopIteration, KeyError, IndexError, ValueError, ZeroDivisionError) as error:
        print(f"NOT CONFIRMED: a deck or the listing can't be read here: {type(error).__name__} {error}")
        return NOT_READ
    print("HOLDS")
    return HOLDS


if __name__ == "__main__":
    sys.exit(main(sys.argv[1:]))
