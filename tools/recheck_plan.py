#!/usr/bin/env python3
"""A third party's check of a listing of `heads run NAME --plan WELLS`, in exact fractions. It stands on recheck.py.

    python3 recheck_plan.py NAME LISTING WELLS [ZONES] [--wide] [--to NAME2]      (in the deck's folder)

Status 0: HOLDS. 1: a place can't be confirmed. 2: a deck or the listing can't be read. 3: the words aren't these.
HOLDS says: take any weather (that of the deck; with a second deck, of each step anew some numbers of stresses, and at
the start some STRT, between those of the two) and the two histories of heads that solve the equations in it, x without
the wells of WELLS and y with them. Then x lies within BASE, y within PLAN and x - y within DRAWDOWN, step by step; what
each term gives more at y than at x lies within SOURCE, and what flows more from zone to zone within ZONE.

BASE and PLAN are tested as recheck.py tests a listing's heads. Subtract the balances of a cell at y from those at x:

    in both                                     of d = x - y
    a link C (x' - x)                           a link C (d' - d)
    a known head H: C (H - x)                   C (0 - d); of storage C (old d - d), and old d is 0 at first
    a river above its bottom, a drain above     c (0 - d), where c is C times the share of the way from x to y that lies
    its elevation: C (level - max(x, foot))     above the foot: from 0 to C, and all of C where x = y
    evapotranspiration                          the same, of the part between extinction elevation and surface
    wells and recharge of both                  nothing
    a well Q of the plan alone                  -Q

So d solves a step of the same kind, whose conductances c aren't known but bounded. The share of the way between two
heads above a foot rises with both heads and falls with the foot. With x in BASE and y in PLAN it is least at both lower
heads and the highest foot, greatest at both upper heads and the lowest foot. Of evapotranspiration c is C times the
share above the extinction elevation less that above the surface. recheck.py says of two decks, between which a step's
conductances lie, why lower and upper heads of which the signs of the balances are right enclose each solution: here c
lies between its two bounds, and each group of cells has to have a known head by the least conductances.

SOURCE. A term gives C (H - y) - C (H - x) = C d more at each branch, of a river c d, of storage C (d - old d): least
and greatest by the bounds of c, d and old d, summed. All terms together give what the plan's wells take, so a term is
no more than that less the least of the others. Its pair has to hold what both leave. ZONE: over each face
C (d of b - d of a) flows more from a to b.
"""
import copy
import sys
from fractions import Fraction
from typing import Optional

from recheck import (
    HOLDS, NOT_CONFIRMED, NOT_READ, ONE, TERMS, USAGE, ZERO, Branch, Entries, Faces, Fault, Listing, Model, Pair, Step,
    Time, Values, demand_alike, lines_of, text_of,
)  # fmt: skip

SOURCES = [name for name in TERMS if name not in ("WELLS", "RECHARGE")]
PARTS = ("BASE", "PLAN", "DRAWDOWN")
Plan = list[Entries]


class Heads:
    """Lower and upper heads, or differences, of all cells."""
    def __init__(self, count: int):
        self.lower, self.upper = [ZERO] * count, [ZERO] * count


class PlanListing(Listing):
    """A plan's listing, read step by step: of each cell the three pairs; the pairs of SOURCE and ZONE."""
    def __init__(self, name: str, model: Model, is_span: bool):
        self.lines, self.at, self.model = lines_of(name), 0, model
        self.places = 9 + int(self.take(rf"DRAWDOWN 1 DIGITS (\d+) UNIT {model.unit}" + " TO" * is_span)[0])

    def read_step(self, time: Time, faces: Faces) -> None:
        self.take(f"STEP {time.period + 1} {time.step + 1}")
        self.parts = {word: Heads(len(self.model.ibound)) for word in PARTS}
        for cell, kind in enumerate(self.model.ibound):
            for word, heads in self.parts.items():
                if kind != 0:
                    heads.lower[cell], heads.upper[cell] = self.pair(f"{word} {self.model.place[cell]}", 9)
        names = SOURCES if "EVT" in self.model.stresses else SOURCES[:-1]
        self.terms = {("SOURCE", name): self.pair("SOURCE", self.places, f" {name}") for name in names}
        self.zones = {(a, b): self.pair(f"ZONE {a} {b}", self.places) for a, b in faces}


def planned(model: Model, plan: Plan) -> Model:
    """The model with the plan's wells after its own."""
    out = copy.copy(model)
    own = model.stresses.get("WEL", [[] for _ in plan])
    out.stresses = {**model.stresses, "WEL": [[*wells, *added] for wells, added in zip(own, plan)]}
    return out


def share(foot: Fraction, one: Fraction, other: Fraction) -> Fraction:
    """The part of the way between two heads that lies above a foot."""
    low, high = min(one, other), max(one, other)
    if foot <= low:
        return ONE
    return ZERO if high <= foot else (high - foot) / (high - low)


class Ramps:
    """Bounds of the conductances of a cell's rivers, drains and evapotranspirations between the heads of both plans."""
    def __init__(self, base: Heads, plan: Heads, cell: int):
        self.lower = base.lower[cell], plan.lower[cell]
        self.upper = base.upper[cell], plan.upper[cell]

    def above(self, feet: Pair) -> Pair:
        """The least and the greatest share above a foot between these two."""
        return share(max(feet), *self.lower), share(min(feet), *self.upper)

    def of(self, package: str, values: Values, others: Values, area: Fraction) -> Optional[tuple[str, Pair]]:
        """The term of an entry whose numbers lie between these, and its conductance in the differences."""
        pairs = list(zip(values, others))
        if package == "GHB":
            return "HEAD DEP BOUNDS", scaled(pairs[1], (ONE, ONE))
        if package == "RIV":
            return "RIVER LEAKAGE", scaled(pairs[1], self.above(pairs[2]))
        if package == "DRN":
            return "DRAINS", scaled(pairs[1], self.above(pairs[0]))
        if package == "EVT" and values[1] > 0:
            surface, depth = pairs[0], values[2]
            on, off = self.above((surface[0] - depth, surface[1] - depth)), self.above(surface)
            rates = pairs[1][0] * area / depth, pairs[1][1] * area / depth
            return "ET", scaled(rates, (max(on[0] - off[1], ZERO), max(on[1] - off[0], ZERO)))
        return None


def scaled(conductances: Pair, shares: Pair) -> Pair:
    return min(conductances) * shares[0], max(conductances) * shares[1]


class Difference(Step):
    """The equations of the differences: those with the least flows (sign 1) or the greatest (-1), by the base step of
    this sign, the second deck and the heads of both plans. `ways`: of each cell the terms and bounds of its branches'
    conductances."""
    def __init__(self, base: Step, second: Model, time: Time, plan: Plan, heads: tuple[Heads, Heads], sign: int):
        self.model, self.place, self.name = base.model, base.place, base.name
        self.cells, self.links = base.cells, base.links
        self.constant = {cell: ZERO for cell in base.constant}
        self.ways: dict[int, list[tuple[str, Pair]]] = {cell: [] for cell in self.cells}
        for cell in self.cells:
            for branch in base.branches[cell]:
                if branch.term in ("STORAGE", "CONSTANT HEAD"):
                    self.ways[cell].append((branch.term, (branch.conductance, branch.conductance)))
        for package, periods in self.model.stresses.items():
            for (cell, values), (_, others) in zip(periods[time.period], second.stresses[package][time.period]):
                if cell in self.ways:
                    way = Ramps(*heads, cell).of(package, values, others, self.model.area[cell])
                    self.ways[cell] += [way] if way else []
        self.branches: dict[int, list[Branch]] = {}
        for cell, ways in self.ways.items():
            self.branches[cell] = [part for way in ways for part in parts_of(*way, sign)]
        for cell, values in plan[time.period]:
            if cell in self.branches:
                self.branches[cell].append(Branch("WELLS", ONE, -values[0], ZERO, ZERO, deep=-values[0]))
        self.deep = {cell: sum((branch.deep for branch in parts), ZERO) for cell, parts in self.branches.items()}

    def demand_held(self) -> None:
        """A Fault where a group of cells has no known head: that its deep flows sum to more than 0 isn't enough."""
        for group in self.groups():
            if all(low <= 0 for cell in group for _, (low, _) in self.ways[cell]):
                raise Fault(f"{self.name} {self.place[group[0]]}: nothing holds the drawdown of the group of this cell")

    def sources(self, heads: Heads, low: Values, high: Values) -> dict[str, Pair]:
        """What each term gives more under the plan, by its sums and by what the others leave."""
        sums = {name: [ZERO, ZERO] for name in SOURCES}
        for cell in self.cells:
            for term, (least, most) in self.ways[cell]:
                old = (low[cell], high[cell]) if term == "STORAGE" else (ZERO, ZERO)
                down, up = heads.lower[cell] - old[1], heads.upper[cell] - old[0]
                sums[term][0] += (least if down >= 0 else most) * down
                sums[term][1] += (most if up >= 0 else least) * up
        takes = sum(self.deep.values(), ZERO)
        all_low, all_high = (sum((pair[at] for pair in sums.values()), ZERO) for at in (0, 1))
        return {
            name: (max(one, takes - all_high + other), min(other, takes - all_low + one))
            for name, (one, other) in sums.items()
        }  # fmt: skip


def parts_of(term: str, bounds: Pair, sign: int) -> list[Branch]:
    """A branch to 0 whose conductance lies between two: the least one, and the rest where it makes the flow less (sign
    1) or greater (-1)."""
    least, most = bounds
    if term == "STORAGE":
        return [Branch(term, least, None)]
    rest = Branch(term, most - least, ZERO, low=ZERO) if sign > 0 else Branch(term, most - least, ZERO, high=ZERO)
    return [Branch(term, least, ZERO)] + [rest] * (most > least)


def check_step(
    models: tuple[Model, Model], plan: Plan, time: Time, listing: PlanListing, zones: list[int], old: dict[str, Heads]
) -> None:
    """A Fault at the first place of a step that isn't confirmed. `old`: the heads and differences before it."""
    steps = []
    for word in PARTS[:2]:
        one, two = (planned(each, plan) for each in models) if word == "PLAN" else models
        steps.append((Step(one, time, two), Step(one, time, two, -1)))
    faces = steps[0][0].zone_faces(zones)
    listing.read_step(time, faces)
    for word, (least, most) in zip(PARTS, steps):
        named(word, least, most, listing, old[word])
    both = listing.parts["BASE"], listing.parts["PLAN"]
    least, most = (Difference(step, models[1], time, plan, both, sign) for step, sign in zip(steps[0], (1, -1)))
    least.demand_held()
    named("DRAWDOWN", least, most, listing, old["DRAWDOWN"])
    heads = listing.parts["DRAWDOWN"]
    found = least.sources(heads, old["DRAWDOWN"].lower, old["DRAWDOWN"].upper)
    for (_, name), (low, high) in listing.terms.items():
        if low > found[name][0] or high < found[name][1]:
            raise Fault(f"{least.name} SOURCE {name}: the pair doesn't hold what the term gives more")
    for (a, b), (low, high) in listing.zones.items():
        less = sum((c * (heads.lower[y] - heads.upper[x]) for x, y, c in faces[a, b]), ZERO)
        more = sum((c * (heads.upper[y] - heads.lower[x]) for x, y, c in faces[a, b]), ZERO)
        if low > less or high < more:
            raise Fault(f"{least.name} ZONE {a} {b}: the pair doesn't hold what flows more")


def named(word: str, least: Step, most: Step, listing: PlanListing, old: Heads) -> None:
    """The heads of a part of the listing are confirmed, else a Fault that names it."""
    listing.lower, listing.upper = listing.parts[word].lower, listing.parts[word].upper
    try:
        least.check_heads(most, listing, old.lower, old.upper)
    except Fault as fault:
        raise Fault(f"{word}: {fault}") from None


def check_plan(models: tuple[Model, Model], plan: Plan, listing: PlanListing, zones: list[int]) -> None:
    """A Fault at the first place of the listing that isn't confirmed."""
    old = {word: Heads(len(models[0].ibound)) for word in PARTS}
    for word in PARTS[:2]:
        starts = list(zip(*(each.strt for each in models)))
        old[word].lower, old[word].upper = [min(pair) for pair in starts], [max(pair) for pair in starts]
    for time in models[0].times:
        check_step(models, plan, time, listing, zones, old)
        old = listing.parts
    listing.take("END")
    if listing.lines[listing.at :] not in ([""], []):
        raise Fault(f"line {listing.at + 1} of the listing: something stands after END")


def main(arguments: list[str]) -> int:
    least, words = -4e9 if "--wide" in arguments else float("-inf"), [word for word in arguments if word != "--wide"]
    words, second = (words[:-2], words[-1]) if words[-2:-1] == ["--to"] else (words, None)
    if len(words) not in (3, 4) or "--to" in words:
        said = "usage: recheck_plan.py NAME LISTING WELLS [ZONES] [--wide] [--to NAME2]   (in the deck's folder)"
        print(said, file=sys.stderr)
        return USAGE
    try:
        model = Model(words[0], least)
        models = model, model if second is None else Model(second, least)
        demand_alike(*models)
        plan = model.read_list(text_of(words[2]), 1)
        zones = [0] * len(model.ibound)
        if words[3:]:
            zones = [int(value) for value in model.maps(text_of(words[3], has_comments=False), model.nlay)]
        check_plan(models, plan, PlanListing(words[1], model, second is not None), zones)
    except Fault as fault:
        print(f"NOT CONFIRMED: {fault}")
        return NOT_CONFIRMED
    except (OSError, StopIteration, KeyError, IndexError, ValueError, ZeroDivisionError) as error:
        print(f"NOT CONFIRMED: a deck or the listing can't be read here: {type(error).__name__} {error}")
        return NOT_READ
    print("HOLDS")
    return HOLDS


if __name__ == "__main__":
    sys.exit(main(sys.argv[1:]))
