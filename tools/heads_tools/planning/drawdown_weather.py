"""What a plan does whatever the weather. A program that has --plan lists it, and checks that listing. With an older
one, and in any weather at all: two listings bound where the heads of both plans stand, their shares make two difference
decks, and the listing of these bounds what the plan does. The program runs and checks each listing; that the two
difference decks enclose every pair of plans isn't proved."""
from __future__ import annotations

import tempfile
from dataclasses import dataclass, field
from pathlib import Path

import numpy as np

from ..common.limits import wide_words
from ..common.text import Problem
from ..deck.differences import what_differs
from ..deck.model import Model, model_of, read_model
from ..deck.packages import read_deck
from ..deck.places import Place, named_place
from ..listing.fitting import demand_fit
from ..listing.listing import Listing, read_listing
from ..listing.made_by import QUICK
from ..listing.plan_listing import PlanListing, read_plan_listing
from ..listing.points import spot_at
from ..listing.spans import second_deck
from ..program.explain import explain
from ..program.program import Ended, call, checks_plans, digits_of, lists_plans, run
from ..program.verdict import Verdict, check_listing, made_now
from .difference_decks import (
    ADDED,
    DRAWDOWN_LISTING,
    HIGH_DIFFERENCE,
    LOW_DIFFERENCE,
    PLAN_HIGH,
    write_added,
    write_difference_decks,
    write_plan_decks,
)
from .plan_decks import BASE, HIGH, PLAN, Plan, Spelled, demand_weather, read_plan, spelled
from .plan_sources import Sources, listed_sources, sources_of, without_equation
from .shares import Branch, Weather, heads_of
from .stretches import Stretch, stretches_of

DIFFERENCE = "difference"
Cell = tuple[int, int, int]
Point = tuple[str, float, float, int]


@dataclass
class Asked:
    """What is asked for: the decks, whether the weather is any at all, cells with the names that they are said by,
    points of the map (name, x, y, layer), and words for the program."""

    base: Path
    plan: Path
    high: Path | None = None
    is_any: bool = False
    cells: dict[Cell, str] = field(default_factory=dict)
    points: list[Point] = field(default_factory=list)
    digits: int | None = None
    is_quick: bool = False
    has_wide: bool = False

    def words(self) -> list[str]:
        digits = [] if self.digits is None else ["--digits", str(self.digits)]
        return [*digits, *[QUICK] * self.is_quick, *wide_words(self.has_wide)]


@dataclass
class Effect:
    """What the plan does until the end of a step. `low`, `high`: bounds of base less plan, in 10^-9 at each cell with
    flow; `subtracted`: those that the two listings of heads leave by themselves, where there are such."""

    period: int
    step: int
    low: np.ndarray
    high: np.ndarray
    sources: Sources
    subtracted: tuple[np.ndarray, np.ndarray] | None = None


@dataclass
class Weathered:
    """What a plan does in every weather: the decks, the listing of the differences and those of both plans' heads, if
    any, the verdicts on them (that on the differences first), the effects of all steps, the model of the plan, and how
    many ramps are surely connected in both plans, surely not, and neither. `is_listed`: the program itself lists what
    the plan does, and no difference decks were written."""

    asked: Asked
    base: Spelled
    high: Spelled
    plan: Plan
    listing: Listing
    heads: list[Listing]
    verdicts: list[Verdict]
    effects: list[Effect]
    model: Model
    ramps: tuple[int, int, int]
    is_listed: bool = False

    @property
    def holds(self) -> bool:
        """Whether each listing was certified, or made by this program just now."""
        return all(seen.holds for seen in self.verdicts)

    @property
    def is_certified(self) -> bool:
        return all(seen.is_certified for seen in self.verdicts)

    @property
    def differing(self) -> list[str]:
        """What of the weather differs between the two decks."""
        return differing(self.base, self.high)

    @property
    def weather(self) -> str:
        """For which weather it is said."""
        return "whatever the weather is" if self.asked.is_any else said_between(self.base, self.high)

    @property
    def is_chosen(self) -> bool:
        """Whether it is said of more than one weather."""
        return self.asked.is_any or bool(self.differing)


def differing(base: Spelled, high: Spelled) -> list[str]:
    """What of the weather differs between two decks."""
    return [] if high is base else what_differs(base.deck, high.deck)


def said_between(base: Spelled, high: Spelled) -> str:
    """The weather between two decks, in words."""
    if high is base:
        return f"in the weather of {base.name}"
    found = differing(base, high)
    if not found:
        return f"in the weather of {base.name}, which is that of {high.name}"
    named = " and ".join([", ".join(found[:-1])] * (len(found) > 1) + found[-1:])
    return f"whatever the {named} may be between those of {base.name} and {high.name}"


def weathered(asked: Asked, folder: Path) -> Weathered:
    """Writes the decks into a folder, runs and checks them there."""
    base, high, plan = decks_of(asked, folder)
    if is_by_program(asked.is_any):
        write_added(folder, plan)
        return by_listing(asked, base, high, plan, *plan_listed(folder, high is not base, asked), folder)
    runs: list[tuple[Listing, Verdict]] = []
    if not asked.is_any:
        ends = (HIGH, PLAN_HIGH) if high is not base else ("", "")
        runs = [listed(folder, stem, end, stem, asked) for stem, end in zip((BASE, PLAN), ends)]
    heads = [listing for listing, _ in runs]
    stretches = stretches_of(base, is_split=bool(heads))
    branches = branches_of(base, high, stretches, heads)
    write_difference_decks(folder, base, plan, stretches, branches, asked.has_wide)
    difference, verdict = listed(folder, LOW_DIFFERENCE, HIGH_DIFFERENCE, DIFFERENCE, asked)
    effects = effects_of(base, stretches, branches, heads, difference)
    verdicts = [verdict, *(seen for _, seen in runs)]
    model, ramps = read_model(folder / f"{PLAN}.nam"), ramps_of(branches)
    return Weathered(asked, base, high, plan, difference, heads, verdicts, effects, model, ramps)


def is_by_program(is_any: bool) -> bool:
    """Whether the program lists what the plan does: not in any weather at all, of which it has no word."""
    return not is_any and lists_plans()


def written_by(folder: Path, is_any: bool) -> Listing:
    """The listing of base less plan that was written into a folder."""
    if is_by_program(is_any):
        return read_plan_listing(folder / DRAWDOWN_LISTING).drawdown
    return read_listing(folder / f"{DIFFERENCE}.heads")


def decks_of(asked: Asked, folder: Path) -> tuple[Spelled, Spelled, Plan]:
    """The base deck, the other end of the weather and the plan, whose decks are written into a folder."""
    base, high = weather_of(asked, folder)
    plan = read_plan(asked.plan, base, folder, asked.has_wide)
    write_plan_decks(folder, base, high, plan)
    return base, high, plan


def weather_of(asked: Asked, folder: Path) -> tuple[Spelled, Spelled]:
    """The base deck and the other end of the weather, which are written into a folder."""
    base = spelled(asked.base, folder, BASE, asked.has_wide)
    find_cells(asked, base)
    high = base
    if to := second_deck(asked.base, asked.high):
        high = spelled(asked.base.with_name(to[1]), folder, HIGH, asked.has_wide)
        demand_weather(base, high)
        demand_alike(folder, asked)
    return base, high


def plan_listed(folder: Path, is_span: bool, asked: Asked, is_told: bool = True) -> tuple[PlanListing, Verdict]:
    """The program's own listing of what the plan does, and what `heads check` says of it; where it takes no such
    listing, that this run made it. `is_told`: progress on standard error."""
    nam, to = folder / f"{BASE}.nam", ["--to", f"{HIGH}.nam"] if is_span else []
    options = ["--plan", ADDED, *to, *asked.words()]
    ended = run(nam, options, folder / DRAWDOWN_LISTING, is_told=is_told)
    demand_listing(ended, folder, options, "There are no bounds of what the plan does.")
    listing = ended.plan_listing()
    if not checks_plans():
        return listing, made_now(nam, listing.drawdown)
    return listing, check_listing(nam, listing.drawdown, None, to, asked.has_wide, folder / ADDED)


def looked_at(asked: Asked, listing: PlanListing, verdict: Verdict) -> Weathered:
    """What a plan's listing says that was made before."""
    with tempfile.TemporaryDirectory(prefix="heads_") as folder:
        return by_listing(asked, *decks_of(asked, Path(folder)), listing, verdict, Path(folder))


def by_listing(
    asked: Asked, base: Spelled, high: Spelled, plan: Plan, listing: PlanListing, verdict: Verdict, folder: Path
) -> Weathered:
    """What a plan does as the program lists it. The tighter of the listed bounds and those of the listed heads,
    subtracted, is taken: both are proved."""
    model = read_model(folder / f"{PLAN}.nam")
    demand_fit(listing.drawdown, model)
    weather, effects, branches = Weather(base, high), list[Effect](), []
    for n, step in enumerate(listing.drawdown.steps):
        one, two = listing.base.steps[n], listing.planned.steps[n]
        low, high_ = np.maximum(step.low, one.low - two.high), np.minimum(step.high, one.high - two.low)
        sources = listed_sources(listing.sources[n], listing.drawdown.flow_places, plan, base, step.period - 1)
        effects.append(Effect(step.period, step.step, low, high_, sources))
        heads = heads_of(listing.base, listing.planned, step.period, (step.step,))
        branches.append(weather.branches(step.period - 1, heads))
    both, ramps = [listing.base, listing.planned], ramps_of(branches)
    return Weathered(asked, base, high, plan, listing.drawdown, both, [verdict], effects, model, ramps, is_listed=True)


def find_cells(asked: Asked, base: Spelled) -> None:
    """Adds the cells of the points that are asked for, and refuses those without flow. The grid's place is that of the
    comments of the base deck's name file, else its lower left corner is 0, 0."""
    model, place = model_of(base.deck), named_place(read_deck(asked.base)[0])[0] or Place()
    for name, x, y, layer in asked.points:
        asked.cells[spot_at(model, place, layer, x, y).cell] = name
    for cell, name in asked.cells.items():
        is_within = all(1 <= n <= most for n, most in zip(cell, model.shape))
        if not is_within or model.ibound[cell[0] - 1, cell[1] - 1, cell[2] - 1] == 0:
            raise Problem(f"{name or 'cell'} {cell[0]},{cell[1]},{cell[2]} has no flow, or lies outside the grid")


def demand_alike(folder: Path, asked: Asked) -> None:
    """Refuses two ends of a weather that the program doesn't take as two decks: a name file is no listing, so that
    nothing else is refused of it."""
    name = f"{BASE}.nam"
    ended = call(["check", name, name, "--to", f"{HIGH}.nam", *wide_words(asked.has_wide)], folder)
    if not ended.last.startswith("REFUSED 20 "):
        raise Problem(" ".join(explain(ended.last, folder).lines))


def listed(folder: Path, stem: str, end: str, name: str, asked: Asked) -> tuple[Listing, Verdict]:
    """The listing of one deck or two, and what `heads check` says of it."""
    nam, to = folder / f"{stem}.nam", ["--to", f"{end}.nam"] if end else []
    options = [*to, *asked.words()]
    ended = run(nam, options, folder / f"{name}.heads")
    demand_listing(ended, folder, options, why_none(name, asked))
    listing = ended.listing()
    return listing, check_listing(nam, listing, None, to, asked.has_wide)


def demand_listing(ended: Ended, folder: Path, options: list[str], why: str) -> None:
    """Refuses a run without a whole listing."""
    meaning = explain(ended.last, folder, digits_of(options), ended.steps > 0, options)
    if ended.status != 0 or not meaning.is_good:
        raise Problem(" ".join([why, *meaning.lines]))


def why_none(name: str, asked: Asked) -> str:
    if name != DIFFERENCE:
        return f"There are no bounds of the {'base deck' if name == BASE else 'plan'}'s heads."
    if asked.is_any:
        return (
            "There are no bounds of the drawdown in any weather at all: where every river and drain is dry, nothing may"
            " hold the heads. A weather between two decks (--to) may leave some connected."
        )
    return "There are no bounds of the drawdown by the difference decks, though both plans' heads have some."


def branches_of(
    base: Spelled, high: Spelled, stretches: list[Stretch], listings: list[Listing]
) -> list[list[Branch]]:
    """The branches of each stretch, by the heads of both plans where they are listed."""
    weather = Weather(base, high)
    heads = lambda each: heads_of(listings[0], listings[1], each.period + 1, each.steps) if listings else None
    return [weather.branches(each.period, heads(each)) for each in stretches]


def ramps_of(branches: list[list[Branch]]) -> tuple[int, int, int]:
    """How many rivers, drains and evapotranspirations, over all stretches, are surely connected in both plans, surely
    not, and neither."""
    parts = [each.part for period in branches for each in period if each.term != "HEAD DEP BOUNDS"]
    sure, dry = sum(low == 1 for low, _ in parts), sum(high == 0 for _, high in parts)
    return sure, dry, len(parts) - sure - dry


def effects_of(
    base: Spelled,
    stretches: list[Stretch],
    branches: list[list[Branch]],
    listings: list[Listing],
    difference: Listing,
) -> list[Effect]:
    """What the plan does in each step of the base deck: the tighter of the difference listing's bounds and those of the
    two listings of heads, subtracted."""
    if not all(np.array_equal(each.cells, difference.cells) for each in listings):
        raise Problem("the listings of base, plan and differences have other cells: a fault of heads-tools")
    out: list[Effect] = []
    at, steps = difference.places, iter(difference.steps)
    for stretch, all_branches in zip(stretches, branches):
        idle = without_equation(base, stretch.period)
        held = [each for each in all_branches if not idle[tuple(n - 1 for n in each.cell)]]
        for number in stretch.steps:
            step = next(steps)
            low, high, subtracted = step.low, step.high, None
            if listings:
                one, two = (each.steps[len(out)] for each in listings)
                subtracted = one.low - two.high, one.high - two.low
                low, high = np.maximum(low, subtracted[0]), np.minimum(high, subtracted[1])
                if (low > high).any():
                    raise Problem("difference decks and listings of heads leave no drawdown: a fault of heads-tools")
            sources = sources_of(step, difference.flow_places, held, (low, high), at)
            out.append(Effect(stretch.period + 1, number, low, high, sources, subtracted))
    return out
