"""What a plan does whatever the weather, in sentences, lines and tables."""
from __future__ import annotations

from pathlib import Path

import numpy as np

from ..common.text import counted, decimal_text, down, one_of, up, with_unit
from ..common.whole_files import whole_file
from ..listing.below_top import BelowTop
from ..listing.cell_lines import write_cells
from ..program.verdict import NO_PLANS
from .drawdown import place_of, told, tops_lines
from .drawdown_weather import Cell, Effect, Weathered
from .plan_sources import FLOW_PLACES, Pair

NOT_PROVED = (
    "Not proved by machine: that the two difference decks enclose the difference of the plans' heads in each such"
    " weather. It is argued in docs/METHOD.md, and tested. Each number of the difference decks' listing is certified"
)
LISTED = "The heads of both plans in each such weather, and their difference, lie between the listed numbers"
SAME = "the same with the plan as without it, and chosen anew at each step"
ANY = (
    "Any weather: recharge, other wells, stages, bottoms, elevations, surfaces, given heads and STRT are any numbers;"
    " conductances of rivers and drains, and the rates of evapotranspiration, are at most those of the deck, those of"
    " general heads are its own"
)
SHOWN = 3


def unit(it: Weathered) -> str:
    return it.model.length


def rate(it: Weathered) -> str:
    return f"{it.model.length}³ per {one_of(it.model.time)}"


def when(it: Weathered, effect: Effect) -> str:
    end = it.model.times.get((effect.period, effect.step))
    return f"period {effect.period} step {effect.step}" + (f", {with_unit(end[1], it.model.time)}" if end else "")


def cell_at(it: Weathered, at: int) -> Cell:
    layer, row, col = it.listing.cells[at].tolist()
    return layer, row, col


def deepest(effect: Effect) -> int:
    """The place of the cell that the plan surely lowers most, where it surely lowers one; else changes most."""
    return int(effect.low.argmax() if (effect.low > 0).any() else np.maximum(-effect.low, effect.high).argmax())


def worst(it: Weathered) -> Effect:
    """The step at whose end the plan surely lowers a head most; where it surely lowers none, the last."""
    least = [int(effect.low.max()) for effect in it.effects]
    return it.effects[least.index(max(least))] if max(least) > 0 else it.effects[-1]


def most_of(it: Weathered) -> tuple[Effect, int]:
    """The step and the place of the greatest upper bound of all."""
    effect = max(it.effects, key=lambda each: int(each.high.max()))
    return effect, int(effect.high.argmax())


def verdict_of(it: Weathered) -> str:
    """The line under the title."""
    names = ", ".join(seen.name for seen in it.verdicts)
    if it.is_certified:
        return f"heads check: CERTIFIED ({names}). {LISTED if it.is_listed else NOT_PROVED}."
    if it.holds:
        return f"heads run: {it.verdicts[0].last} ({names}). {LISTED}. Not checked: {NO_PLANS}."
    wrong = [f"{seen.name} ({seen.last})" for seen in it.verdicts if not seen.is_certified]
    if all(seen.status is None for seen in it.verdicts):
        return f"Not checked: {', '.join(wrong)}. These are bounds of the drawdown only if this is a run's listing."
    return f"NOT CERTIFIED: {', '.join(wrong)}. These are no bounds of the drawdown."


def change_at(it: Weathered, effect: Effect, at: int) -> str:
    """What the plan does at a cell."""
    return told(-int(effect.high[at]), -int(effect.low[at]), unit(it), where=place_of(cell_at(it, at)))


def said_weather(it: Weathered) -> str:
    return it.weather + f", {SAME}" * it.is_chosen


def sentences(it: Weathered) -> list[str]:
    last, deep = it.effects[-1], worst(it)
    out = [verdict_of(it), *it.plan.said, *([f"{ANY}."] if it.asked.is_any else [])]
    weather = said_weather(it)
    weather = weather[0].upper() + weather[1:]
    most = change_at(it, last, deepest(last))
    out.append(f"{weather}: at the end of {when(it, last)} {most}, the most of all cells.")
    if deep is not last:
        most = change_at(it, deep, deepest(deep))
        out.append(f"The deepest of all {len(it.effects)} steps: at the end of {when(it, deep)} {most}.")
    effect, at = most_of(it)
    out.append(
        f"No head is lowered by more than {up(effect.high[at], 9, SHOWN)} {unit(it)} at the end of any step; the bound"
        f" is greatest {place_of(cell_at(it, at))}, {when(it, effect)}."
    )
    out += subtracted(it, last)
    sure, dry, between = it.ramps
    if sure + dry + between:
        each = "step" if it.is_listed else "period of the difference decks"
        out.append(
            f"Of {sure + dry + between} rivers, drains and evapotranspirations, counted anew in each {each}: {sure}"
            f" surely connected in both plans, {dry} surely not, {between} neither."
        )
    shown = int(((last.low > 0) | (last.high < 0)).sum())
    out.append(f"At {counted(shown, 'cell')} of {len(last.low)} the bounds show that the plan changes the head.")
    for cell, name in it.asked.cells.items():
        begin = f"{name}: at" if name else "At"
        out.append(f"{begin} the end of {when(it, last)} {change_at(it, last, it.listing.at(cell))}.")
    return [*out, *tops_of(it)]


def subtracted(it: Weathered, effect: Effect) -> list[str]:
    """What is left without the step that isn't proved."""
    if effect.subtracted is None:
        return []
    at = deepest(effect)
    low, high = (int(side[at]) for side in effect.subtracted)
    return [
        f"By the two listings of heads alone, subtracted, which needs no step that isn't proved:"
        f" {down(low, 9, SHOWN)} to {up(high, 9, SHOWN)} {unit(it)} {place_of(cell_at(it, at))}."
    ]


def lines(it: Weathered) -> list[str]:
    """Lines with all digits, of the last step: DRAWDOWN at the deepest cell and those that are asked for, SOURCE."""
    last = it.effects[-1]
    cells = dict.fromkeys([cell_at(it, deepest(last)), *it.asked.cells])
    out = [f"at the end of {when(it, last)}, in {unit(it)} and {rate(it)}:"]
    for cell in cells:
        at = it.listing.at(cell)
        pair = (decimal_text(int(side[at]), 9) for side in (last.low, last.high))
        out.append(" ".join(["DRAWDOWN", *map(str, cell), *pair]))
    return out + [f"SOURCE {low} {high} {name}" for name, low, high in source_rows(it, last)]


def source_pairs(effect: Effect) -> dict[str, Pair]:
    """What each term gives more under the plan, by sums and by balance, and what the plan's wells take of all."""
    return {name: pair for name, pair in effect.sources.terms.items() if any(pair)} | {"ALL": effect.sources.takes}


def source_rows(it: Weathered, effect: Effect, shown: int | None = None) -> list[list[str]]:
    places = it.listing.flow_places if shown is None else shown
    text = lambda pair: [side(n, FLOW_PLACES, places) for side, n in zip((down, up), pair)]
    return [[name, *text(pair)] for name, pair in source_pairs(effect).items()]


def source_spans(effect: Effect) -> list[tuple[str, float, float]]:
    """The same for a picture."""
    return [(name, low / 10**FLOW_PLACES, high / 10**FLOW_PLACES) for name, (low, high) in source_pairs(effect).items()]


def write_tables(it: Weathered, folder: Path) -> list[str]:
    """drawdown.csv (base less plan: above 0 where the plan lowers the head) and source.csv: their names. A term's sums
    are those of the difference decks."""
    with whole_file(folder / "drawdown.csv", is_own=True) as file:
        file.write("period,step,time,layer,row,col,drawdown_lower,drawdown_upper\n")
        for effect in it.effects:
            end = it.model.times.get((effect.period, effect.step))
            head = f"{effect.period},{effect.step},{format(end[1], '.12g') if end else ''}"
            write_cells(file, f"{head},", ",", it.listing.cells, effect.low, effect.high)
    places = it.listing.flow_places
    with whole_file(folder / "source.csv", is_own=True) as file:
        file.write("period,step,term,more_lower,more_upper" + ",sums_lower,sums_upper" * (not it.is_listed) + "\n")
        for effect in it.effects:
            known = effect.sources
            rows = {name: (pair, *([known.sums[name]] if known.sums else [])) for name, pair in known.terms.items()}
            for name, pairs in (rows | {"ALL": (known.takes,) * (1 if it.is_listed else 2)}).items():
                words = [side(n, FLOW_PLACES, places) for pair in pairs for side, n in zip((down, up), pair)]
                file.write(",".join([str(effect.period), str(effect.step), name, *words]) + "\n")
    return ["drawdown.csv", "source.csv"]


def may_be_said(it: Weathered) -> list[str]:
    """The sentence for a permit, and what may not be said."""
    if not it.holds:
        return ["Nothing may be said of the drawdown: a listing isn't certified."]
    may, may_not = permit(it)
    return [f"May be said: '{may}'", f"May not be said: {may_not}"]


def permit(it: Weathered) -> tuple[str, str]:
    """The sentence for a permit, and those that nothing here says."""
    effect = worst(it)
    at = deepest(effect)
    said = f"{said_weather(it)}, {change_at(it, effect, at)} at the end of {when(it, effect)}"
    most, greatest = most_of(it)
    more = f" {ANY}." if it.asked.is_any else ""
    argued = "; that they bound the plan's effect is argued and tested, and isn't proved by machine"
    made = "certified by `heads check`" if it.is_certified else "those of a run of `heads` that ended with END"
    wrong = " 'this is proved'," * (not it.is_listed)
    return (
        f"In the equations of {it.base.name}, {said}, and no head by more than"
        f" {up(most.high[greatest], 9, SHOWN)} {unit(it)} at the end of any step. The numbers are"
        f" {made}{argued * (not it.is_listed)}.{more}",
        f"'The well will lower the groundwater by {up(effect.high[at], 9, SHOWN)} {unit(it)}',{wrong}"
        " 'the uncertainty of the drawdown'. The conductivities, the storage and the grid are taken as they stand in"
        " the deck, and nothing is said of the aquifer itself, nor of weather outside what is named.",
    )


def promised(it: Weathered) -> str:
    """What the listing says of each cell and term."""
    return f"{said_weather(it)[0].upper()}{said_weather(it)[1:]}: {LISTED[0].lower()}{LISTED[1:]}."


def tops_of(it: Weathered) -> list[str]:
    """What the heads with the plan say of the tops of their cells."""
    seen_of_plan = it.verdicts if it.is_listed else it.verdicts[2:]
    listed = [(seen, BelowTop(it.model.deck, listing)) for listing, seen in zip(it.heads[1:], seen_of_plan)]
    return tops_lines(listed)
