"""inside: is a model inside what `heads` reads, what would have to change, which digits does it want, and where does
MODFLOW-2005 read the same files otherwise."""
from __future__ import annotations

import argparse
import math
import tempfile
from dataclasses import dataclass
from pathlib import Path
from typing import IO

from ..common.text import Problem, counted, short_down, short_up
from ..deck.looks import look_at_cells, look_at_entries
from ..deck.model import Model, model_of
from ..deck.packages import read_deck
from ..deck.sources import Report
from ..deck.which_modflow import is_simulation
from ..deck.writing import write_deck, written_name
from ..listing.plan_listing import is_plan_listing
from ..modflow6.translate import read_simulation
from ..numbers.equations import Network, given_heads
from ..program.explain import explain
from ..program.program import DEFAULT_DIGITS
from ..program.reading import read_alone
from ..water.inside_water import water_lines
from . import inside_plan
from .inside_tops import tops_lines
from .shared import existing, say
from .words import add_words, whole_number

MOST_UNITS = 2.0**60
MOST_FLOW = 2.0**109


@dataclass
class Verdict:
    """Lines for people, and whether the model is inside as it is or after `plain`."""

    lines: list[str]
    is_inside: bool


@dataclass
class Told:
    """What the program says to a deck: lines for people, and whether it reads it (or wasn't there to ask)."""

    lines: list[str]
    is_read: bool


def inside(nam: Path, most: int = 12, heads: Path | None = None) -> Verdict:
    """`heads`: those of a run, of which is said whether they are gentle where a layer is convertible."""
    if is_simulation(nam):
        deck, report, _ = read_simulation(nam)
    else:
        deck, report = read_deck(nam, as_modflow=True)
    has_convertible = any(float(word) for word in deck.layer_words[0]) if deck.layer_words else False
    if heads and not has_convertible:
        said = "--heads is for decks with a convertible layer (LAYTYP other than 0): every layer is confined here"
        raise Problem(said)
    model = None
    if not report.refusals:
        model = model_of(deck)
        look_at_cells(model, report)
        look_at_entries(model, report)
    told = (
        confirmed(nam, model, bool(report.needed), bool(report.wide))
        if model and not report.refusals and not report.blocking
        else Told([], True)
    )
    is_inside = told.is_read and not report.refusals and not (report.needed and report.blocking)
    out = headline(report, told, most)
    if report.precise:
        numbers = "1 number has" if report.precise == 1 else f"{report.precise} numbers have"
        report.add(
            "warnings",
            report.first_precise,
            0,
            (
                f"{numbers} more than seven digits: MODFLOW-2005 keeps 24 bits of each, `heads` all digits, so perfect"
                " heads of MODFLOW can lie outside the pairs"
            ),
        )
    warnings = ([] if report.refusals else report.blocking) + report.warnings
    if warnings:
        out.append("CAREFUL:")
        out += listed(warnings, most)
    if is_inside and report.wide:
        out += ["give --wide (`heads-tools run` does it by itself):", *listed(report.wide, most)]
    more = digits_lines(model) + tops_lines(nam, model) + told.lines if model and is_inside else []
    if has_convertible:
        more = water_lines(nam, heads)
    return Verdict(out + more, is_inside)


def headline(report: Report, told: Told, most: int) -> list[str]:
    """Whether the deck is inside, why not, and what `plain` would change."""
    reasons = report.blocking + report.refusals if report.refusals else []
    if reasons:
        out = [f"NOT INSIDE, for {counted(len(reasons), 'reason')}:", *listed(reasons, most)]
        return out + (["`heads-tools plain` could change:", *listed(report.needed, most)] if report.needed else [])
    if not told.is_read:
        out = [
            "NOT INSIDE, the program refuses it" + (" after `heads-tools plain`, too:" if report.needed else ":"),
            *told.lines,
        ]
        return out + (["`heads-tools plain` would change:", *listed(report.needed, most)] if report.needed else [])
    if report.needed:
        said = (
            "NOT INSIDE AS IT IS, and `heads-tools plain` would change:"
            if report.blocking
            else "INSIDE AFTER `heads-tools plain`, which would change:"
        )
        return [said, *listed(report.needed, most)]
    return ["INSIDE as it is"]


def listed(remarks: list, most: int) -> list[str]:
    more = len(remarks) - most
    return [f"  - {r}" for r in remarks[:most]] + ([f"  - and {more} more"] if more > 0 else [])


def digits_lines(model: Model) -> list[str]:
    """Which --digits have room for the model's conductances, by doubles: a neighbour of a limit may fall on its other
    side."""
    network = Network(model)
    most, least, flow = 0.0, network.least_branch(), 0.0
    given: dict = {}
    for p, period in enumerate(model.deck.periods):
        given = given_heads(model, p, given)
        for step in (1, period.nstp):
            s = network.step(p, step, given)
            most, flow = max(most, float(s.conductance.max(initial=0))), max(flow, float(s.flow_size().max(initial=0)))
    ceiling = 18 if not most else math.floor(math.log10(MOST_UNITS / most) - 1e-9)
    if flow:
        ceiling = min(ceiling, math.floor(math.log10(MOST_FLOW / flow) - 1e-9) - 9)
    floor = 0 if not math.isfinite(least) else max(0, math.ceil(-math.log10(least) + 1e-9))
    facts = f"conductances at a cell sum to {short_up(most)} at most" + (
        f", the least branch is {short_down(least)}" if math.isfinite(least) else ""
    )
    if ceiling < 0 or floor > min(18, ceiling):
        return [f"digits: {facts}; no --digits takes both (from {floor} up, to {ceiling} down): NOBOUND 21 or 22"]
    high = min(18, ceiling)
    if floor <= DEFAULT_DIGITS <= high:
        return [f"digits: {facts}; --digits {floor} to {high} fit, the default of {DEFAULT_DIGITS} among them"]
    return [
        f"digits: {facts}; give --digits {min(high, max(floor, DEFAULT_DIGITS))} ({floor} to {high} fit, the default of"
        f" {DEFAULT_DIGITS} doesn't)"
    ]


def confirmed(nam: Path, model: Model, is_rewritten: bool, has_wide: bool) -> Told:
    """What the program itself says to the deck, or to the plain one."""
    try:
        with tempfile.TemporaryDirectory() as folder:
            if is_rewritten:
                write_deck(model.deck, Path(folder))
                nam = Path(folder) / written_name(model.deck)
            last = read_alone(nam.resolve(), has_wide)
            if last is None:
                how = (" so rewritten" if is_rewritten else "") + (" with --wide" if has_wide else "")
                return Told([f"the program reads it{how}"], True)
            return Told(["  " + line for line in explain(last, nam.parent).lines], False)
    except Problem as error:
        return Told([f"not confirmed by the program: {error}"], True)


def add(sub: argparse.ArgumentParser) -> None:
    add_words(sub, ("nam", "the model's name file, or mfsim.nam of MODFLOW 6; or a listing of what a plan does"))
    sub.add_argument("--most", type=whole_number(1), default=12, help="the reasons of a kind to show (12)")
    sub.add_argument(
        "--heads",
        type=Path,
        metavar="RUN.HDS",
        help="a run's heads (hds or CSV), where a layer is convertible: are they gentle, are the layers full",
    )
    inside_plan.add(sub)


def do(args: argparse.Namespace, _: list[str], out: IO[str]) -> int:
    if is_plan_listing(args.nam):
        return inside_plan.do(args, out)
    inside_plan.refuse_words(args)
    verdict = inside(existing(args.nam), args.most, existing(args.heads) if args.heads else None)
    say(verdict.lines, out)
    return 0 if verdict.is_inside else 1
