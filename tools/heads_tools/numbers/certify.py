"""certify: a listing round the heads of any solver, which `heads check` then certifies or not. Nothing here is proved
or trusted; a wrong number does no harm, since the check names its place.

Rounding a head to 10^-9 costs a cell at most K * 10^-9 of flow, K the sum of its conductances. So the lower heads are
solved for a balance of theta * K * 10^-9 in each cell, the upper ones for the negative of it, by Newton's method from
the heads given. Then each is rounded outward, and moved out further where the balance has the wrong sign all the
same. What conductances with s digits and the deck's own heads cost is added."""
from __future__ import annotations

import math
import os
import sys
from dataclasses import dataclass
from pathlib import Path

import numpy as np
import scipy.sparse

from ..common.kept_files import demand_free
from ..common.limits import WIDE, is_large, limits_of
from ..common.text import Problem, decimal_text, sha256
from ..common.whole_files import whole_file
from ..deck.model import Model, read_model
from ..listing.cell_lines import write_cells
from ..listing.compare import compare, sentences
from ..listing.fitting import demand_fit
from ..listing.headfile import ANY_STEP, Heads, read_heads
from ..listing.listing import Listing, Step as Listed, read_listing
from ..listing.zones import read_zones
from ..program.explain import explain
from ..program.verdict import check_listing
from .equations import TERMS, Given, Network, Step, given_heads
from .solvers import solved
from .whole import Pair, constant_head, pair_of, pair_of_heads
from .zone_bounds import ZoneFlow, zone_branches, zone_flows

UNIT = 1e-9
MOST_UNITS = 4 * 10**18
THETAS = (0.5, 1.05, 2.0, 5.0, 20.0)
NEWTON_STEPS, REPAIRS = 60, 2000


@dataclass
class Certified:
    """How certify ended: the check's status and first words, lines for people, and the listing where the check
    certified it."""

    status: int
    last: str
    lines: list[str]
    listing: Listing | None = None


def certify(
    nam: Path,
    heads: Path,
    digits: int,
    out: Path,
    theta: float | None = None,
    zones: Path | None = None,
    has_wide: bool = False,
) -> Certified:
    """Writes the listing, with the flows between zones of a zone file, and checks it, with wider margins where the
    check refuses. `has_wide`: the check is one with --wide; one of a model that is larger than without it is so by
    itself."""
    demand_free(out)
    model = read_model(nam, any_size=True)
    has_wide = has_wide or is_large(model.shape)
    if is_large(model.shape, WIDE):
        raise Problem(f"{nam.name}: `heads check --wide` takes {'; '.join(WIDE.faults_of(*model.shape))}")
    given = read_heads(heads, model.shape)
    parted = Zones.of(model, digits, zones, nam) if zones else None
    tried = out.with_name(out.name + ".tried")
    for margin in (theta,) if theta else THETAS:
        listing = Bounds(model, digits, margin, parted).listing(given, tried)
        write_listing(listing, model)
        listing.sha256 = sha256(tried)
        checked = check(nam, listing, zones, has_wide)
        if checked.status != 8:
            break
        print(f"margins of {margin} roundings don't hold: {checked.first}", file=sys.stderr)
    if checked.status:
        return Certified(checked.status, checked.first, [*checked.lines, f"{tried} is no certificate"])
    os.replace(tried, out)
    listing.path = out
    lines = [
        f"{checked.first} {out} (margins of {margin} roundings)",
        *checked.lines[1:],
        listing.summary(),
    ]
    beside = nam.with_suffix(".heads")
    if beside != out and (width := widest_of(beside, model)):
        lines.append(f"beside `heads run` ({beside.name}): its widest pair is {width}")
    elif not is_large(model.shape, limits_of(has_wide)):
        lines.append(f"`heads-tools run {nam.name}` gives the run's own pairs to compare with")
    lines += [f"{heads.name}: {told}" for told in sentences(listing, compare(listing, given), model.length)]
    return Certified(0, checked.first, lines, listing)


def widest_of(path: Path, model: Model) -> str:
    """The widest pair of a file's listing, where that is whole and of a model of these cells and steps."""
    try:
        listing = read_listing(path)
        demand_fit(listing, model)
    except Problem:
        return ""
    return decimal_text(listing.widest()[0], 9)


@dataclass
class Check:
    """What a check said: its status, its first words, lines for people."""

    status: int
    first: str
    lines: list[str]


def check(nam: Path, listing: Listing, zones: Path | None, has_wide: bool) -> Check:
    """The program's check of a listing."""
    verdict = check_listing(nam, listing, zones, has_wide=has_wide)
    if verdict.status is None:
        raise Problem(verdict.last)
    meaning = explain(verdict.last, nam.parent, listing.digits)
    status = verdict.status or (0 if meaning.is_good else meaning.status or 6)
    return Check(status, "CERTIFIED:" if status == 0 else verdict.last, meaning.lines)


@dataclass
class Zones:
    """The zones of a model's cells, and the branches between two of them."""

    numbers: np.ndarray
    branches: list[tuple[np.ndarray, np.ndarray, Pair]]

    @staticmethod
    def of(model: Model, digits: int, path: Path, nam: Path) -> Zones:
        numbers = read_zones(path, nam, model.shape).ravel()
        return Zones(numbers, zone_branches(model, digits))

    def flows(self, step: Step, low: np.ndarray, high: np.ndarray) -> list[ZoneFlow]:
        """The step's flows between zones: they hold those that `heads run` writes for these heads."""
        return zone_flows(self.branches, self.numbers, step.place >= 0, low, high)


class Bounds:
    """Lower and upper heads of all steps of a model."""

    def __init__(self, model: Model, digits: int, theta: float, zones: Zones | None = None):
        self.model, self.digits, self.theta, self.zones = model, digits, theta, zones
        self.network = Network(model)
        self.count = model.thick.size
        self.slack = 4 * 10.0**-digits

    def listing(self, heads: Heads, path: Path) -> Listing:
        model, active = self.model, np.flatnonzero(self.model.ibound.ravel())
        out = Listing(path, self.digits, model.deck.lenuni, cells=np.argwhere(model.ibound != 0) + 1, end="END")
        low, high = self.strt = pair_of_heads(model.deck.strt)
        start = model.strt.ravel().copy()
        given: Given = {}
        for p, period in enumerate(model.deck.periods):
            given = given_heads(model, p, given)
            for number in range(1, period.nstp + 1):
                guess = heads.get((p + 1, number), heads.get(ANY_STEP))
                if guess is not None:
                    flat = np.where(np.abs(guess.ravel()) < 1e9, guess.ravel(), np.nan)
                    start = np.where(np.isnan(flat) | (model.ibound.ravel() <= 0), start, flat)
                step = self.network.step(p, number, given)
                low, high, start = self.bounds(step, low, high, start, given)
                listed = Listed(p + 1, number, low[active], high[active])
                listed.terms = self.budget(step, low, high)
                listed.zones = self.zones.flows(step, low, high) if self.zones else []
                out.steps.append(listed)
        return out

    def bounds(self, step: Step, old_low: np.ndarray, old_high: np.ndarray, start: np.ndarray, given: Given):
        """Heads of the step in units, by cell, and its lower heads as the next start."""
        low, high = np.zeros(self.count, np.int64), np.zeros(self.count, np.int64)
        for cell in np.flatnonzero(step.is_constant):
            low[cell], high[cell] = self.constant(step, int(cell), given)
        self.holders = [
            np.where(step.is_constant, mine, old) * UNIT for mine, old in ((low, old_low), (high, old_high))
        ]
        if step.n:
            h = self.solve(step, start[step.cells], 0)
            low[step.cells] = self.rounded(step, h, 0)
            high[step.cells] = self.rounded(step, self.solve(step, h, 1), 1)
            start = start.copy()
            start[step.cells] = h
        return low, high, start

    def constant(self, step: Step, cell: int, given: Given) -> tuple[int, int]:
        """The head of a constant cell, rounded down and up."""
        if cell not in given:
            return int(self.strt[0][cell]), int(self.strt[1][cell])
        return pair_of(constant_head(self.model, step.period + 1, step.number, *given[cell]), 9)

    def balance(self, step: Step, h: np.ndarray, side: int) -> tuple[np.ndarray, np.ndarray, np.ndarray]:
        """The balance of each variable cell at heads h with the side's outer heads, the magnitude of its slope in the
        cell's own head, and how far the cell's links are apart in all."""
        d = np.where(step.holder >= 0, self.holders[side][step.holder], step.head) - h[step.at]
        river = step.riv_stage - np.maximum(h[step.riv_at], step.riv_bottom)
        drain = np.maximum(h[step.drn_at] - step.drn_level, 0)
        evap = np.maximum(np.minimum(h[step.evt_at], step.evt_surf) - step.evt_ext, 0)
        total = step.links @ h - step.link_sum * h + step.sum(step.at, step.c * d) + step.sum(step.flow_at, step.flow)
        total += (
            step.sum(step.riv_at, step.riv_c * river)
            - step.sum(step.drn_at, step.drn_c * drain)
            - step.sum(step.evt_at, step.evt_c * evap)
        )
        above_bottom = step.riv_c * (h[step.riv_at] > step.riv_bottom)
        slope = (
            step.link_sum
            + step.sum(step.at, step.c)
            + step.sum(step.riv_at, above_bottom)
            + step.sum(step.drn_at, step.drn_c * (drain > 0))
        )
        slope += step.sum(step.evt_at, step.evt_c * ((h[step.evt_at] < step.evt_surf) & (evap > 0)))
        apart = self.apart(step, h) + step.sum(step.at, np.abs(d)) + step.sum(step.riv_at, np.abs(river))
        apart = apart + step.sum(step.drn_at, drain) + step.sum(step.evt_at, evap)
        return total, slope, apart

    def apart(self, step: Step, h: np.ndarray) -> np.ndarray:
        """The sums of head differences over each cell's links."""
        links = step.links.tocoo()
        return step.sum(links.row, np.abs(h[links.col] - h[links.row]))

    def aim(self, step: Step, h: np.ndarray, apart: np.ndarray, share: float) -> np.ndarray:
        """The flow that roundings can cost a cell: of its head, of the deck's heads, of conductances, of doubles."""
        doubles = 8 * np.finfo(float).eps * step.conductance * np.abs(h)
        return (share * self.theta * step.conductance + step.input_c) * UNIT + self.slack * apart + doubles

    def solve(self, step: Step, h: np.ndarray, side: int) -> np.ndarray:
        sign = -1.0 if side else 1.0
        share, before = 1.0, math.inf
        size = np.maximum(step.conductance, 1e-300) * UNIT
        diagonal = scipy.sparse.identity(step.n, format="csr")
        for _ in range(NEWTON_STEPS):
            total, slope, apart = self.balance(step, h, side)
            rest = total - sign * self.aim(step, h, apart, 1.0)
            worst = float(np.max(np.abs(rest) / size))
            if worst < 0.01:
                break
            share = max(share / 2, 0.05) if worst > 0.7 * before else min(share * 1.5, 1.0)
            before = worst
            matrix = (
                diagonal.multiply(np.maximum(slope, np.maximum(step.conductance * 1e-12, 1e-300))[:, None]).tocsc()
                - step.links.tocsc()
            )
            change = solved(matrix, rest, self.model.shape[0])
            h = np.clip(h + share * np.nan_to_num(change), -3.9e9, 3.9e9)
        return self.repaired(step, h, side)

    def repaired(self, step: Step, h: np.ndarray, side: int) -> np.ndarray:
        """Moves cells whose balance has the wrong sign outward, until none is left or for a number of passes."""
        sign = -1.0 if side else 1.0
        h = h.copy()
        for _ in range(REPAIRS):
            total, slope, apart = self.balance(step, h, side)
            lack = self.aim(step, h, apart, 0.9) - sign * total
            wrong = lack > 0
            if not wrong.any():
                break
            move = lack[wrong] / np.maximum(slope[wrong], 1e-3 * step.conductance[wrong] + 1e-300)
            h[wrong] = np.clip(h[wrong] - sign * np.maximum(move * 1.01, UNIT), -3.99e9, 3.99e9)
        return h

    def rounded(self, step: Step, h: np.ndarray, side: int) -> np.ndarray:
        """Heads in units, rounded outward, and moved out where the balance at the rounded heads has the wrong sign."""
        sign = -1 if side else 1
        units = sign * np.floor(np.clip(sign * h / UNIT, -MOST_UNITS, MOST_UNITS))
        for _ in range(REPAIRS):
            total, slope, apart = self.balance(step, units * UNIT, side)
            lack = self.aim(step, units * UNIT, apart, 0.0) - sign * total
            wrong = lack > 0
            if not wrong.any():
                break
            move = lack[wrong] / np.maximum(slope[wrong], 1e-3 * step.conductance[wrong] + 1e-300)
            units[wrong] = np.clip(units[wrong] - sign * np.maximum(np.ceil(move / UNIT), 1), -MOST_UNITS, MOST_UNITS)
        return units.astype(np.int64)

    def budget(self, step: Step, low: np.ndarray, high: np.ndarray) -> dict[str, list[int]]:
        """The terms' pairs in units of 10^-(digits + 9), with slack for doubles and rounded conductances."""
        l, u = low[step.cells] * UNIT, high[step.cells] * UNIT
        sums = np.zeros((8, 4))

        def add(term: np.ndarray, lo: np.ndarray, hi: np.ndarray, c=0.0, apart=0.0) -> None:
            room = 1e-9 * (np.abs(lo) + np.abs(hi)) + 1e-9 + self.slack * apart + 3 * c * UNIT
            lo, hi = lo - room, hi + room
            for column, values in enumerate(
                (np.maximum(0, lo), np.maximum(0, hi), np.maximum(0, -hi), np.maximum(0, -lo))
            ):
                sums[:, column] += np.bincount(term, values, 8)

        outer = [np.where(step.holder >= 0, self.holders[side][step.holder], step.head) for side in (0, 1)]
        lo, hi = outer[0] - u[step.at], outer[1] - l[step.at]
        add(
            step.term,
            np.minimum(step.c * lo, step.c * hi),
            np.maximum(step.c * lo, step.c * hi),
            step.c,
            np.abs(lo) + np.abs(hi),
        )
        add(step.flow_term, step.flow, step.flow)
        like = lambda name, at: np.full(len(at), TERMS[name])
        lo, hi = (step.riv_stage - np.maximum(v[step.riv_at], step.riv_bottom) for v in (u, l))
        add(like("RIVER LEAKAGE", lo), step.riv_c * lo, step.riv_c * hi, step.riv_c, np.abs(lo) + np.abs(hi))
        lo, hi = (np.maximum(v[step.drn_at] - step.drn_level, 0) for v in (u, l))
        add(like("DRAINS", lo), -step.drn_c * lo, -step.drn_c * hi, step.drn_c, lo)
        lo, hi = (np.maximum(np.minimum(v[step.evt_at], step.evt_surf) - step.evt_ext, 0) for v in (u, l))
        add(like("ET", lo), -step.evt_c * lo, -step.evt_c * hi, step.evt_c, step.evt_surf - step.evt_ext)
        names = list(TERMS)[: 8 if "EVT" in self.model.deck.areal else 7]
        ten = 10 ** (self.digits + 9)
        units = lambda v, up: (math.ceil if up else math.floor)(exact_of(v) * ten)
        return {name: [units(v, n % 2) for n, v in enumerate(sums[TERMS[name]])] for name in names}


def exact_of(v: float):
    from fractions import Fraction

    return Fraction(float(v))


def write_listing(listing: Listing, model: Model) -> None:
    """Writes a listing in the form that `heads check` reads."""
    places = listing.flow_places
    with whole_file(listing.path) as file:
        word = " CONVERTIBLE" if listing.is_convertible else ""
        file.write(f"HEADS 2 DIGITS {listing.digits} UNIT {listing.unit}{word}\n")
        for step in listing.steps:
            file.write(f"STEP {step.period} {step.step}\n")
            write_cells(file, "HEAD ", " ", listing.cells, step.low, step.high)
            for word, at in (("IN", 0), ("OUT", 2)):
                for name, pair in step.terms.items():
                    file.write(f"{word} {decimal_text(pair[at], places)} {decimal_text(pair[at + 1], places)} {name}\n")
            for a, b, least, most in step.zones:
                file.write(f"ZONE {a} {b} {decimal_text(least, places)} {decimal_text(most, places)}\n")
        file.write("END\n")
