"""Stretches of time whose shares of rivers, drains and evapotranspiration are bounded together: the periods of the
difference decks. Each is a step of the base deck where its length can be written exactly, else a whole period."""
from __future__ import annotations

from dataclasses import dataclass

from ..common.spelling import EXACT, exact
from ..common.text import Problem
from ..deck.deck import Deck, Period
from ..deck.ranges import exact_word
from .plan_decks import Spelled

MOST_PERIODS, MOST_ENTRIES = 1000, 1_000_000


@dataclass(frozen=True)
class Stretch:
    """A stretch: its period, counted from 0, its steps, counted from 1, and its line of DIS."""

    period: int
    steps: tuple[int, ...]
    line: str


def stretches_of(base: Spelled, is_split: bool) -> list[Stretch]:
    """The stretches of a deck: whole periods where it isn't to be split, or where the decks would become too long."""
    periods = base.deck.periods
    whole = [Stretch(n, tuple(range(1, p.nstp + 1)), line_of(p, p.perlen, p.nstp)) for n, p in enumerate(periods)]
    if not is_split:
        return whole
    out: list[Stretch] = []
    for stretch, period in zip(whole, periods):
        length = step_length(period)
        single = [Stretch(stretch.period, (step,), line_of(period, length, 1)) for step in stretch.steps]
        out += single if length else [stretch]
    entries = sum(count_of(base, each.period) for each in out)
    return out if len(out) <= MOST_PERIODS and entries <= MOST_ENTRIES else whole


def line_of(period: Period, length: str, steps: int) -> str:
    return f"{length} {steps} {period.tsmult} {'SS' if period.is_steady else 'TR'}"


def step_length(period: Period) -> str:
    """The length of each step of a period; nothing where it isn't one, or no decimal of 18 digits. Of a steady step it
    counts for nothing."""
    if period.is_steady:
        return period.perlen
    if exact(period.tsmult) != 1:
        return ""
    try:
        word = exact_word(EXACT.divide(exact(period.perlen), period.nstp))
    except Problem:
        return ""
    return word if EXACT.multiply(exact(word), period.nstp) == exact(period.perlen) else ""


def count_of(base: Spelled, period: int) -> int:
    """How many branches a period may have."""
    entries = sum(len(base.entries(kind)[period]) for kind in ("GHB", "RIV", "DRN"))
    return entries + base.deck.nrow * base.deck.ncol * ("EVT" in base.deck.areal)


def dis_lines(base: Spelled, stretches: list[Stretch]) -> list[str]:
    """DIS with the stretches as its periods."""
    deck: Deck = base.deck
    lines = base.texts["DIS"].decode().splitlines()
    first = lines[0].split()
    first[3] = str(len(stretches))
    return [" ".join(first), *lines[1 : -len(deck.periods)], *(each.line for each in stretches)]
