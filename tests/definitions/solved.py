"""The exact solution of a deck, by tools/recheck.py and tools/solution.py, which read decks and make equations by
themselves; as the definitions take it: a history over a common denominator."""
from __future__ import annotations

import os
import sys
from contextlib import contextmanager
from fractions import Fraction
from math import lcm
from random import Random
from typing import Any, Iterator, NamedTuple, Optional

sys.path.insert(0, os.path.join(os.path.dirname(__file__), "..", "..", "tools"))

from recheck import TERMS, Fault, Model, Step, text_of  # noqa: E402
from solution import between, solve_step  # noqa: E402

Heads = list[Fraction]
# The terms by the names of the code's enum, in the order of a listing.
TERM_NAMES = ("Storage", "ConstantHead", "Wells", "Drains", "RiverLeakage", "HeadDepBounds", "Recharge", "Et")
UNREADABLE = (Fault, OSError, StopIteration, KeyError, IndexError, ValueError, ZeroDivisionError)


class Solved(NamedTuple):
    """A step, its heads at all cells, and those before it."""

    step: Step
    heads: Heads
    old: Heads

    def terms(self) -> dict[tuple[str, str], Fraction]:
        """Each term of the budget, by In or Out and its name."""
        sums = {(side, name): Fraction(0) for side in ("In", "Out") for name in TERM_NAMES}
        for cell in self.step.cells:
            for branch in self.step.branches[cell]:
                flow = branch.flow(self.heads[cell], self.old[cell])
                sums["In" if flow > 0 else "Out", TERM_NAMES[TERMS.index(branch.term)]] += abs(flow)
        return sums

    def flows(self, zones: list[int]) -> dict[tuple[int, int], Fraction]:
        """The flow between each two zones that share a face."""
        faces = self.step.zone_faces(zones).items()
        return {at: sum((c * (self.heads[x] - self.heads[y]) for x, y, c in each), Fraction(0)) for at, each in faces}


class History(NamedTuple):
    """Solved steps, as the vectors of whole numbers over a denominator that the definitions take."""

    steps: list[Solved]
    d: int
    vectors: tuple[Any, ...]


def vector(heads: Heads, active: set[int], d: int) -> Any:
    return lambda cell: int(heads[cell] * d) if cell in active else 0


def history_of(steps: list[Solved], active: set[int]) -> History:
    d = lcm(*(each.heads[cell].denominator for each in steps for cell in active))
    return History(steps, d, tuple(vector(each.heads, active, d) for each in steps))


def moved(history: History, place: int, cell: int) -> tuple[Any, ...]:
    """The vectors with one head of one step moved by a unit."""
    old = history.vectors[place]
    new = lambda at: old(at) + (at == cell)  # noqa: E731
    return history.vectors[:place] + (new,) + history.vectors[place + 1 :]


@contextmanager
def inside(folder: str) -> Iterator[None]:
    """Names of files are those of this folder."""
    before = os.getcwd()
    os.chdir(folder)
    try:
        yield
    finally:
        os.chdir(before)


def model_of(folder: str, name: str) -> Model:
    with inside(folder):
        return Model(name)


def zones_of(folder: str, name: str, model: Model) -> list[int]:
    with inside(folder):
        return [int(value) for value in model.maps(text_of(name, has_comments=False), model.nlay)]


def active_cells(model: Model) -> set[int]:
    return {cell for cell, kind in enumerate(model.ibound) if kind != 0}


def solution(one: Model, two: Optional[Model], guesses: Optional[list[Heads]], draw: Random) -> Optional[History]:
    """The history of a deck; with a second one that of decks between the two, drawn anew at each step. None where none
    is found."""
    models = [between(one, two, draw) if two else one for _ in range(len(one.times) + 1)]
    old, steps = list(models[0].strt), []
    try:
        for place, time in enumerate(one.times):
            step = Step(models[place + 1], time)
            heads = solve_step(step, guesses[place] if guesses else old, old)
            for cell, head in step.constant.items():
                heads[cell] = head
            steps.append(Solved(step, heads, old))
            old = heads
    except UNREADABLE:
        return None
    return history_of(steps, active_cells(one))
