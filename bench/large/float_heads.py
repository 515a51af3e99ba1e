#!/usr/bin/env python3
"""The heads of a deck in doubles, beside listings of it.

    float_heads.py NAME LISTING..

They are found by Newton's method on the equations that heads_tools makes. Each linear system is solved by SuperLU; one
of more than 300,000 cells, or of 12,000 in more than two layers, by conjugate gradients with hypre where
python3-petsc4py is installed, else with heads_tools' own multigrid. Old heads of a step are those found for the step
before. It prints the processor seconds of reading and of solving, and by how much a head lies outside of a listed pair
at most. The script ends with 1 where this is more than 10^-6 of the model's unit of length.
"""
from __future__ import annotations

import os
import sys
import time
from pathlib import Path
from typing import Iterator

import numpy as np
import scipy.sparse

sys.path.insert(0, os.path.join(os.path.dirname(os.path.realpath(__file__)), "..", "..", "tools"))

from heads_tools.numbers.certify import UNIT, Bounds  # noqa: E402  the repository's tools are found by the path above
from heads_tools.numbers.equations import Step, given_heads  # noqa: E402
from heads_tools.deck.model import read_model  # noqa: E402
from heads_tools.numbers.solvers import Matrix, solved  # noqa: E402

MOST_OUTSIDE = 1e-6
# Balances count as zero below these parts of a cell's conductances times 10^-9 of a head, and times its head.
OF_UNIT, OF_HEAD = 0.01, 16 * np.finfo(float).eps
MOST_ROUNDS, HALVINGS = 100, 8


class Solution(Bounds):
    """Heads whose balances are zero: nothing is left for roundings."""

    def solve(self, step: Step, h: np.ndarray, side: int) -> np.ndarray:
        for _ in range(MOST_ROUNDS):
            rest, slope, _ = self.balance(step, h, side)
            if self.is_balanced(step, h, rest):
                return h
            diagonal = scipy.sparse.diags(np.maximum(slope, 1e-12 * step.conductance))
            change = self.linear((diagonal - step.links).tocsc(), rest)
            share = self.share(step, h, change, side)
            h = h + share * change
            if self.is_close(share * change):
                return h
        raise SystemExit(f"period {step.period + 1}, step {step.number}: Newton's method didn't end")

    def is_balanced(self, step: Step, h: np.ndarray, rest: np.ndarray) -> bool:
        """Whether these balances of the heads count as zero."""
        return bool(np.all(np.abs(rest) <= step.conductance * np.maximum(OF_UNIT * UNIT, OF_HEAD * np.abs(h))))

    def is_close(self, change: np.ndarray) -> bool:
        """Whether a change is so small that it is the last one. Here the balances alone end the rounds."""
        return False

    def linear(self, matrix: Matrix, rest: np.ndarray) -> np.ndarray:
        """The solution of a linear system."""
        return solved(matrix, rest, self.model.shape[0])

    def share(self, step: Step, h: np.ndarray, change: np.ndarray, side: int) -> float:
        """How far to go: balances are the slope of a concave function, so along the change they fall, and its greatest
        value is where their sum along the change is zero."""
        least, most = 0.0, 1.0
        if self.balance(step, h + change, side)[0] @ change >= 0:
            return most
        for _ in range(HALVINGS):
            middle = (least + most) / 2
            is_short = self.balance(step, h + middle * change, side)[0] @ change > 0
            least, most = (middle, most) if is_short else (least, middle)
        return (least + most) / 2

    def steps(self) -> Iterator[np.ndarray]:
        """The heads of each step, by active cell."""
        model, given = self.model, {}
        heads, active = model.strt.ravel().copy(), np.flatnonzero(model.ibound.ravel())
        for p, period in enumerate(model.deck.periods):
            given = given_heads(model, p, given)
            for number in range(1, period.nstp + 1):
                step = self.network.step(p, number, given)
                for cell in given:
                    heads[cell] = self.constant(step, cell, given)[0] * UNIT
                self.holders = [heads, heads]
                found = heads.copy()
                found[step.cells] = self.solve(step, heads[step.cells], 0)
                heads = found
                yield heads[active]


def listed(path: str) -> Iterator[np.ndarray]:
    """The pairs of each step of a listing, by active cell."""
    pairs: list[list[bytes]] = []
    with open(path, "rb") as file:
        for line in file:
            if line.startswith(b"HEAD "):
                pairs.append(line.split()[4:])
            elif line.startswith(b"IN ") and pairs:
                yield np.array(pairs, dtype=float)
                pairs = []


def main() -> int:
    if len(sys.argv) < 3:
        print(__doc__, file=sys.stderr)
        return 2
    model = read_model(Path(sys.argv[1]), any_size=True)
    solution = Solution(model, 12, 0.0)
    read = time.process_time()
    steps = list(solution.steps())
    print(f"read in {read:.1f} s, solved in doubles in {time.process_time() - read:.1f} s, {len(steps)} steps")
    is_inside = True
    for name in sys.argv[2:]:
        found = list(listed(name))
        outside = max(np.max(np.maximum(low - h, h - high)) for h, (low, high) in zip(steps, (p.T for p in found)))
        widest = max(np.max(pairs[:, 1] - pairs[:, 0]) for pairs in found)
        is_inside &= len(found) == len(steps) and outside <= MOST_OUTSIDE
        heads = "all heads lie between" if outside <= 0 else f"a head lies {outside:.1e} outside"
        print(f"{os.path.basename(name)}: {heads} the listed ones; the widest pair is {widest:.9f}")
    return 0 if is_inside else 1


if __name__ == "__main__":
    sys.exit(main())
