"""An algebraic multigrid preconditioner for the matrices of certify: aggregates of about four cells, made by pairing
each with the neighbour of its greatest conductance, twice; two rounds of conjugate gradients on each coarser grid
(Notay, An aggregation-based algebraic multigrid method, 2010)."""
from __future__ import annotations

from typing import Any, Callable

import numpy as np
import scipy.sparse
import scipy.sparse.linalg

MOST_COARSEST, MOST_LEVELS, PAIRINGS = 400, 20, 6
DAMPING = 2 / 3
# A matrix of scipy.sparse, which has no types.
Matrix = Any


class Level:
    """A grid: its matrix, and which coarse cell each of its cells belongs to; the coarsest is solved directly."""

    def __init__(self, matrix: Matrix):
        self.matrix, self.scale = matrix, DAMPING / matrix.diagonal()
        self.coarse: Level | None = None
        self.aggregate = np.zeros(0, int)
        self.direct: Callable[[np.ndarray], np.ndarray]

    def correction(self, rest: np.ndarray) -> np.ndarray:
        """An approximate solution of matrix x = rest: a smoothing, a correction from the coarse grid, a smoothing."""
        if self.coarse is None:
            return self.direct(rest)
        x = self.scale * rest
        left = rest - self.matrix @ x
        coarse = self.coarse.solution(np.bincount(self.aggregate, left, self.coarse.matrix.shape[0]))
        x = x + coarse[self.aggregate]
        return x + self.scale * (rest - self.matrix @ x)

    def solution(self, rest: np.ndarray) -> np.ndarray:
        """Two rounds of conjugate gradients with this grid's correction, or the direct solution."""
        if self.coarse is None:
            return self.direct(rest)
        first = self.correction(rest)
        moved = self.matrix @ first
        curve = float(first @ moved)
        if not curve > 0:
            return first
        share = float(first @ rest) / curve
        left = rest - share * moved
        second = self.correction(left)
        along = float(second @ moved) / curve
        second = second - along * first
        curve = float(second @ (self.matrix @ second))
        return share * first + (float(second @ left) / curve * second if curve > 0 else 0)


def multigrid(matrix: Matrix) -> scipy.sparse.linalg.LinearOperator:
    """The preconditioner of a symmetric matrix whose entries beside the diagonal are 0 or less."""
    top = level = Level(matrix.tocsr())
    for _ in range(MOST_LEVELS):
        if level.matrix.shape[0] <= MOST_COARSEST:
            break
        aggregate, coarse = halved(level.matrix)
        again, coarse = halved(coarse)
        level.aggregate = again[aggregate]
        if coarse.shape[0] > 0.8 * level.matrix.shape[0]:
            break
        level.coarse = Level(coarse)
        level = level.coarse
    level.direct = scipy.sparse.linalg.splu(level.matrix.tocsc()).solve
    return scipy.sparse.linalg.LinearOperator(matrix.shape, top.correction)


def halved(matrix: Matrix) -> tuple[np.ndarray, Matrix]:
    """The pair that each cell belongs to, and the sums of the matrix's entries by pairs."""
    mate = pairs_of(matrix)
    cells = np.arange(len(mate))
    first = np.where(mate < 0, cells, np.minimum(cells, mate))
    numbers = np.cumsum(first == cells) - 1
    aggregate, count = numbers[first], int(numbers[-1]) + 1
    sums = scipy.sparse.csr_matrix((np.ones(len(mate)), (cells, aggregate)), (len(mate), count))
    return aggregate, (sums.T @ matrix @ sums).tocsr()


def pairs_of(matrix: Matrix) -> np.ndarray:
    """Each cell's mate, or -1: two cells are paired where each is the other's strongest free neighbour."""
    size = matrix.shape[0]
    rows = np.repeat(np.arange(size), np.diff(matrix.indptr))
    cols = matrix.indices
    low, high = np.minimum(rows, cols), np.maximum(rows, cols)
    # Equal conductances get an order, the same from both ends.
    order = (low * 0.7548776662 + high * 0.5698402910) % 1
    strength = np.where(rows == cols, -1.0, -matrix.data * (1 + 0.1 * order))
    mate = np.full(size, -1)
    for _ in range(PAIRINGS):
        is_free = mate < 0
        free = np.where(is_free[rows] & is_free[cols], strength, -1.0)
        most = np.maximum.reduceat(free, matrix.indptr[:-1])
        best = np.full(size, -1)
        chosen = (free > 0) & (free == most[rows])
        best[rows[chosen]] = cols[chosen]
        some = np.flatnonzero(best >= 0)
        mutual = some[best[best[some]] == some]
        if not mutual.size:
            break
        mate[mutual] = best[mutual]
    return mate
