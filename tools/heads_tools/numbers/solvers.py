"""Solves the sparse, symmetric systems of certify: directly where few operations do, else by conjugate gradients with
an algebraic multigrid preconditioner (PETSc's hypre, where it is installed, else that of multigrid.py), the diagonal,
or an incomplete factoring."""
from __future__ import annotations

import functools
import glob
import sys
from typing import Any

import numpy as np
import scipy.sparse
import scipy.sparse.linalg

from .multigrid import multigrid

DIRECT_FLAT, DIRECT_DEEP = 300_000, 12_000
TOLERANCE, MOST_ROUNDS, MOST_SCALED = 1e-9, 600, 3000
DEBIAN = "/usr/lib/petscdir/*/*-real/lib/python3/dist-packages"
# A matrix of scipy.sparse, which has no types.
Matrix = Any


def solved(matrix: Matrix, rest: np.ndarray, layers: int) -> np.ndarray:
    """The solution of matrix x = rest. A factoring of a grid of one or two layers fills little; of more it fills
    much."""
    if matrix.shape[0] <= (DIRECT_FLAT if layers < 3 else DIRECT_DEEP):
        return direct(matrix, rest)
    for solve in (by_hypre, by_multigrid, by_scaling, by_incomplete):
        found = solve(matrix, rest)
        if found is not None:
            return found
    return direct(matrix, rest)


def direct(matrix: Matrix, rest: np.ndarray) -> np.ndarray:
    options = {"permc_spec": "MMD_AT_PLUS_A", "diag_pivot_thresh": 0.0, "options": {"SymmetricMode": True}}
    return scipy.sparse.linalg.splu(matrix.tocsc(), **options).solve(rest)


@functools.lru_cache
def petsc() -> Any:
    """PETSc with hypre, where it is installed: on the path, or where Debian puts it."""
    sys.path += [path for path in glob.glob(DEBIAN) if path not in sys.path]
    try:
        import petsc4py

        petsc4py.init([])
        from petsc4py import PETSc

        PETSc.PC().create().setType("hypre")
        return PETSc
    except Exception:  # noqa: BLE001  any fault of an optional package means that it isn't used
        return None


def by_hypre(matrix: Matrix, rest: np.ndarray) -> np.ndarray | None:
    lib = petsc()
    if lib is None:
        return None
    rows = matrix.tocsr()
    form = lib.Mat().createAIJ(
        size=rows.shape, csr=(rows.indptr.astype(np.int32), rows.indices.astype(np.int32), rows.data)
    )
    form.assemble()
    solver = lib.KSP().create()
    solver.setOperators(form)
    solver.setType("cg")
    solver.getPC().setType("hypre")
    solver.setTolerances(rtol=TOLERANCE, max_it=MOST_ROUNDS)
    x, b = form.createVecs()
    b.setArray(rest)
    solver.solve(b, x)
    found = x.getArray().copy() if solver.getConvergedReason() > 0 else None
    for part in (solver, form, x, b):
        part.destroy()
    return found


def by_multigrid(matrix: Matrix, rest: np.ndarray) -> np.ndarray | None:
    """Conjugate gradients with the repository's own multigrid: few rounds, whatever the size of the grid."""
    return conjugate(matrix.tocsr(), rest, multigrid(matrix.tocsr()), MOST_ROUNDS)


def by_scaling(matrix: Matrix, rest: np.ndarray) -> np.ndarray | None:
    """Conjugate gradients with the diagonal as preconditioner: many cheap rounds."""
    diagonal = matrix.diagonal()
    preconditioner = scipy.sparse.linalg.LinearOperator(matrix.shape, lambda v: v / diagonal)
    return conjugate(matrix.tocsr(), rest, preconditioner, MOST_SCALED)


def by_incomplete(matrix: Matrix, rest: np.ndarray) -> np.ndarray | None:
    """Conjugate gradients with an incomplete factoring, for grids of great contrasts."""
    options = {"permc_spec": "NATURAL", "diag_pivot_thresh": 0.0, "options": {"SymmetricMode": True}}
    try:
        factors = scipy.sparse.linalg.spilu(matrix.tocsc(), drop_tol=1e-2, fill_factor=4, **options)
    except RuntimeError:
        return None
    return conjugate(matrix.tocsr(), rest, scipy.sparse.linalg.LinearOperator(matrix.shape, factors.solve), MOST_ROUNDS)


def conjugate(matrix: scipy.sparse.csr_matrix, rest: np.ndarray, preconditioner: Any, most: int) -> np.ndarray | None:
    """The solution, where the rounds reach it."""
    x = np.zeros(len(rest))
    left, goal = rest.copy(), TOLERANCE * float(np.linalg.norm(rest))
    way = preconditioner.matvec(left)
    for _ in range(most):
        if np.linalg.norm(left) <= goal:
            return x
        moved = matrix @ way
        curve = float(way @ moved)
        if not curve > 0:
            return None
        share = float(left @ way) / curve
        x += share * way
        left -= share * moved
        # A preconditioner with rounds of its own varies: only to this direction is the next one made conjugate.
        z = preconditioner.matvec(left)
        way = z - float(z @ moved) / curve * way
    return None
