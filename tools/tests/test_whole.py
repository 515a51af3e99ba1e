"""The equations in whole numbers, beside fractions, and the solvers of certify."""
from fractions import Fraction

import numpy as np
import pytest
import recheck
import scipy.sparse
from conftest import heads

from heads_tools.listing.listing import read_listing
from heads_tools.deck.model import read_model
from heads_tools.numbers.multigrid import multigrid
from heads_tools.numbers.equations import given_heads
from heads_tools.numbers.whole import WholeModel
from heads_tools.numbers.whole_step import WholeStep
from heads_tools.numbers.zone_budget import on_grid
from heads_tools.numbers.solvers import by_incomplete, by_multigrid, by_scaling, conjugate, direct, solved

pytestmark = pytest.mark.program
WHOLE = ["three_cells", "river_valley", "drained_field", "three_aquifers", "tide", "pumping_test"]


@pytest.fixture
def ran(example):
    """Runs an example, or its last period's first steps alone; its name file, its listing and the listing's text."""

    def run(name, steps=None):
        nam = example(name)
        if steps:
            dis = next(nam.parent.glob("*.dis"))
            lines = dis.read_text().rstrip().split("\n")
            perlen, _, *rest = lines[-1].split()
            dis.write_text("\n".join([*lines[:-1], " ".join([perlen, str(steps), *rest])]) + "\n")
        text = heads(["run", nam.name], nam.parent).stdout
        (nam.parent / "m.heads").write_text(text)
        return nam, nam.parent / "m.heads", text

    return run


@pytest.mark.parametrize("name", WHOLE)
def test_whole_numbers_lie_round_the_fractions_of_recheck(name, ran, monkeypatch):
    """Balances of the first steps: least and most lie round the exact ones, and near them."""
    nam, path, _ = ran(name)
    monkeypatch.chdir(nam.parent)
    exact, model, listing = recheck.Model(nam.name), read_model(nam), read_listing(path)
    one = 10**listing.flow_places
    network, given = WholeModel(model, listing.digits), {}
    old = network.start
    for at, listed in enumerate(listing.steps[:3]):
        given = given_heads(model, listed.period - 1, given) if listed.step == 1 else given
        step = WholeStep(network, listed.period, listed.step, given)
        theirs = recheck.Step(exact, exact.times[at])
        listed_heads = [on_grid(model, listing, units) for units in (listed.low, listed.high)]
        now = [np.where(step.is_constant, step.constant[side], listed_heads[side]) for side in (0, 1)]
        in_units = [[Fraction(int(v), 10**9) for v in side] for side in now]
        past = [[Fraction(int(v), 10**9) for v in side] for side in old]
        for side in (0, 1):
            low, high = (step.balance(now[side], old[side], s) for s in (0, 1))
            for cell in theirs.cells:
                balance = theirs.balance(cell, in_units[side], past[side]) * one
                around = [g * (in_units[side][b] - in_units[side][cell]) for b, g in theirs.links[cell]]
                around += [b.flow(in_units[side][cell], past[side][cell]) for b in theirs.branches[cell]]
                assert low[cell] <= balance <= high[cell], (name, cell)
                assert high[cell] - low[cell] <= sum(map(abs, around)) * one / 10**6 + 20, (name, cell)
        old = tuple(now)


def cube(n, contrast=1.0):
    """Branches of a cube of n cells a side, held at one side."""
    conductivity = np.exp(contrast * np.random.default_rng(2).normal(size=(n, n, n))).ravel()
    cells, ends = np.arange(n**3).reshape(n, n, n), []
    for axis in range(3):
        ends.append((np.take(cells, range(n - 1), axis).ravel(), np.take(cells, range(1, n), axis).ravel()))
    a, b = (np.concatenate([pair[k] for pair in ends]) for k in (0, 1))
    branch = 2 / (1 / conductivity[a] + 1 / conductivity[b])
    links = scipy.sparse.coo_matrix(
        (np.concatenate([branch, branch]), (np.concatenate([a, b]), np.concatenate([b, a]))), (n**3, n**3)
    ).tocsc()
    held = np.where(np.arange(n**3) < n * n, 1.0, 0.0)
    return scipy.sparse.diags(np.asarray(links.sum(axis=1)).ravel() + held).tocsc() - links


@pytest.mark.parametrize("solve", [by_multigrid, by_scaling, by_incomplete])
def test_solvers_agree(solve):
    matrix = cube(12)
    rest = np.random.default_rng(1).normal(size=matrix.shape[0])
    near = solve(matrix, rest)
    assert near is not None and np.abs(matrix @ near - rest).max() < 1e-5
    assert np.abs(near - direct(matrix, rest)).max() < 1e-4
    assert np.abs(matrix @ solved(matrix, rest, 12) - rest).max() < 1e-5


def test_the_rounds_of_multigrid_hardly_grow_with_the_grid():
    for n in (10, 30):
        matrix = cube(n, 2.0).tocsr()
        rest = np.random.default_rng(1).normal(size=n**3)
        assert conjugate(matrix, rest, multigrid(matrix), 60) is not None
