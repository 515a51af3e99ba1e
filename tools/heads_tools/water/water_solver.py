"""Heads of a step of a model with convertible layers, in doubles: each round solves the confined model whose top is the
water table of the round before. Nothing here is proved or trusted: the signs of the heads are tested afterwards."""
from __future__ import annotations

import dataclasses

import numpy as np
import scipy.sparse

from ..common.text import Problem
from ..numbers.equations import Network, Step
from ..numbers.solvers import solved
from .convertible import Convertible
from .water_steps import StepData

UNIT = 1e-9
ROUNDS, CALM = 400, 100
NEAR = 1e-12


class WaterStep:
    """The equations of a step. `slack`: how far a conductance is rounded."""

    def __init__(self, water: Convertible, data: StepData, slack: float):
        self.water, self.model, self.per_time, self.slack = water, water.model, data.per_time, slack
        self.bottom = self.model.bottom.ravel()
        self.above = (self.model.bottom + self.model.thick).ravel()
        steady = dataclasses.replace(self.model, ss=np.zeros(self.model.shape))
        self.step: Step = Network(steady).step(data.period - 1, data.number, data.given)
        self.cells, self.place = self.step.cells, self.step.place
        shape, model = self.model.shape, self.model
        layers = zip(model.deck.properties, water.layers)
        sy = [p["SY"].floats() if "SY" in p and some else np.zeros(shape[1:]) for p, some in layers]
        s1 = model.ss * (1 if model.is_coefficient else model.thick) * model.area * data.per_time
        s2 = np.where(np.reshape(water.in_layer, shape), np.array(sy) * model.area * data.per_time, s1)
        self.by_ss, self.by_sy = s1.ravel(), s2.ravel()

    def conductances(self, heads: np.ndarray) -> tuple[np.ndarray, np.ndarray, np.ndarray]:
        """Branches at the saturated thicknesses of these heads."""
        wet = np.maximum(np.minimum(heads, self.above) - self.bottom, 1e-3)
        thick = np.where(self.water.has_table, wet, self.model.thick.ravel()).reshape(self.model.shape)
        net = Network(dataclasses.replace(self.model, thick=thick))
        return net.a, net.b, net.c

    def stored(self, heads: np.ndarray) -> np.ndarray:
        """What cells hold, over the step's length."""
        above = self.by_sy * np.minimum(heads, self.above) + self.by_ss * np.maximum(heads - self.above, 0)
        return np.where(self.water.in_layer, above, self.by_ss * heads)

    def system(self, heads: np.ndarray, old: np.ndarray) -> tuple[scipy.sparse.csr_matrix, np.ndarray, np.ndarray]:
        """Links, slopes in the own head, and right-hand sides, at the slopes that hold at these heads."""
        s, place, v = self.step, self.place, heads[self.cells]
        a, b, c = self.conductances(heads)
        both = (place[a] >= 0) & (place[b] >= 0)
        i, j, g = place[a[both]], place[b[both]], c[both]
        ends = (np.concatenate([i, j]), np.concatenate([j, i]))
        links = scipy.sparse.csr_matrix((np.concatenate([g, g]), ends), shape=(s.n, s.n))
        slope, rest = np.asarray(links.sum(axis=1)).ravel(), s.sum(s.flow_at, s.flow)
        for x, y in ((a, b), (b, a)):
            held = (place[x] >= 0) & s.is_constant[y]
            slope = slope + s.sum(place[x[held]], c[held])
            rest = rest + s.sum(place[x[held]], c[held] * heads[y[held]])
        general = s.holder < 0
        slope = slope + s.sum(s.at[general], s.c[general])
        rest = rest + s.sum(s.at[general], (s.c * s.head)[general])
        wet = v[s.riv_at] > s.riv_bottom
        slope = slope + s.sum(s.riv_at, wet * s.riv_c)
        rest = rest + s.sum(s.riv_at, s.riv_c * (s.riv_stage - np.where(wet, 0, s.riv_bottom)))
        runs = s.drn_c * (v[s.drn_at] > s.drn_level)
        slope, rest = slope + s.sum(s.drn_at, runs), rest + s.sum(s.drn_at, runs * s.drn_level)
        full = v[s.evt_at] > s.evt_surf
        part = s.evt_c * ((v[s.evt_at] > s.evt_ext) & ~full)
        slope = slope + s.sum(s.evt_at, part)
        rest = rest + s.sum(s.evt_at, part * s.evt_ext - full * s.evt_c * (s.evt_surf - s.evt_ext))
        if self.per_time:
            is_low = self.water.in_layer & (heads < self.above)
            by = np.where(is_low, self.by_sy, self.by_ss)
            slope = slope + by[self.cells]
            rest = rest + (self.stored(old) - self.stored(heads) + by * heads)[self.cells]
        return links, slope, rest

    def solve(self, heads: np.ndarray, old: np.ndarray, factor: float) -> np.ndarray:
        """Heads of all cells that balance each variable cell but for `factor` times what roundings may change, with
        the constant heads of `heads`. `old`: those of the step before."""
        heads, before = heads.copy(), np.inf
        if not self.step.n:
            return heads
        low = self.bottom[self.cells]
        table = self.water.has_table[self.cells]
        for count in range(ROUNDS):
            links, slope, rest = self.system(heads, old)
            v = heads[self.cells]
            room = factor * self.roundings(links, slope, v)
            matrix = (scipy.sparse.diags(np.maximum(slope, 1e-300)) - links).tocsr()
            new = self.solution(matrix, rest + room)
            new = np.where(table, np.maximum(new, low + 0.1 * np.maximum(v - low, 1e-2)), new)
            move = float(np.abs(new - v).max())
            # Rounds that don't settle swing between two slopes: half of the way then.
            heads[self.cells] = new if count < CALM else (new + v) / 2
            if move < NEAR or (move < UNIT and move >= before):
                break
            before = move
        return heads

    def solution(self, matrix: scipy.sparse.csr_matrix, rest: np.ndarray) -> np.ndarray:
        try:
            found = solved(matrix, rest, self.model.shape[0])
        except RuntimeError:
            found = np.full(len(rest), np.nan)
        if not np.isfinite(found).all():
            raise Problem("the step's equations have no solution that can be computed: does anything hold the heads?")
        return np.clip(found, -3.9e9, 3.9e9)

    def roundings(self, links: scipy.sparse.csr_matrix, slope: np.ndarray, v: np.ndarray) -> np.ndarray:
        """The flow that the rounding of heads, conductances and doubles can change, and one unit of flow."""
        ends = links.tocoo()
        apart = self.step.sum(ends.row, np.abs(v[ends.col] - v[ends.row]))
        doubles = 8 * np.finfo(float).eps * slope * np.abs(v)
        return UNIT * (2 * slope + 1e-3 * slope.mean() + 1) + 4 * self.slack * apart + doubles

    def imbalance(self, heads: np.ndarray, old: np.ndarray) -> float:
        """The greatest balance of a cell at these heads, by magnitude."""
        links, slope, rest = self.system(heads, old)
        v = heads[self.cells]
        return float(np.abs(rest + links @ v - slope * v).max(initial=0))
