"""A model's finite-difference equations in doubles, by scipy's sparse matrices. Nothing here is proved or trusted:
`heads check` decides on what is made with it."""
from __future__ import annotations

import numpy as np

from ..deck.deck import Entry
from ..deck.model import Model, growth, value
from ..deck.sources import Array

TERMS = {
    "STORAGE": 0,
    "CONSTANT HEAD": 1,
    "WELLS": 2,
    "DRAINS": 3,
    "RIVER LEAKAGE": 4,
    "HEAD DEP BOUNDS": 5,
    "RECHARGE": 6,
    "ET": 7,
}
Given = dict[int, tuple[Entry, bool]]


def given_heads(model: Model, period: int, before: Given) -> Given:
    """The cells that a CHD list has named so far, with the last entry of each; True where this period's list names
    it."""
    out = {cell: (entry, False) for cell, (entry, _) in before.items()}
    lists = model.deck.lists.get("CHD", [])
    entries = lists[period] if lists else []
    if entries is None:
        entries = next(e for e in reversed(lists[:period]) if e is not None)
    return out | {model.index(e.cell): (e, True) for e in entries}


class Network:
    """Branches between cells with flow: their two cells' numbers and conductances (length^2 per time)."""

    def __init__(self, model: Model):
        self.model = model
        self.ids = np.arange(model.thick.size).reshape(model.shape)
        parts = [self._row(), self._column(), self._vertical()]
        a, b, c = (np.concatenate([p[n] for p in parts]) for n in range(3))
        active = model.ibound.ravel() != 0
        keep = active[a] & active[b]
        self.a, self.b, self.c = a[keep], b[keep], c[keep]

    def least_branch(self) -> float:
        return float(self.c.min()) if self.c.size else float("inf")

    def _row(self):
        m, i = self.model, self.ids
        with np.errstate(all="ignore"):
            half = m.delr / (2 * m.delc[:, None] * m.hk * m.thick)
            c = 1 / (half[:, :, :-1] + half[:, :, 1:])
        return i[:, :, :-1].ravel(), i[:, :, 1:].ravel(), c.ravel()

    def _column(self):
        m, i = self.model, self.ids
        with np.errstate(all="ignore"):
            half = m.delc[:, None] / (2 * m.delr * m.hk * m.hani * m.thick)
            c = 1 / (half[:, :-1] + half[:, 1:])
        return i[:, :-1].ravel(), i[:, 1:].ravel(), c.ravel()

    def _vertical(self):
        m, i = self.model, self.ids
        with np.errstate(all="ignore"):
            half, bed = m.thick / 2 / m.vk, np.where(m.bed != 0, m.bed / np.where(m.bed != 0, m.vkcb, 1), 0.0)
            c = m.area / (half[:-1] + bed[:-1] + half[1:])
        return i[:-1].ravel(), i[1:].ravel(), c.ravel()

    def step(self, period: int, step: int, given: Given) -> Step:
        return Step(self, period, step, given)


class Step:
    """The equations of a step over its variable cells (`cells`: their numbers). Parts are arrays by entry: `at`, the
    place among the variable cells, and numbers. `fixed`: term, conductance and the cell that holds the head (its own
    number for storage, -1 where `head` is the head)."""

    def __init__(self, network: Network, period: int, step: int, given: Given):
        m, deck = network.model, network.model.deck
        self.network, self.model, self.period, self.number = network, m, period, step
        ibound = m.ibound.ravel()
        self.is_constant = (ibound < 0) | ((ibound > 0) & np.isin(np.arange(ibound.size), list(given)))
        self.cells = np.flatnonzero((ibound > 0) & ~self.is_constant)
        self.n = len(self.cells)
        place = np.full(ibound.size, -1)
        place[self.cells] = np.arange(self.n)
        self.place = place
        a, b, c = network.a, network.b, network.c
        both = (place[a] >= 0) & (place[b] >= 0)
        i, j, g = place[a[both]], place[b[both]], c[both]
        # A command that makes no step, or prints its help, doesn't load it.
        from scipy.sparse import csr_matrix

        self.links = csr_matrix(
            (np.concatenate([g, g]), (np.concatenate([i, j]), np.concatenate([j, i]))), shape=(self.n, self.n)
        )
        self.link_sum = np.asarray(self.links.sum(axis=1)).ravel()
        fixed = [
            (place[x[k]], np.full(k.sum(), TERMS["CONSTANT HEAD"]), c[k], y[k], np.zeros(k.sum()))
            for x, y in ((a, b), (b, a))
            for k in [(place[x] >= 0) & self.is_constant[y]]
        ]
        per = deck.periods[period]
        if not per.is_steady:
            mult, length = value(per.tsmult), value(per.perlen)
            with np.errstate(over="ignore"):
                s = (
                    m.ss
                    * (1 if m.is_coefficient else m.thick)
                    * m.area
                    * (growth(mult, per.nstp) / (length * mult ** (step - 1)))
                )
            s = s.ravel()[self.cells]
            some = s > 0
            fixed.append(
                (
                    np.flatnonzero(some),
                    np.full(some.sum(), TERMS["STORAGE"]),
                    s[some],
                    self.cells[some],
                    np.zeros(some.sum()),
                )
            )
        ghb = self.entries("GHB")
        fixed.append(
            (
                ghb[0],
                np.full(len(ghb[0]), TERMS["HEAD DEP BOUNDS"]),
                ghb[1][:, 1],
                np.full(len(ghb[0]), -1),
                ghb[1][:, 0],
            )
        )
        self.at, self.term, self.c, self.holder, self.head = (np.concatenate(x) for x in zip(*fixed))
        self.at, self.term, self.holder = self.at.astype(int), self.term.astype(int), self.holder.astype(int)
        wells = self.entries("WEL")
        rch_at, rch = self.areal("RCH")
        self.flow_at = np.concatenate([wells[0], rch_at]).astype(int)
        self.flow_term = np.concatenate([np.full(len(wells[0]), 2), np.full(len(rch_at), 6)]).astype(int)
        self.flow = np.concatenate([wells[1][:, 0], rch[:, 0]])
        self.riv_at, riv = self.entries("RIV")
        self.riv_stage, self.riv_c, self.riv_bottom = riv.T
        self.drn_at, drn = self.entries("DRN")
        self.drn_level, self.drn_c = drn.T
        self.evt_at, evt = self.areal("EVT")
        self.evt_c, self.evt_surf, self.evt_ext = evt.T
        bounded = self.sum(self.riv_at, self.riv_c) + self.sum(self.drn_at, self.drn_c)
        self.conductance = self.link_sum + self.sum(self.at, self.c) + bounded + self.sum(self.evt_at, self.evt_c)
        rounded = self.term == TERMS["HEAD DEP BOUNDS"]
        # What the rounding of the deck's own heads to 10^-9 can cost, by conductance.
        self.input_c = self.sum(self.at[rounded], self.c[rounded]) + bounded + 2 * self.sum(self.evt_at, self.evt_c)

    def sum(self, at: np.ndarray, values: np.ndarray) -> np.ndarray:
        """The sums of entries' values by variable cell."""
        return np.bincount(at, values, self.n) if len(at) else np.zeros(self.n)

    def flow_size(self) -> np.ndarray:
        """The magnitudes of constant and deep flows by cell, summed."""
        return (
            self.sum(self.flow_at, np.abs(self.flow))
            + self.sum(self.riv_at, self.riv_c * np.abs(self.riv_stage - self.riv_bottom))
            + self.sum(self.evt_at, self.evt_c * (self.evt_surf - self.evt_ext))
        )

    def entries(self, kind: str) -> tuple[np.ndarray, np.ndarray]:
        """The places and numbers of a list's entries in variable cells; a list of a period before where it is
        reused."""
        periods = self.model.deck.lists.get(kind, [])
        none: list[Entry] = []
        entries = next((e for e in reversed(periods[: self.period + 1]) if e is not None), none)
        width = {"WEL": 1, "RIV": 3, "DRN": 2, "GHB": 2}[kind]
        at = np.array([self.place[self.model.index(e.cell)] for e in entries], dtype=int)
        numbers = np.array([[value(w) for w in e.words] for e in entries]).reshape(len(entries), width)
        return at[at >= 0], numbers[at >= 0]

    def areal(self, kind: str) -> tuple[np.ndarray, np.ndarray]:
        """Recharge (flow) or evapotranspiration (conductance, surface, extinction elevation) at the cells that
        receive it."""
        m, areal = self.model, self.model.deck.areal.get(kind)
        width = 1 if kind == "RCH" else 3
        if areal is None:
            return np.zeros(0, int), np.zeros((0, width))
        arrays: dict[str, Array] = {}
        for _, new in areal.periods[: self.period + 1]:
            arrays |= new
        layers, active = np.zeros(m.shape[1:], int), m.ibound != 0
        if areal.option == 2:
            layers = arrays["IRCH" if kind == "RCH" else "IEVT"].floats().astype(int) - 1
        elif areal.option == 3:
            layers = np.where(active.any(axis=0), active.argmax(axis=0), -1)
        ids = np.where(layers >= 0, layers * m.area.size + np.arange(m.area.size).reshape(m.area.shape), -1).ravel()
        at = np.where(ids >= 0, self.place[ids], -1)
        if kind == "RCH":
            table = (arrays["RECH"].floats() * m.area).reshape(-1, 1)
        else:
            surf, rate, depth = (arrays[n].floats() for n in ("SURF", "EVTR", "EXDP"))
            at = np.where(rate.ravel() > 0, at, -1)
            table = np.stack([rate * m.area / np.where(depth > 0, depth, 1), surf, surf - depth], axis=-1).reshape(
                -1, 3
            )
        return at[at >= 0], table[at >= 0]
