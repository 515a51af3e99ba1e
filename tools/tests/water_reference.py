"""Small models with convertible layers: their decks, and their heads to 60 digits by equations of its own (TM 6-A16,
chapter 5: harmonic mean, saturated thickness min(h, top) - bottom, storage by SY below the top and by SS above it)."""
import random
from dataclasses import dataclass, field
from decimal import Decimal, getcontext

import numpy as np

getcontext().prec = 70
D = Decimal
ROW, COLUMN, DOWN = range(3)


@dataclass
class Small:
    """A model on cells of 100 by 100: per cell `top`, `bottom`, `k`, `ibound`, `strt`; `vk`, `vkcb`, `ss`, `sy` of all;
    `convertible` by layer, which is LAYTYP; `chani` of all; `is_coefficient`: STORAGECOEFFICIENT; `bed`: layers with a
    bed of thickness 1 below them; periods (PERLEN, NSTP, SS or TR, and TSMULT, 1 where it is left out); entries
    (cell, numbers); `evt`: SURF, EVTR and EXDP of all columns, in the highest cell with flow, as `rain`."""

    shape: tuple
    top: list
    bottom: list
    k: list
    ibound: list
    strt: list
    convertible: list
    bed: set = field(default_factory=set)
    vk: D = D("0.5")
    vkcb: D = D("0.02")
    ss: D = D("0.00001")
    sy: D = D("0.15")
    periods: list = field(default_factory=lambda: [("1", 1, "SS")])
    wells: list = field(default_factory=list)
    rivers: list = field(default_factory=list)
    drains: list = field(default_factory=list)
    general: list = field(default_factory=list)
    rain: D = D(0)
    chani: D = D(1)
    is_coefficient: bool = False
    evt: tuple = ()

    @property
    def size(self):
        return self.shape[1] * self.shape[2]

    def place(self, c):
        k, r = divmod(c, self.size)
        return k + 1, r // self.shape[2] + 1, r % self.shape[2] + 1

    def neighbours(self):
        """Pairs of cells with flow, and the axis along which they lie: ROW, COLUMN, DOWN."""
        nlay, nrow, ncol = self.shape
        for c in range(nlay * self.size):
            k, i, j = (n - 1 for n in self.place(c))
            beside = (j + 1 < ncol, c + 1, ROW), (i + 1 < nrow, c + ncol, COLUMN), (k + 1 < nlay, c + self.size, DOWN)
            for is_there, n, axis in beside:
                if is_there and self.ibound[c] and self.ibound[n]:
                    yield c, n, axis

    def write(self, folder):
        """The deck's files; the name file."""
        nlay, nrow, ncol = self.shape
        line = lambda v: " ".join(map(str, v)) + "\n"
        rows = lambda v: "INTERNAL 1 (FREE) -1\n" + "".join(line(v[n : n + ncol]) for n in range(0, len(v), ncol))
        layers = lambda v: [v[k * self.size : (k + 1) * self.size] for k in range(nlay)]
        put = lambda name, text: (folder / name).write_text(text)
        files = ["DIS", "BAS6", "LPF", "WEL", "RIV", "DRN", "GHB", "RCH", *["EVT"] * bool(self.evt)]
        put("m.nam", "".join(f"{kind} {n} m.{kind.lower()}\n" for n, kind in enumerate(files, 11)))
        dis = f"{nlay} {nrow} {ncol} {len(self.periods)} 4 2\n" + line([int(k in self.bed) for k in range(nlay)])
        dis += "CONSTANT 100\nCONSTANT 100\n" + rows(self.top[: self.size])
        for k, bottom in enumerate(layers(self.bottom)):
            dis += rows(bottom) + (rows([b - 1 for b in bottom]) if k in self.bed else "")
        times = [(*period, D(1))[:4] for period in self.periods]
        put("m.dis", dis + "".join(f"{length} {count} {tsmult} {kind}\n" for length, count, kind, tsmult in times))
        ibound, strt = ("".join(map(rows, layers(v))) for v in (self.ibound, self.strt))
        put("m.bas6", f"FREE\n{ibound}-999\n{strt}")
        none = line([0] * nlay)
        lpf = "0 -1E+30 0" + " STORAGECOEFFICIENT" * self.is_coefficient + "\n"
        lpf += line(map(int, self.convertible)) + none + line([self.chani] * nlay) + none + none
        is_transient = any(period[2] == "TR" for period in self.periods)
        for k, hk in enumerate(layers(self.k)):
            lpf += rows(hk) + f"CONSTANT {self.vk}\n" + f"CONSTANT {self.ss}\n" * is_transient
            lpf += f"CONSTANT {self.sy}\n" * bool(is_transient and self.convertible[k])
            lpf += f"CONSTANT {self.vkcb}\n" * (k in self.bed)
        put("m.lpf", lpf)
        again = "-1 0\n" * (len(self.periods) - 1)
        entry = lambda c, numbers: " ".join(map(str, (*self.place(c), *numbers))) + "\n"
        for name, entries in (("riv", self.rivers), ("drn", self.drains), ("ghb", self.general)):
            put(f"m.{name}", f"99 0\n{len(entries)} 0\n" + "".join(entry(c, n) for c, n in entries) + again)
        wells = ["".join(entry(c, [q[p]]) for c, q in self.wells) for p in range(len(self.periods))]
        put("m.wel", "99 0\n" + "".join(f"{len(self.wells)} 0\n{text}" for text in wells))
        put("m.rch", f"3 0\n0\nCONSTANT {self.rain}\n" + "-1\n" * (len(self.periods) - 1))
        if self.evt:
            arrays = "".join(f"CONSTANT {number}\n" for number in self.evt)
            put("m.evt", f"3 0\n0 0 0\n{arrays}" + "-1 -1 -1\n" * (len(self.periods) - 1))
        return folder / "m.nam"

    def steps(self):
        for p, period in enumerate(self.periods):
            length, count, kind, tsmult = (*period, D(1))[:4]
            first = D(length) / sum(D(tsmult) ** n for n in range(count))
            for number in range(1, count + 1):
                yield p, number, None if kind == "SS" else first * D(tsmult) ** (number - 1)

    def conductance(self, a, b, axis, head, other, num):
        """Between two neighbours at their heads, in numbers of the kind `num`."""
        def wet(c, h):
            is_conv = self.convertible[c // self.size]
            return (min(h, num(self.top[c])) if is_conv else num(self.top[c])) - num(self.bottom[c])

        if axis == DOWN:
            bed = num(1) / num(self.vkcb) if a // self.size in self.bed else num(0)
            return num(10000) / (wet(a, head) / (2 * num(self.vk)) + bed + wet(b, other) / (2 * num(self.vk)))
        along = num(self.chani) if axis == COLUMN else num(1)
        return along / (1 / (2 * num(self.k[a]) * wet(a, head)) + 1 / (2 * num(self.k[b]) * wet(b, other)))

    def balances(self, h, old, period, length, num):
        """The balance of each cell, and the flows in and out by term, in numbers of the kind `num`."""
        out, terms = [num(0)] * len(h), {}
        area = num(10000)

        def give(term, c, q):
            out[c] += q
            if term:
                terms.setdefault(term, [num(0), num(0)])[0 if q > 0 else 1] += abs(q)

        for a, b, axis in self.neighbours():
            c = self.conductance(a, b, axis, h[a], h[b], num)
            q = c * (h[b] - h[a])
            if self.ibound[a] > 0:
                give("CONSTANT HEAD" if self.ibound[b] < 0 else "", a, q)
            if self.ibound[b] > 0:
                give("CONSTANT HEAD" if self.ibound[a] < 0 else "", b, -q)
        for c in range(self.size):
            c = next((n for n in range(c, len(h), self.size) if self.ibound[n]), -1)
            if c >= 0 and self.ibound[c] > 0:
                give("RECHARGE", c, num(self.rain) * area)
                if self.evt:
                    surface, rate, depth = map(num, self.evt)
                    give("ET", c, -rate * area * max(min(h[c], surface) - surface + depth, num(0)) / depth)
        for c, q in self.wells:
            give("WELLS", c, num(q[period]))
        for c, (stage, cond, bottom) in self.rivers:
            give("RIVER LEAKAGE", c, num(cond) * (num(stage) - max(h[c], num(bottom))))
        for c, (level, cond) in self.drains:
            give("DRAINS", c, -num(cond) * max(h[c] - num(level), num(0)))
        for c, (level, cond) in self.general:
            give("HEAD DEP BOUNDS", c, num(cond) * (num(level) - h[c]))
        if length is not None:
            for c in range(len(h)):
                if self.ibound[c] > 0:
                    give("STORAGE", c, (self.water(c, old[c], num) - self.water(c, h[c], num)) / num(length))
        return [q if self.ibound[c] > 0 else num(0) for c, q in enumerate(out)], terms

    def water(self, c, h, num):
        top = num(self.top[c])
        thick = num(1) if self.is_coefficient else top - num(self.bottom[c])
        if not self.convertible[c // self.size]:
            return num(self.ss) * thick * 10000 * h
        return num(self.sy) * 10000 * min(h, top) + num(self.ss) * thick * 10000 * max(h - top, num(0))

    def solution(self, begin):
        """Of each step the heads near `begin` (doubles, step after step) and the terms' flows, to 60 digits."""
        old, out = [D(x) for x in self.strt], []
        free = [c for c, n in enumerate(self.ibound) if n > 0]
        for (p, _, length), start in zip(self.steps(), begin):
            h = [D(float(x)) if self.ibound[c] > 0 else D(self.strt[c]) for c, x in enumerate(start)]
            for _ in range(12):
                rest, terms = self.balances(h, old, p, length, D)
                big = max(abs(rest[c]) for c in free)
                if big < D(10) ** -55:
                    break
                slopes = self.slopes([float(x) for x in h], [float(x) for x in old], p, length, free)
                move = np.linalg.solve(slopes, [-float(rest[c] / big) for c in free])
                for c, m in zip(free, move):
                    h[c] += D(float(m)) * big
            assert big < D(10) ** -40
            out.append((h, terms))
            old = h
        return out

    def slopes(self, h, old, period, length, free):
        """The slopes of the balances in doubles, by small differences."""
        columns = []
        for c in free:
            ends = []
            for sign in (1e-6, -1e-6):
                moved = list(h)
                moved[c] += sign
                ends.append(np.array(self.balances(moved, old, period, length, float)[0])[free])
            columns.append((ends[0] - ends[1]) / 2e-6)
        return np.array(columns).T


HOLE, LOWER_HOLE = 7, 12


def draw(seed, layers=1, steps=0):
    """A random model: rough bottoms, K of sigma ln 1, known heads at both ends, wells, rivers, drains, a general head,
    recharge; of several layers a bed, and holes in the first and the second one. Below the first hole the water table
    is in the second layer."""
    r = random.Random(seed)
    rows, cols = 4, 5
    size = rows * cols
    cells = range(size * layers)
    number = lambda a, b, places: D(round(r.uniform(a, b) * 10**places)) / 10**places
    bottom = [number(0, 4, 2) for _ in range(size)]
    if layers > 1:
        bottom[HOLE] = D(24)
    top = [b + 50 for b in bottom]
    bed = {0} if layers > 1 else set()
    for k in range(1, layers):
        top += [b - (1 if k - 1 in bed else 0) for b in bottom[-size:]]
        bottom += [b - 10 for b in top[-size:]]
    ibound = [1 if 0 < c % cols < cols - 1 else -1 for c in cells]
    if layers > 1:
        ibound[HOLE] = 0
    if layers > 2:
        ibound[size + LOWER_HOLE] = 0
    strt = [D(16) if c % cols == 0 else D("19.5") if c % cols == cols - 1 else D(18) for c in cells]
    k = [number(0.3, 20, 2) for _ in cells]
    m = Small((layers, rows, cols), top, bottom, k, ibound, strt, [True] * layers, bed)
    free = [c for c in cells if ibound[c] > 0]
    m.rain = number(0, 0.001, 5)
    m.periods += [("10", steps, "TR")] if steps else []
    pick = lambda: r.choice(free)
    m.wells = [(pick(), [-number(0, 60, 1), -number(0, 150, 1)]) for _ in range(2)]
    m.rivers = [(pick(), [D("17.5"), number(5, 100, 0), D("16.5")]) for _ in range(2)]
    m.drains = [(pick(), [D("17.2"), number(5, 100, 0)])]
    m.general = [(pick(), [D("18.25"), number(5, 50, 0)])]
    return m


def tank(rates, top="5", sy="0.1", ss="0.00001", strt="6"):
    """One cell that storage alone holds: a well for each day."""
    m = Small((1, 1, 1), [D(top)], [D(0)], [D(1)], [1], [D(strt)], [True], sy=D(sy), ss=D(ss))
    m.periods = [("1", 1, "TR") for _ in rates]
    m.wells = [(0, [D(rate) for rate in rates])]
    return m


def pumped(rate, known="10", k="10"):
    """One cell between two known heads, over the bottom 0."""
    heads = [D(known), D(known), D(known)]
    m = Small((1, 1, 3), [D(20)] * 3, [D(0)] * 3, [D(k)] * 3, [-1, 1, -1], heads, [True])
    m.wells = [(1, [D(rate)])]
    return m
