"""Random models with convertible layers, and listings of them that don't come from `heads` or heads-tools: pairs round
the solution of water_reference.py, and their flows."""
import random
from decimal import ROUND_CEILING, ROUND_FLOOR, Decimal
from fractions import Fraction

import numpy as np
from water_reference import Small

D = Decimal
TERMS = ["STORAGE", "CONSTANT HEAD", "WELLS", "DRAINS", "RIVER LEAKAGE", "HEAD DEP BOUNDS", "RECHARGE", "ET"]
NANO = D(10) ** -9


def drawn(seed):
    """A random model of 1 to 3 layers: LAYTYP 0, above and below 0, tops above and below the water table, thin layers,
    holes, beds, CHANI, STORAGECOEFFICIENT, steady and transient periods, and all stresses but CHD."""
    r = random.Random(seed)
    nlay, rows, cols = r.choice((1, 1, 2, 3)), r.randint(2, 4), r.randint(3, 5)
    size = rows * cols
    number = lambda a, b, places: D(round(r.uniform(a, b) * 10**places)) / 10**places
    bed = {k for k in range(nlay - 1) if r.random() < 0.4}
    thin = r.choice((0, 0, 0, 0.3, 0.9))
    top = [number(*r.choice(((15, 21), (24, 60))), 2) for _ in range(size)]
    bottom = [number(*((11, 14) if r.random() < thin else (0, 5)), 2) for _ in range(size)]
    for k in range(1, nlay):
        top += [b - (1 if k - 1 in bed else 0) for b in bottom[-size:]]
        bottom += [t - number(4, 12, 1) for t in top[-size:]]
    cells = range(size * nlay)
    ends = lambda c: c % cols in (0, cols - 1)
    ibound = [(-1 if r.random() < 0.8 else 1) if ends(c) else (0 if r.random() < 0.08 else 1) for c in cells]
    strt = [number(*((14.5, 30) if thin else (15, 20)), 3) if ends(c) else D(18) for c in cells]
    laytyp = [r.choice((1, 1, 1, -1, 2, 0)) for _ in range(nlay)]
    k = [number(0.3, 20, 2) for _ in cells]
    m = Small((nlay, rows, cols), top, bottom, k, ibound, strt, laytyp, bed)
    m.chani, m.is_coefficient = number(0.2, 3, 1), r.random() < 0.2
    m.ss, m.sy = number(0, 0.0001, 7), number(0.01, 0.3, 3)
    m.periods = [("1", 1, "SS")] if r.random() < 0.6 else []
    if not m.periods or r.random() < 0.6:
        m.periods.append((str(r.randint(1, 30)), r.randint(1, 3), "TR", number(0.7, 1.6, 1)))
    free = [c for c in cells if ibound[c] > 0] or [0]
    pick = lambda: r.choice(free)
    rate = lambda: -number(0, 90, 1) if r.random() < 0.8 else number(0, 40, 1)
    m.wells = [(pick(), [rate() for _ in m.periods]) for _ in range(r.randint(0, 3))]
    m.rivers = [(pick(), [number(17, 19, 2), number(1, 100, 0), number(15, 17, 2)]) for _ in range(r.randint(0, 2))]
    m.drains = [(pick(), [number(15, 19, 2), number(1, 100, 0)]) for _ in range(r.randint(0, 2))]
    m.general = [(pick(), [number(16, 20, 2), number(1, 50, 0)]) for _ in range(r.randint(0, 2))]
    m.rain = number(-0.0002, 0.001, 5)
    m.evt = (number(17, 22, 1), number(0, 0.001, 5), number(1, 6, 1)) if r.random() < 0.3 else ()
    return m


class Unsolved(Exception):
    """Newton's method found no wet solution from the given heads."""


class Pairs:
    """Lower and upper heads round the solution of a model, in units of 10^-9, each balance with its sign."""

    def __init__(self, model, digits, factor=2.0):
        self.model, self.places, self.unit = model, digits + 9, D(10) ** -(digits + 9)
        self.free = [c for c, n in enumerate(model.ibound) if n > 0]
        self.steps = []
        begin = self.doubles()
        old, width = [list(map(D, model.strt))] * 2, np.zeros(len(model.ibound))
        before = [float(x) for x in model.strt]
        for (p, _, length), start, (heads, _) in zip(model.steps(), begin, model.solution(begin)):
            slopes = model.slopes(start, before, p, length, self.free)
            for times in (factor, 5 * factor, 50 * factor, 1000 * factor):
                low, high = self.pair(heads, self.widths(slopes, times, width, before, length))
                if self.have_signs(low, high, old, p, length):
                    break
            else:
                raise Unsolved
            self.steps.append((p, length, low, high, old))
            old, width, before = [low, high], np.array([float(b - a) for a, b in zip(low, high)]), start

    def doubles(self):
        """The heads of each step in doubles."""
        model, out = self.model, []
        old = [float(x) for x in model.strt]
        for p, _, length in model.steps():
            heads = list(old)
            for turn in range(40):
                rest = np.array(model.balances(heads, old, p, length, float)[0])[self.free]
                move = np.linalg.solve(model.slopes(heads, old, p, length, self.free), -rest) if self.free else rest
                if not np.all(np.isfinite(move)):
                    raise Unsolved
                for c, m in zip(self.free, move * min(1.0, 2.0 / max(abs(move).max(initial=0), 1e-9))):
                    heads[c] = max(heads[c] + m, float(model.bottom[c]) + 0.01)
                if turn and abs(move).max(initial=0) < 1e-9:
                    break
            else:
                raise Unsolved
            out.append(heads)
            old = heads
        return out

    def widths(self, slopes, times, width, before, length):
        """How far the pair lies from the solution, so that rounding of heads and the old pair change no sign."""
        out = np.zeros(len(self.model.ibound))
        days = np.inf if length is None else float(length)
        stored = np.array([self.stored_slope(c, before[c]) / days for c in self.free])
        scale = times * 1e-9 * np.abs(slopes).sum(axis=1) + 20 * float(self.unit) + 1.1 * stored * width[self.free]
        if self.free:
            out[self.free] = np.linalg.solve(-slopes, scale)
        return out

    def stored_slope(self, c, head):
        water = lambda x: self.model.water(c, x, float)
        return max(water(head + d) - water(head + d - 1e-3) for d in (0, 1e-3)) * 1e3

    def pair(self, heads, width):
        put = lambda x, rounding: x.quantize(NANO, rounding)
        exact = [D(x) for x in self.model.strt]
        low, high = list(exact), list(exact)
        for c in self.free:
            low[c], high[c] = put(heads[c] - D(width[c]), ROUND_FLOOR), put(heads[c] + D(width[c]), ROUND_CEILING)
        return low, high

    def have_signs(self, low, high, old, period, length):
        gains = self.model.balances(low, old[0], period, length, D)[0]
        losses = self.model.balances(high, old[1], period, length, D)[0]
        return all(gains[c] >= 2 * self.unit and losses[c] <= -2 * self.unit for c in self.free)

    def zone_flows(self, zones, low, high):
        """For each two zones, the smaller first, the least and the greatest flow from one to the other: of each face
        between them, any conductance between the heads and any fall of head."""
        m, out = self.model, {}
        for x, y, axis in m.neighbours():
            if zones[x] == zones[y] or 0 in (zones[x], zones[y]) or max(m.ibound[x], m.ibound[y]) < 0:
                continue
            each = [m.conductance(x, y, axis, a, b, D) for a in (low[x], high[x]) for b in (low[y], high[y])]
            a, b = (x, y) if zones[x] < zones[y] else (y, x)
            sums = out.setdefault((zones[a], zones[b]), [D(0), D(0)])
            sums[0] += min(c * (low[a] - high[b]) for c in each)
            sums[1] += max(c * (high[a] - low[b]) for c in each)
        return sorted(out.items())

    def text(self, more=D(0), zones=None):
        """The listing, with the flows between zones if these are given, by cell. Pairs of terms and of zones are wider
        than the flows by `more` on each side."""
        model, lines, at = self.model, [], 0
        names = TERMS if model.evt else TERMS[:-1]
        numbers = {(p, n): None for p, n, _ in model.steps()}
        for (p, n), (_, length, low, high, old) in zip(numbers, self.steps):
            lines.append(f"STEP {p + 1} {n}")
            for c, kind in enumerate(model.ibound):
                if kind:
                    a, b = low[c].quantize(NANO, ROUND_FLOOR), high[c].quantize(NANO, ROUND_CEILING)
                    lines.append("HEAD {} {} {} {:f} {:f}".format(*model.place(c), a, b))
            least = model.balances(high, old[0], p, length, D)[1]
            most = model.balances(low, old[1], p, length, D)[1]
            none = [D(0), D(0)]
            for at, side in enumerate(("IN", "OUT")):
                for name in names:
                    ends = sorted((least.get(name, none)[at], most.get(name, none)[at]))
                    lines.append(f"{side} {self.flow(max(ends[0] - more, D(0)), ROUND_FLOOR)}"
                                 f" {self.flow(ends[1] + more, ROUND_CEILING)} {name}")
            for (a, b), (least_flow, most_flow) in self.zone_flows(zones, low, high) if zones else ():
                ends = self.flow(least_flow - more, ROUND_FLOOR), self.flow(most_flow + more, ROUND_CEILING)
                lines.append(f"ZONE {a} {b} {ends[0]} {ends[1]}")
        return "\n".join([f"HEADS 2 DIGITS {self.places - 9} UNIT 2 CONVERTIBLE", *lines, "END", ""])

    def flow(self, x, rounding):
        return f"{x.quantize(self.unit, rounding):f}"


def zones_of(model, seed):
    """A random zone of each cell, 0 to 3."""
    r = random.Random(seed)
    return [r.choice((0, 1, 1, 2, 2, 3)) for _ in model.ibound]


def zone_file(model, zones):
    """The zones as a file, layer by layer."""
    cols = model.shape[2]
    rows = lambda v: "".join(" ".join(map(str, v[n : n + cols])) + "\n" for n in range(0, len(v), cols))
    layers = [zones[at : at + model.size] for at in range(0, len(zones), model.size)]
    return "".join("INTERNAL 1 (FREE) -1\n" + rows(layer) for layer in layers)


def narrowed(text, seed):
    """The listing with a pair of zones that lies above the flow."""
    r, lines = random.Random(seed), text.split("\n")
    at = r.choice([n for n, line in enumerate(lines) if line.startswith("ZONE ")])
    word, a, b, low, high = lines[at].split()
    unit = D(1).scaleb(D(high).as_tuple().exponent)
    lines[at] = " ".join([word, a, b, *(f"{(D(x) + D(high) - D(low) + unit).quantize(unit):f}" for x in (low, high))])
    return "\n".join(lines)


def is_gentle(pairs):
    """Whether all heads between the pairs are gentle, by a count of its own in decimals."""
    m = pairs.model
    for _, _, low, high, _ in pairs.steps:
        for c, kind in enumerate(m.ibound):
            if kind and m.convertible[c // m.size] and low[c] <= m.bottom[c]:
                return False
        for a, b, axis in m.neighbours():
            if axis == 2:
                if (m.convertible[a // m.size] or m.convertible[b // m.size]) and low[b] < m.bottom[a]:
                    return False
                continue
            for c, n in ((a, b), (b, a)):
                is_low = m.ibound[c] > 0 and m.convertible[c // m.size] and low[c] < m.top[c]
                if is_low and high[n] - low[c] > low[c] - m.bottom[c]:
                    return False
    return True


def spoilt(text, seed):
    """The listing with one thing spoilt, and what it is: a head moved past the other end, a pair of a term too narrow,
    a line left out, another first line."""
    r, lines = random.Random(seed), text.split("\n")
    kind = r.choice(("LOW", "HIGH", "LOW", "HIGH", "TERM", "LINE", "FIRST"))
    choose = lambda word: r.choice([n for n, line in enumerate(lines) if line.startswith(word)])
    if kind in ("LOW", "HIGH"):
        at = choose("HEAD ")
        words = lines[at].split()
        low, high = map(Fraction, words[4:])
        step = max(high - low, Fraction(1, 10**9)) * 3
        moved = [low + step, high + step] if kind == "LOW" else [low - step, high - step]
        lines[at] = " ".join(words[:4] + [f"{D(x.numerator) / x.denominator:.9f}" for x in moved])
    elif kind == "TERM":
        is_flow = lambda line: line.startswith(("IN ", "OUT ")) and D(line.split()[2]) > D("0.001")
        at = r.choice([n for n, line in enumerate(lines) if is_flow(line)])
        side, low, high, *name = lines[at].split()
        unit = D(1).scaleb(D(high).as_tuple().exponent)
        lines[at] = " ".join([side, low, f"{(D(high) / 2).quantize(unit):f}", *name])
    elif kind == "LINE":
        del lines[choose("HEAD ")]
    else:
        lines[0] = lines[0].removesuffix(" CONVERTIBLE")
    return "\n".join(lines), kind
