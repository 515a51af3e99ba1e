#!/usr/bin/env python3
"""Writes decks of models whose answer is known, each into a folder beside this file, with expect.csv and README.txt.

    python3 write_known.py [FOLDER]

A line of expect.csv is period,step,layer,row,col,head,within. `head` of a line with `within` 0 solves the difference
equations of the grid exactly, as a fraction, so it lies between the lower and the upper head of a listing. Elsewhere it is a
published formula of the continuum, and `within` says how far the grid's answer may be from it.
"""
import math
import sys
from fractions import Fraction
from pathlib import Path

NAMES = {"DIS": 11, "BAS6": 12, "LPF": 13, "WEL": 14, "GHB": 15, "RCH": 16, "CHD": 17}


class Deck:
    """A deck in free format; arrays are a number, or rows of numbers."""

    def __init__(self, name, about, shape, delr, delc, top, bottoms, hk, vka, ibound, strt, periods=("1 1 1 SS",), ss=None, beds=None):
        self.name, self.about, self.shape, self.files = name, about, shape, {}
        nlay, nrow, ncol = shape
        beds = beds or [None] * nlay
        layer = lambda v, k: v[k] if isinstance(v, tuple) else v
        dis = [f"{nlay} {nrow} {ncol} {len(periods)} 4 2", " ".join("1" if b else "0" for b in beds)]
        dis += array([delr] if isinstance(delr, list) else delr) + array([delc] if isinstance(delc, list) else delc)
        for elevation in (top, *bottoms):
            dis += array(elevation)
        self.files["DIS"] = dis + list(periods)
        bas = ["FREE"] + [line for k in range(nlay) for line in array(layer(ibound, k))] + ["-999.99"]
        self.files["BAS6"] = bas + [line for k in range(nlay) for line in array(layer(strt, k))]
        zeros = " ".join(["0"] * nlay)
        lpf = ["0 -1E+30 0", zeros, zeros, " ".join(["1"] * nlay), zeros, zeros]
        for k in range(nlay):
            lpf += array(layer(hk, k)) + array(layer(vka, k)) + (array(layer(ss, k)) if ss is not None else []) + (array(beds[k]) if beds[k] else [])
        self.files["LPF"] = lpf
        self.count = len(periods)
        self.expected = []

    def entries(self, kind, lists):
        """A list package; None for 'as in the period before'."""
        most = max(len(entries) for entries in lists if entries is not None)
        lines = [f"{most} 0"]
        for entries in lists:
            lines += ["-1 0"] if entries is None else [f"{len(entries)} 0", *(" ".join(map(str, e)) for e in entries)]
        self.files[kind] = lines

    def recharge(self, rate):
        self.files["RCH"] = ["3 0", "0 0", f"CONSTANT {rate}"] + ["-1 -1"] * (self.count - 1)

    def expect(self, period, step, cell, head, within=0):
        text = str(head) if isinstance(head, (Fraction, int)) else f"{head:.9f}"
        self.expected.append(f"{period},{step},{','.join(map(str, cell))},{text},{within}")

    def write(self, top):
        folder = top / self.name
        folder.mkdir(parents=True, exist_ok=True)
        names = [f"# {self.about[0]}"]
        for kind, lines in self.files.items():
            name = f"m.{kind.lower().rstrip('6')}"
            names.append(f"{kind} {NAMES[kind]} {name}")
            (folder / name).write_text("\n".join(lines) + "\n")
        (folder / "m.nam").write_text("\n".join(names) + "\n")
        (folder / "README.txt").write_text("\n".join(self.about) + "\n")
        (folder / "expect.csv").write_text("\n".join(["period,step,layer,row,col,head,within", *self.expected]) + "\n")


def array(value):
    if not isinstance(value, list):
        return [f"CONSTANT {value}"]
    if len({v for row in value for v in row}) == 1:
        return [f"CONSTANT {value[0][0]}"]
    return ["INTERNAL 1 (FREE) -1"] + [" ".join(map(str, row)) for row in value]


def growing(first, factor, least):
    """Widths that grow away from the middle one, until half of them span `least`."""
    half = [first]
    while sum(half) < least:
        half.append(half[-1] * factor)
    return [round(v, 3) for v in half[:0:-1] + half]


def middles(widths):
    return [sum(widths[:j]) + widths[j] / 2 for j in range(len(widths))]


def step_times(length, count, mult):
    first = length * (mult - 1) / (mult**count - 1)
    return [first * (mult ** (m + 1) - 1) / (mult - 1) for m in range(count)]


def first_tutorial():
    n = 10
    deck = Deck("first_tutorial", ["FloPy's first tutorial: a sheet between heads of 10 and 0 at two sides.",
                                   "Exact: the head of column j is 10 - 10 (j - 1) / 9."],
                (1, n, n), 100, 100, 0, [-50], 10, 10, [[-1] + [1] * (n - 2) + [-1]] * n, [[10] + [1] * (n - 2) + [0]] * n)
    for i in range(n):
        for j in range(n):
            deck.expect(1, 1, (1, i + 1, j + 1), 10 - Fraction(10 * j, 9))
    return deck


def strip():
    n, dx, transmissivity, rate = 41, 25, 50, Fraction(1, 1000)
    deck = Deck("strip_recharge", ["Recharge w on a strip of width L between two canals (Bear; Fetter), transmissivity T.",
                                   "Exact: h = 10 + w x (L - x) / (2 T), a parabola, which the differences hold as it is."],
                (1, 1, n), dx, dx, 10, [0], 5, 5, [[-1] + [1] * (n - 2) + [-1]], 10)
    deck.recharge(0.001)
    for j in range(n):
        deck.expect(1, 1, (1, 1, j + 1), 10 + rate / (2 * transmissivity) * (j * dx) * ((n - 1 - j) * dx))
    return deck


def leaky_strip():
    last = 12
    deck = Deck("leaky_strip", ["A strip that leaks to a river bed below it: dx dx / (T c) = 1/2, so that the discrete solution is of powers of 2.",
                                "Exact: h_i = 9 (2^(13-i) + 2^(i-12)) / (2^13 + 2^-12); the continuum's cosh differs by the grid's 9 percent."],
                (1, 1, last + 1), 10, 10, 0, [-10], 1, 1, [[-1] + [1] * last], [[9] + [0] * last])
    deck.entries("GHB", [[(1, 1, j + 1, 0, 5) for j in range(1, last + 1)]])
    power = lambda n: Fraction(2) ** n
    for i in range(last + 1):
        deck.expect(1, 1, (1, 1, i + 1), 9 * (power(last + 1 - i) + power(i - last)) / (power(last + 1) + power(-last)))
    return deck


def well_function(u):
    """Theis' W(u)."""
    if u < 1:
        total, term = -0.5772156649015329 - math.log(u), 1.0
        for k in range(1, 60):
            term *= -u / k
            total -= term / k
        return total
    fraction = 0.0
    for k in range(60, 0, -1):
        fraction = k / (1 + k / (u + fraction))
    return math.exp(-u) / (u + fraction)


def theis():
    widths = growing(2.0, 1.25, 20000)
    n, mid = len(widths), len(widths) // 2
    deck = Deck("theis", ["A well of 500 m3/d in a confined aquifer, T 200 m2/d, S 0.0001, for a day, on a grid that grows away from it.",
                          "Published (Theis 1935): 100 - Q W(u) / (4 pi T). The difference is the grid's. Conductances are large: --digits 9."],
                (1, n, n), widths, widths, 10, [0], 20, 20, 1, 100, ("1 30 1.2 TR",), ss=0.00001)
    deck.entries("WEL", [[(1, mid + 1, mid + 1, -500)]])
    x = middles(widths)
    for m, t in enumerate(step_times(1.0, 30, 1.2), 1):
        for j in range(mid + 6, mid + 22, 3) if m > 15 else ():
            u = (x[j] - x[mid]) ** 2 * 1e-4 / (4 * 200 * t)
            deck.expect(1, m, (1, mid + 1, j + 1), 100 - 500 / (4 * math.pi * 200) * well_function(u), 0.03)
    return deck


def toth():
    nlay, ncol, dz, dx, slope = 40, 100, 2.5, 10, 0.05
    height, length = nlay * dz - dz / 2, ncol * dx
    level = [[round(100 + slope * (j + 0.5) * dx, 6) for j in range(ncol)]]
    deck = Deck("toth", ["Toth's section (1962): flow in a box under a water table that slopes by 0.05, 40 layers, one row.",
                         "Published: his series of cosines. The difference is the grid's."],
                (nlay, 1, ncol), dx, 1, 100, [100 - dz * (k + 1) for k in range(nlay)], 1, 1, (-1,) + (1,) * (nlay - 1), (level,) + (100,) * (nlay - 1))
    for k in range(0, nlay, 3):
        for j in range(0, ncol, 7):
            z, head = height - k * dz, 100 + slope * length / 2
            for m in range(200):
                q = (2 * m + 1) * math.pi / length
                depth = math.exp(q * (z - height)) * (1 + math.exp(-2 * q * z)) / (1 + math.exp(-2 * q * height))
                head -= 4 * slope * length / math.pi**2 * math.cos(q * (j + 0.5) * dx) * depth / (2 * m + 1) ** 2
            deck.expect(1, 1, (k + 1, 1, j + 1), head, 0.05)
    return deck


def bessel_k0(x):
    n, h = 4000, 12.0 / 4000
    values = [math.exp(-x * math.cosh(k * h)) if x * math.cosh(k * h) < 700 else 0.0 for k in range(n + 1)]
    return h * (sum(values) - values[0] / 2 - values[-1] / 2)


def de_glee():
    widths = growing(5.0, 1.15, 8000)
    n, mid = len(widths), len(widths) // 2
    deck = Deck("de_glee", ["A well of 1000 m3/d in a leaky aquifer, T 200 m2/d, under a bed of 5 m, VKCB 0.002, with a constant head above it.",
                            "Published (de Glee 1930): 50 - Q K0(r / B) / (2 pi T), B = 707 m. The difference is the grid's."],
                (2, n, n), widths, widths, 20, [10, 5, -15], (1000, 10), (1000000, 1000000), (-1, 1), 50, beds=[0.002, None])
    deck.entries("WEL", [[(2, mid + 1, mid + 1, -1000)]])
    x = middles(widths)
    for j in range(mid + 5, n - 12, 3):
        deck.expect(1, 1, (2, mid + 1, j + 1), 50 - 1000 / (2 * math.pi * 200) * bessel_k0((x[j] - x[mid]) / math.sqrt(200 * 5 / 0.002)), 0.02)
    return deck


def ferris():
    n, dx, transmissivity, storage, day, steps, turns = 120, 10, 100, 0.001, 0.5, 24, 8
    level = [round(math.sin(2 * math.pi * k / steps), 9) for k in range(steps * turns + 1)]
    deck = Deck("ferris_tide", ["A tide of 1 m and half a day at the end of a confined strip, T 100 m2/d, S 0.001, in its eighth turn.",
                                "Published (Jacob; Ferris 1951): exp(-a x) sin(w t - a x), a = sqrt(pi S / (T t0)). The difference is the time steps'."],
                (1, 1, n), dx, dx, -5, [-15], 10, 10, 1, 0, tuple([f"{Fraction(1, 48).__float__():.12f} 1 1 TR"] * (steps * turns)), ss=0.0001)
    deck.entries("CHD", [[(1, 1, 1, level[k], level[k + 1])] for k in range(steps * turns)])
    a = math.sqrt(math.pi * storage / (day * transmissivity))
    for k in range(steps * (turns - 1), steps * turns):
        for j in (1, 5, 10, 20, 40):
            deck.expect(k + 1, 1, (1, 1, j + 1), math.exp(-a * j * dx) * math.sin(2 * math.pi * (k + 1) / steps - a * j * dx), 0.05)
    return deck


def glover():
    half = [25.0] * 40
    while sum(half) < 20000:
        half.append(half[-1] * 1.3)
    delr, delc = [round(v, 3) for v in half], [round(v, 3) for v in half[:0:-1] + half]
    nrow, ncol, well = len(delc), len(delr), 10
    mid, days, count, mult = nrow // 2, 100, 20, 1.2
    deck = Deck("glover", ["A well of 2000 m3/d, 250 m from a river that is a line of given heads; T 1000 m2/d, S 0.01, 100 days.",
                           "Published (Theis 1941; Glover and Balmer 1954): the head is Theis' with the well's image across the river; "
                           "the river loses Q erfc(sqrt(a a S / (4 T t)))."],
                (1, nrow, ncol), delr, delc, 10, [0], 100, 100, 1, 100, (f"{days} {count} {mult} TR",), ss=0.001)
    deck.entries("CHD", [[(1, i + 1, 1, 100, 100) for i in range(nrow)]])
    deck.entries("WEL", [[(1, mid + 1, well + 1, -2000)]])
    for m, t in enumerate(step_times(days, count, mult), 1):
        for j in (2, 4, 6, 14, 18, 25) if m > 10 else ():
            near, far = abs(j - well) * 25, (j + well) * 25
            drawdown = well_function(near**2 * 0.01 / (4000 * t)) - well_function(far**2 * 0.01 / (4000 * t))
            deck.expect(1, m, (1, mid + 1, j + 1), 100 - 2000 / (4 * math.pi * 1000) * drawdown, 0.02)
    return deck


def island():
    n, dx, transmissivity, rate, radius = 61, 50, 500, 0.002, 1400
    mid = n // 2
    far = lambda i, j: math.hypot(i - mid, j - mid) * dx
    is_land = [[int(far(i, j) <= radius) for j in range(n)] for i in range(n)]
    is_rim = lambda i, j: is_land[i][j] and not all(is_land[i + a][j + b] for a, b in ((0, 1), (1, 0), (0, -1), (-1, 0)))
    deck = Deck("island", ["A round island of radius 1400 m in the sea, recharge w 0.002 m/d, T 500 m2/d; "
                           "the sea is a general head of conductance 1e7 on its rim.",
                           "Published: w (R R - r r) / (4 T). The difference is the rim's steps. So large a conductance wants --digits 9."],
                (1, n, n), dx, dx, -5, [-55], 10, 10, is_land, 0)
    deck.entries("GHB", [[(1, i + 1, j + 1, 0, 10000000) for i in range(1, n - 1) for j in range(1, n - 1) if is_rim(i, j)]])
    deck.recharge(rate)
    for j in range(mid, mid + 26, 5):
        deck.expect(1, 1, (1, mid + 1, j + 1), rate / (4 * transmissivity) * (radius**2 - far(mid, j) ** 2), 0.12)
    return deck


def main():
    top = Path(sys.argv[1]) if len(sys.argv) > 1 else Path(__file__).resolve().parent
    for make in (first_tutorial, strip, leaky_strip, theis, toth, de_glee, ferris, glover, island):
        make().write(top)


if __name__ == "__main__":
    main()
