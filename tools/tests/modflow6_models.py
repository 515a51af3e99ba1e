"""Random confined models, written as MODFLOW 6 input in its spellings."""
import random
from dataclasses import dataclass, field
from fractions import Fraction
from pathlib import Path

KINDS = ("DIS", "IC", "NPF", "STO", "CHD", "WEL", "RIV", "DRN", "GHB", "RCH", "EVT")
MULTIPLIED = {"wel": 0, "rch": 0, "chd": 0}


@dataclass
class Drawn:
    """The numbers of a model, by cell; lists have the entries (cell, numbers) of each period."""

    layers: int
    rows: int
    cols: int
    values: dict = field(default_factory=dict)
    lists: dict = field(default_factory=dict)
    steady: list = field(default_factory=list)
    periods: list = field(default_factory=list)
    is_coefficient: bool = False

    @property
    def layer(self):
        return self.rows * self.cols

    @property
    def cells(self):
        return self.layers * self.layer


class Draw:
    """The drawing of one model into a folder. `is_line`: of one row or one column, with a K22 of its own."""

    def __init__(self, seed, folder: Path, is_line=False):
        self.random, self.folder, self.is_line = random.Random(seed), folder, is_line
        self.model = Drawn(self.random.randint(1, 2), self.random.randint(1, 3), self.random.randint(2, 4))
        if is_line:
            self.model.rows, self.model.cols = self.random.choice([(1, 4), (4, 1)])

    def put(self, name, *lines):
        (self.folder / name).write_text("\n".join(lines) + "\n")

    def number(self, low, high, places):
        """A number and one of its spellings."""
        unit = 10**places
        value = Fraction(self.random.randint(int(low * unit), int(high * unit)), unit)
        if self.random.random() < 0.5:
            return value, str(float(value))
        return value, f"{int(value * unit)}{self.random.choice('eEdD')}-{places:02d}"

    def rows_of(self, texts, cols):
        return ["      " + " ".join(texts[at : at + cols]) for at in range(0, len(texts), cols)]

    def array(self, name, shape, low, high, places):
        """The values of an array and its lines. shape: layers (0: none), rows, columns."""
        layers, rows, cols = shape
        form = self.random.choice(("plain", "layered", "open", "factor"))
        if form == "layered" and layers:
            return self.layered(name, shape, low, high, places)
        count = rows * cols * max(layers, 1)
        drawn = [self.number(low, high, places) for _ in range(count)]
        values, texts = [x for x, _ in drawn], [t for _, t in drawn]
        if form == "open":
            self.put(f"{name.lower()}.txt", *self.rows_of(texts, cols))
            return [2 * x for x in values], [f"  {name}", f"    OPEN/CLOSE '{name.lower()}.txt' FACTOR 2. IPRN -1"]
        if form == "factor":
            return [x / 2 for x in values], [f"  {name}", "    internal factor 0.5", *self.rows_of(texts, cols)]
        return values, ["# a comment", f"  {name.lower()}", "    INTERNAL", *self.rows_of(texts, cols)]

    def layered(self, name, shape, low, high, places):
        layers, rows, cols = shape
        values, lines = [], [f"  {name} LAYERED"]
        for _ in range(layers):
            if self.random.random() < 0.4:
                value, text = self.number(low, high, places)
                values += [value] * (rows * cols)
                lines.append(f"    CONSTANT {text}")
            else:
                drawn = [self.number(low, high, places) for _ in range(rows * cols)]
                values += [x for x, _ in drawn]
                lines += ["    INTERNAL FACTOR 1.0 IPRN 0", *self.rows_of([t for _, t in drawn], cols)]
        return values, lines

    def draw(self):
        self.draw_grid()
        self.draw_flow()
        self.draw_time()
        self.draw_stresses()
        packages = [f" {kind}6 m.{kind.lower()} {kind.lower()}-1" for kind in KINDS]
        self.put("m.nam", "BEGIN OPTIONS", " NEWTON", "END OPTIONS", "BEGIN PACKAGES", *packages, "END PACKAGES")
        self.put(
            "mfsim.nam",
            *("! drawn", "BEGIN TIMING", " TDIS6 \\", "  m.tdis", "END TIMING", "BEGIN MODELS", " GWF6 m.nam gwf"),
            *("END MODELS", "BEGIN EXCHANGES", "END EXCHANGES", "BEGIN SOLUTIONGROUP 1", " IMS6 m.ims gwf"),
            "END SOLUTIONGROUP",
        )
        return self.model

    def draw_grid(self):
        m, values = self.model, self.model.values
        values["delr"], delr = self.array("DELR", (0, 1, m.cols), 50, 200, 1)
        values["delc"], delc = self.array("DELC", (0, 1, m.rows), 50, 200, 1)
        values["top"], top = self.array("TOP", (0, m.rows, m.cols), 100, 120, 2)
        values["thick"] = [Fraction(self.random.randint(500, 2000), 100) for _ in range(m.cells)]
        levels = list(values["top"])
        for thick in values["thick"]:
            levels.append(levels[-m.layer] - thick)
        bottoms = [str(float(x)) for x in levels[m.layer :]]
        values["active"] = [int(self.random.random() < 0.9) for _ in range(m.cells)]
        values["active"][0] = 1
        sizes = [f" NLAY {m.layers}", f" NROW {m.rows}", f" NCOL {m.cols}"]
        domain = ["  IDOMAIN", " INTERNAL", " " + " ".join(map(str, values["active"]))]
        self.put(
            "m.dis",
            *("BEGIN OPTIONS", "  LENGTH_UNITS METERS", "END OPTIONS", "BEGIN DIMENSIONS", *sizes, "END DIMENSIONS"),
            *("BEGIN GRIDDATA", *delr, *delc, *top, "  BOTM", " INTERNAL", " " + " ".join(bottoms), *domain),
            "END GRIDDATA",
        )

    def draw_flow(self):
        m, values, shape = self.model, self.model.values, (self.model.layers, self.model.rows, self.model.cols)
        values["start"], start = self.array("STRT", shape, 80, 130, 2)
        self.put("m.ic", "BEGIN GRIDDATA", *start, "END GRIDDATA")
        values["k"], k = self.array("K", shape, 1, 50, 2)
        k22, k22_lines = self.array("K22", shape, 0.1, 3, 2)
        k33, k33_lines = self.array("K33", shape, 0.01, 1, 3)
        has22, has33, over22, over33 = (self.random.random() < x for x in (0.6, 0.7, 0.5, 0.5))
        has22, over22 = has22 or self.is_line, over22 and not self.is_line
        values["k22"] = [a * b for a, b in zip(values["k"], k22)] if has22 else values["k"]
        values["k33"] = ([a * b for a, b in zip(values["k"], k33)] if over33 else k33) if has33 else values["k"]
        if self.is_line:
            values["k22"] = k22
        elif not over22:
            texts = [f"{int(x * 10**6)}e-6" for x in values["k22"]]
            k22_lines = [" K22", " INTERNAL", *self.rows_of(texts, m.cols)]
        options = [" SAVE_FLOWS", *[" K22OVERK"] * (over22 and has22), *[" K33OVERK"] * (over33 and has33)]
        arrays = [" ICELLTYPE", " CONSTANT 0", *k, *k22_lines * has22, *k33_lines * has33]
        self.put("m.npf", "BEGIN OPTIONS", *options, "END OPTIONS", "BEGIN GRIDDATA", *arrays, "END GRIDDATA")
        values["ss"], ss = self.array("SS", shape, 0.00001, 0.001, 6)
        m.is_coefficient = self.random.random() < 0.5
        m.steady = [self.random.random() < 0.4 for _ in range(self.random.randint(1, 3))]
        words = {True: " STEADY-STATE", False: " TRANSIENT"}
        states = [
            line for p, x in enumerate(m.steady) for line in (f"BEGIN PERIOD {p + 1}", words[x], "END PERIOD")
        ]
        self.put(
            "m.sto",
            *("BEGIN OPTIONS", *[" STORAGECOEFFICIENT"] * m.is_coefficient, "END OPTIONS", "BEGIN GRIDDATA"),
            *(" ICONVERT", " CONSTANT 0", *ss, " SY", " CONSTANT 0.1", "END GRIDDATA", *states),
        )

    def draw_time(self):
        m, growths = self.model, (Fraction(1), Fraction(3, 2), Fraction(12, 10))
        for _ in m.steady:
            length = Fraction(self.random.randint(1, 30))
            m.periods.append((length, self.random.randint(1, 3), self.random.choice(growths)))
        lines = [f" {a} {b} {float(c)}" for a, b, c in m.periods]
        self.put(
            "m.tdis",
            *("BEGIN DIMENSIONS", f" NPER {len(m.periods)}", "END DIMENSIONS", "BEGIN PERIODDATA", *lines),
            "END PERIODDATA",
        )

    def draw_stresses(self):
        m, chance = self.model, lambda x: self.random.random() < x
        active = [c for c in range(m.cells) if m.values["active"][c]]
        some = lambda count: self.random.sample(active, min(count, len(active)))
        self.package("chd", [(90, 110, 2)], some(1), is_all=True)
        self.package("wel", [(-50, 20, 1)], some(2), chance(0.5))
        self.package("riv", [(95, 105, 1), (1, 50, 1), (90, 95, 1)], some(2), chance(0.5))
        self.package("drn", [(90, 105, 1), (1, 50, 1)], some(2))
        self.package("ghb", [(90, 105, 1), (1, 50, 1)], some(2), chance(0.5))
        first = {}
        for c in active:
            first.setdefault(c % m.layer, c)
        tops = sorted(first.values())
        half = lambda: self.random.sample(tops, max(1, len(tops) // 2))
        self.package("rch", [(0, 0.01, 5)], half(), chance(0.3))
        self.package("evt", [(95, 110, 1), (0, 0.005, 5), (1, 10, 1)], half())

    def package(self, kind, ranges, cells, has_factor=False, is_all=False):
        """A list package: new entries in some periods, those of the last one in the others."""
        m = self.model
        auxiliary = [" AUXILIARY other mult", " AUXMULTNAME mult"] * has_factor
        lines = ["BEGIN OPTIONS", " BOUNDNAMES", *auxiliary, "END OPTIONS", "BEGIN DIMENSIONS", " MAXBOUND 99"]
        lines += ["END DIMENSIONS"]
        now, out = [], []
        for p in range(len(m.periods)):
            if p == 0 or self.random.random() < 0.5:
                taken = [c for c in cells if is_all or self.random.random() < 0.8]
                entries = [self.entry(kind, c, ranges, has_factor) for c in taken]
                now = [(c, values) for c, values, _ in entries]
                lines += [f"BEGIN PERIOD {p + 1}", *(text for _, _, text in entries), "END PERIOD"]
            out.append(now)
        self.put(f"m.{kind}", *lines)
        m.lists[kind] = out

    def entry(self, kind, c, ranges, has_factor):
        m, drawn = self.model, [self.number(*each) for each in ranges]
        values, extra = [x for x, _ in drawn], ""
        if has_factor:
            factor, text = self.number(0.5, 2, 1)
            values[MULTIPLIED.get(kind, 1)] *= factor
            extra = f" 7. {text}"
        place = f"{c // m.layer + 1} {c % m.layer // m.cols + 1} {c % m.cols + 1}"
        return c, values, f" {place} {' '.join(t for _, t in drawn)}{extra} name_{c}"
