"""Parameters, multiplier arrays and zones: the deck that `plain` writes has the numbers that MODFLOW's rules make of
them, in fractions computed here from the numbers drawn."""
import os
import random
from fractions import Fraction

import pytest
import recheck

ROWS, COLS = 3, 4
CELLS = ROWS * COLS
NAMES = "LIST 2 m.list\nDIS 11 m.dis\nBAS6 13 m.bas\nLPF 15 m.lpf\n"


def word(value):
    """A decimal of a fraction that has one."""
    sign, value = "-" * (value < 0), abs(value)
    places = next(n for n in range(40) if (value * 10**n).denominator == 1)
    whole = str(int(value * 10**places)).rjust(places + 1, "0")
    return sign + (f"{whole[:-places]}.{whole[-places:]}" if places else whole)


class Drawn:
    """A random deck of parameters: files as they are written, and what has to come of them."""

    def __init__(self, seed):
        self.random = random.Random(seed)
        self.layers, self.is_transient = self.random.choice([1, 2, 3]), self.random.random() < 0.5
        self.files, self.values = {}, {}
        self.multipliers, self.zones = self.draw_multipliers(), self.draw_zones()
        self.names = 0

    def number(self, low=1, high=999, places=3):
        return Fraction(self.random.randint(low, high), 10**places)

    def draw_multipliers(self):
        out, text = {}, []
        for n in range(3):
            factor, cells = self.random.choice([Fraction(1), Fraction(2), Fraction(1, 4)]), None
            if self.random.random() < 0.4:
                cells = [self.number()] * CELLS
                text += [f"Mult{n}", f"CONSTANT {word(cells[0])}"]
            else:
                drawn = [self.number() for _ in range(CELLS)]
                rows = [" ".join(map(word, drawn[r * COLS : r * COLS + COLS])) for r in range(ROWS)]
                text += [f"Mult{n}", f"INTERNAL {word(factor)} (FREE) -1", *rows]
                cells = [factor * each for each in drawn]
            out[f"MULT{n}"] = cells
        a, b, c = (out[f"MULT{n}"] for n in range(3))
        text += ["Joined FUNCTION", "mult0 + MULT1 * Mult2 0"]  # from left to right
        out["JOINED"] = [(x + y) * z for x, y, z in zip(a, b, c)]
        self.files["m.mlt"] = "\n".join(["# multipliers", "4", *text]) + "\n"
        return out

    def draw_zones(self):
        out, text = {}, []
        for n in range(2):
            cells = [self.random.randint(1, 3) for _ in range(CELLS)]
            rows = [" ".join(map(str, cells[r * COLS : r * COLS + COLS])) for r in range(ROWS)]
            text += [f"zone{n}", "INTERNAL 1 (FREE) -1", *rows]
            out[f"ZONE{n}"] = cells
        self.files["m.zon"] = "\n".join(["2", *text]) + "\n"
        return out

    def cluster(self, zones=None):
        """The words of a cluster, and its factor at each cell."""
        multiplier = self.random.choice(["NONE", *self.multipliers])
        factors = self.multipliers.get(multiplier, [Fraction(1)] * CELLS)
        name = self.random.choice(list(self.zones))
        if zones is None:
            return f"{multiplier.lower()} ALL", factors
        inside = [zone in zones for zone in self.zones[name]]
        return f"{multiplier} {name} {' '.join(map(str, zones))}", [f * is_in for f, is_in in zip(factors, inside)]

    def parameter(self, kind, count, extra=""):
        """The first line of a parameter, and its value: that of the file PVAL, where it has one."""
        self.names += 1
        name, value = f"{kind.lower()}_{self.names}", self.number()
        own = self.number() if self.random.random() < 0.5 else value
        if own != value:
            self.values[name.upper()] = value
        return name, value, f"{name} {kind} {word(own)} {count}{extra}"

    def arrays(self, kind, layers):
        """Parameters of a type that define some layers: lines, and the array of each layer."""
        out, lines, count = {k: [Fraction(0)] * CELLS for k in layers}, [], 0
        for zones in ([1, 2], [3], None):
            if zones is None and self.random.random() < 0.5:
                continue
            made = [self.cluster(zones) for _ in layers]
            # A zone array of its own for each half would leave cells out: all clusters of zones take the first one.
            made = [(self.zoned(zones), self.zoned_factors(zones)) if zones else each for each in made]
            name, value, line = self.parameter(kind, len(layers))
            lines += [line, *(f"{k + 1} {text}" for k, (text, _) in zip(layers, made))]
            for k, (_, factors) in zip(layers, made):
                out[k] = [x + value * f for x, f in zip(out[k], factors)]
            count += 1
        return lines, count, out

    def zoned(self, zones):
        self.last = self.random.choice(["NONE", *self.multipliers])
        return f"{self.last} Zone0 {' '.join(map(str, zones))}"

    def zoned_factors(self, zones):
        factors = self.multipliers.get(self.last, [Fraction(1)] * CELLS)
        return [f if zone in zones else Fraction(0) for f, zone in zip(factors, self.zones["ZONE0"])]


def grid_files(it):
    layers = range(it.layers)
    bottoms = [f"CONSTANT {-10 * (k + 1)}" for k in layers]
    periods = ["1 1 1 SS", "5 2 1 TR" if it.is_transient else "5 2 1 SS", "5 1 1 SS"]
    it.files["m.dis"] = "\n".join(
        [f"{it.layers} {ROWS} {COLS} 3 4 2", " ".join("0" for _ in layers), "CONSTANT 100", "CONSTANT 50", "CONSTANT 0"]
        + bottoms + periods
    ) + "\n"
    it.files["m.bas"] = "FREE\n" + "CONSTANT 1\n" * it.layers + "-999.99\n" + "CONSTANT 20\n" * it.layers


def lpf_file(it):
    """LPF with parameters of some types; for each array the expected values by layer."""
    layers, expected, lines, count = list(range(it.layers)), {}, [], 0
    ratio = [it.random.randint(0, 1) for _ in layers]
    types = {"HK": layers, "HANI": layers, "SS": layers if it.is_transient else []}
    types |= {"VK": [k for k in layers if not ratio[k]], "VANI": [k for k in layers if ratio[k]]}
    has_vertical = it.random.random() < 0.7
    for kind, here in types.items():
        if here and (has_vertical if kind in ("VK", "VANI") else it.random.random() < 0.7):
            more, n, arrays = it.arrays(kind, here)
            lines, count = lines + more, count + n
            expected[kind] = arrays
    rest = []
    for k in layers:
        for kind in ["HK", "HANI", "VANI" if ratio[k] else "VK"] + ["SS"] * it.is_transient:
            is_made = kind in expected or (kind in ("VK", "VANI") and has_vertical)
            if is_made:
                rest.append("0")
            else:
                value = it.number()
                rest.append(f"CONSTANT {word(value)}")
                expected.setdefault(kind + " read", {})[k] = [value] * CELLS
    zeros = " ".join("0" for _ in layers)
    head = [f"53 -1E+30 {count}", zeros, zeros, " ".join("-1" for _ in layers), " ".join(map(str, ratio)), zeros]
    it.files["m.lpf"] = "\n".join(head + lines + rest) + "\n"
    return expected, ratio


def list_file(it, kind):
    """A list with parameters and instances: for each period the entries as cell and numbers."""
    columns = {"WEL": 1, "RIV": 3, "DRN": 2, "GHB": 2, "CHD": 2}[kind]
    scaled = {"WEL": [0], "RIV": [1], "DRN": [1], "GHB": [1], "CHD": [0, 1]}[kind]
    spots = it.random.sample(range(it.layers * CELLS), min(it.layers * CELLS, 9))

    def entry(spot):
        return spot, [it.number() for _ in range(columns)]

    def line(spot, values):
        k, at = divmod(spot, CELLS)
        return f"{k + 1} {at // COLS + 1} {at % COLS + 1} {' '.join(map(word, values))}"

    lines, known = [], []
    for n in range(2):
        instances = it.random.choice([0, 2]) if n else 0
        size = 1 if kind == "CHD" else 2
        extra = f" INSTANCES {instances}" if instances else ""
        name, value, head = it.parameter("Q" if kind == "WEL" else kind, size, extra)
        lines.append(head)
        factor = it.random.choice([None, Fraction(5, 4)])
        for instance in [f"part{i}" for i in range(instances)] or [""]:
            lines += [instance] * bool(instance) + ([f"SFAC {word(factor)}"] if factor else [])
            made = [entry(spots.pop()) for _ in range(size)]
            lines += [line(*each) for each in made]
            by = value * (factor or 1)
            known.append((f"{name.upper()} {instance}".rstrip(), [
                (spot, [x * by if c in scaled else x for c, x in enumerate(values)]) for spot, values in made
            ]))
    own, periods, before = [], [], []
    for period in range(3):
        if period == 0 or it.random.random() < 0.5:
            before = [entry(spots.pop())] if spots and it.random.random() < 0.7 else []
            count = len(before)
        else:
            count = -1
        active = [each for each in known if it.random.random() < 0.5]
        active = list({name.split(" ")[0]: (name, made) for name, made in active}.values())
        own += [f"{count} {len(active)}", *(line(*each) for each in before if count > 0), *(name for name, _ in active)]
        periods.append(before + [each for _, made in active for each in made])
    it.files[f"m.{kind.lower()}"] = "\n".join(["PARAMETER 2 20", "50 0", *lines, *own]) + "\n"
    return periods


def recharge_file(it):
    name, value, head = it.parameter("RCH", 1, " INSTANCES 2")
    wet, dry = (it.cluster([1, 2]), it.cluster())
    other, its_value, its_head = it.parameter("RCH", 2)
    parts = it.cluster([2]), it.cluster([3])
    it.files["m.rch"] = "\n".join(
        ["PARAMETER 2", "1 0", head, "wet", wet[0], "dry", dry[0], its_head, parts[0][0], parts[1][0]]
        + ["2", f"{name} WET", other, "-1", "1", f"{name} dry"]
    ) + "\n"
    first = [value * w + its_value * (a + b) for w, a, b in zip(wet[1], parts[0][1], parts[1][1])]
    return [first, first, [value * d for d in dry[1]]]


def evt_file(it):
    name, value, head = it.parameter("EVT", 1)
    cluster = it.cluster()
    it.files["m.evt"] = "\n".join(
        ["PARAMETER 1", "1 0", head, cluster[0], "0 1 0", "CONSTANT 25", name, "CONSTANT 10"]
        + ["-1 -1 -1", "-1 1 -1", name]
    ) + "\n"
    return [value * f for f in cluster[1]]


def written(it, folder, kinds):
    names = NAMES + "".join(f"{kind} {30 + n} m.{kind.lower()}\n" for n, kind in enumerate(kinds))
    names += "MULT 21 m.mlt\nZONE 22 m.zon\n"
    if it.values:
        names += "PVAL 23 m.pval\n"
        it.files["m.pval"] = "\n".join([str(len(it.values)), *(f"{n} {word(v)}" for n, v in it.values.items())]) + "\n"
    it.files["m.nam"] = names
    for name, text in it.files.items():
        (folder / name).write_text(text)
    return folder / "m.nam"


@pytest.mark.parametrize("seed", range(int(os.environ.get("PARAMETERS", 40))))
def test_the_numbers_are_those_of_the_rules(seed, tmp_path, tool, monkeypatch):
    it = Drawn(seed)
    grid_files(it)
    arrays, ratio = lpf_file(it)
    kinds = [kind for kind in ("WEL", "RIV", "DRN", "GHB", "CHD") if it.random.random() < 0.6]
    lists = {kind: list_file(it, kind) for kind in kinds}
    recharge, evt = recharge_file(it), evt_file(it)
    nam = written(it, tmp_path, [*kinds, "RCH", "EVT"])
    status, out, err = tool("plain", nam, tmp_path / "out")
    assert status in (0, 1) and "multiplied out" in out, err  # a drawn model may be refused for its values
    monkeypatch.chdir(tmp_path / "out")
    model = recheck.Model("m.nam")
    at = lambda k: slice(k * CELLS, (k + 1) * CELLS)
    expected = lambda kind, k: arrays.get(kind, {}).get(k) or arrays.get(kind + " read", {})[k]
    for k in range(it.layers):
        hk = expected("HK", k)
        assert model.hk[at(k)] == hk and model.hani[at(k)] == expected("HANI", k)
        vertical = expected("VANI" if ratio[k] else "VK", k)
        assert model.vk[at(k)] == ([a / b if b else 0 for a, b in zip(hk, vertical)] if ratio[k] else vertical)
        assert not it.is_transient or model.ss[at(k)] == expected("SS", k)
    for kind, periods in lists.items():
        if kind == "CHD":
            continue
        assert [[(c, v) for c, v in now] for now in model.stresses[kind]] == periods, kind
    if "CHD" in lists:
        for now, then in zip(model.given[1:], lists["CHD"]):
            assert all(now[cell] == tuple(values) for cell, values in then)
    assert [[v[0] for _, v in now] for now in model.stresses["RCH"]] == recharge
    assert all([v[1] for _, v in now] == evt for now in model.stresses["EVT"])
    names = (tmp_path / "out" / "m.nam").read_text()
    assert not any(kind in names for kind in ("MULT", "ZONE", "PVAL"))
