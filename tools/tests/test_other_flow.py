"""BCF6, UPW, THICKSTRT and HK 0: `plain` writes a deck with the same equations, or says why it can't."""
import os
import random
from fractions import Fraction

import pytest
import recheck
from spelled import PLAIN
from test_parameters import word

ROWS, COLS = 3, 4
CELLS = ROWS * COLS
NAMES = "LIST 2 m.list\nDIS 11 m.dis\nBAS6 13 m.bas\n{flow}\nWEL 20 m.wel\nGHB 21 m.ghb\n"


def rows_of(values):
    lines = [" ".join(map(word, values[r * COLS : r * COLS + COLS])) for r in range(ROWS)]
    return ["INTERNAL 1 (FREE) -1", *lines]


class Grid:
    """A random grid of one or two layers, with arrays that the test draws."""

    def __init__(self, seed, layers=None, bottoms=(10, 20, 40, 7)):
        self.random = random.Random(seed)
        self.layers, self.is_transient = layers or self.random.choice([1, 2]), self.random.random() < 0.5
        self.delr = [self.number(1, 200, 0) for _ in range(COLS)]
        self.delc = [self.number(1, 200, 0) for _ in range(ROWS)]
        self.thick = [[self.pick(bottoms) for _ in range(CELLS)] for _ in range(self.layers)]
        self.ibound = [[int(self.random.random() < 0.85) for _ in range(CELLS)] for _ in range(self.layers)]
        self.ibound[0][0] = 1
        self.top = [Fraction(100)] * CELLS
        self.files = {"m.wel": "1 0\n1 0\n1 1 1 -1\n-1 0\n", "m.ghb": "1 0\n1 0\n1 1 1 20 5\n-1 0\n"}

    def number(self, low=1, high=999, places=2):
        return Fraction(self.random.randint(low, high), 10**places)

    def pick(self, values):
        return Fraction(self.random.choice(values))

    def drawn(self, **how):
        return [[self.number(**how) for _ in range(CELLS)] for _ in range(self.layers)]

    def write(self, folder, flow, lines, strt=None):
        bottoms, above = [], self.top
        for thick in self.thick:
            above = [a - b for a, b in zip(above, thick)]
            bottoms += rows_of(above)
        widths = lambda values: ["INTERNAL 1 (FREE) -1", " ".join(map(word, values))]
        kind = "TR" if self.is_transient else "SS"
        dis = [f"{self.layers} {ROWS} {COLS} 2 4 2", "0 " * self.layers, *widths(self.delr), *widths(self.delc)]
        self.files["m.dis"] = "\n".join([*dis, *rows_of(self.top), *bottoms, "1 1 1 SS", f"9 3 1 {kind}"]) + "\n"
        ibound = [line for layer in self.ibound for line in rows_of(list(map(Fraction, layer)))]
        heads = [line for layer in strt or [[Fraction(20)] * CELLS] * self.layers for line in rows_of(layer)]
        self.files["m.bas"] = "\n".join(["FREE", *ibound, "-999.99", *heads]) + "\n"
        self.files["m.flow"] = "\n".join(lines) + "\n"
        self.files["m.nam"] = NAMES.format(flow=f"{flow} 15 m.flow")
        for name, text in self.files.items():
            (folder / name).write_text(text)
        return folder / "m.nam"

    def branches(self, transmissivity, ratio, vertical):
        """The conductance between each two cells with flow; `vertical`: that of a cell and the one below, by area."""
        out = {}
        flat = [kind for layer in self.ibound for kind in layer]
        for k in range(self.layers):
            for at in range(CELLS):
                a, (i, j) = k * CELLS + at, divmod(at, COLS)
                t = lambda n: transmissivity[n // CELLS][n % CELLS]
                for b, is_next, one, two, wide, by in (
                    (a + 1, j + 1 < COLS, self.delr[j], self.delr[min(j + 1, COLS - 1)], self.delc[i], 1),
                    (a + COLS, i + 1 < ROWS, self.delc[i], self.delc[min(i + 1, ROWS - 1)], self.delr[j], ratio[k]),
                ):
                    if is_next and flat[a] and flat[b]:
                        ta, tb = by * t(a), by * t(b)
                        out[a, b] = 2 * ta * tb * wide / (ta * two + tb * one)
                if k + 1 < self.layers and flat[a] and flat[a + CELLS]:
                    out[a, a + CELLS] = vertical(at) * self.delr[j] * self.delc[i]
        return out


def model_of(folder, monkeypatch):
    monkeypatch.chdir(folder)
    return recheck.Model("m.nam")


@pytest.mark.parametrize("seed", range(int(os.environ.get("FLOWS", 40))))
def test_bcf6_has_the_same_conductances_as_lpf(seed, tmp_path, tool, monkeypatch):
    """Transmissivities with and without a decimal quotient by the thickness, one layer and two."""
    it = Grid(seed, bottoms=(10, 20, 40, 7) if seed % 2 else (10, 20, 40))
    tran, storage = it.drawn(), it.drawn(places=4)
    leakance, ratio = [it.number(places=3) for _ in range(CELLS)], [it.number() for _ in range(it.layers)]
    lines = ["50 -1E+30 0 1 1 0", "0 " * it.layers, "INTERNAL 1 (FREE) -1", " ".join(map(word, ratio))]
    for k in range(it.layers):
        lines += (rows_of(storage[k]) if it.is_transient else []) + rows_of(tran[k])
        lines += rows_of(leakance) if k + 1 < it.layers else []
    status, out, err = tool("plain", it.write(tmp_path, "BCF6", lines), tmp_path / "out")
    assert status in (0, 1) and "BCF6 written as LPF" in out, err
    model = model_of(tmp_path / "out", monkeypatch)
    assert {(a, b): c for a, b, c in model.faces} == it.branches(tran, ratio, lambda at: leakance[at])
    if it.is_transient:
        assert [s * b if not model.is_coefficient else s for s, b in zip(model.ss, model.thick)] == sum(storage, [])


@pytest.mark.parametrize("seed", range(20))
def test_starting_heads_are_the_top_of_layer_1(seed, tmp_path, tool, monkeypatch):
    """LAYTYP below 0 with THICKSTRT: conductances have the thickness STRT less the bottom."""
    it = Grid(seed)
    it.is_transient = False
    hk, vka, strt = it.drawn(), it.drawn(), [[Fraction(100) + it.number() for _ in range(CELLS)]]
    strt += [[Fraction(20)] * CELLS] * (it.layers - 1)
    zeros = "0 " * it.layers
    lines = ["50 -1E+30 0 THICKSTRT", "-1 " + "0 " * (it.layers - 1), zeros, "1 " * it.layers, zeros, zeros]
    lines += [line for k in range(it.layers) for line in (*rows_of(hk[k]), *rows_of(vka[k]))]
    status, out, err = tool("plain", it.write(tmp_path, "LPF", lines, strt), tmp_path / "out")
    assert status in (0, 1) and "STRT written as the top of layer 1" in out, err
    model = model_of(tmp_path / "out", monkeypatch)
    thick = [[b + s - t for b, s, t in zip(it.thick[0], strt[0], it.top)], *it.thick[1:]]
    flows = [[k * b for k, b in zip(*pair)] for pair in zip(hk, thick)]
    half = lambda k, at: thick[k][at] / 2 / vka[k][at]
    expected = it.branches(flows, [1] * it.layers, lambda at: 1 / (half(0, at) + half(1, at)))
    assert {(a, b): c for a, b, c in model.faces} == expected


def deck(folder, **changes):
    folder.mkdir(exist_ok=True)
    for name, text in PLAIN.items():
        for old, new in changes.get(name[2:], []):
            assert old in text, old
            text = text.replace(old, new)
        (folder / name).write_text(text)
    return folder / "m.nam"


LPF_AS_UPW = [("53 -1E+30 0\n", "53 -1E+30 0 0\n")]
STEADY = [("10 3 1.5 TR", "10 3 1 SS")]
NO_STORAGE = [("CONSTANT 0.00001\n", ""), ("CONSTANT 0.00002\n", "")]
REFUSED = {
    "upw of uneven thickness": (
        dict(nam=[("LPF 15", "UPW 15")], lpf=LPF_AS_UPW, dis=[("CONSTANT 15\n", UNEVEN)]),
        "the neighbours 1 2 2 and 1 3 2 (layer row column) aren't equally thick",
    ) if (UNEVEN := "INTERNAL 1 (FREE) -1\n15 15 15 15 15\n15 15 15 15 15\n15 14 15 15 15\n15 15 15 15 15\n") else None,
    "thick as the start, with storage": (
        dict(lpf=[("53 -1E+30 0\n0 0\n", "53 -1E+30 0 THICKSTRT\n-1 0\n")]),
        "THICKSTRT with SS",
    ),
    "thick as the start, below": (
        dict(lpf=[("53 -1E+30 0\n0 0\n", "53 -1E+30 0 THICKSTRT\n0 -1\n")]),
        "Only layer 1 can be written so",
    ),
    "hk 0 with water through it": (dict(lpf=[("1 2 3 4 5\n6 7", "1 2 3 4 5\n0 7")]), "HK isn't above 0"),
    "sfac of too many digits": (
        dict(wel=[("1 0\n2 2 3 -50", "1 0\nSFAC 1.234567891234\n2 2 3 -1.23456789")]),
        "which has more than 18 digits: no deck says it exactly",
    ),
    "a parameter of no name": (
        dict(wel=[("1 53\n1 0\n2 2 3 -50\n", "1 53\n0 1\nmine\n")]),
        "there is no parameter mine",
    ),
    "a multiplier of no name": (
        dict(lpf=[("53 -1E+30 0\n", "53 -1E+30 1\n"), ("1 1\n0 0\n0 0\n", "1 1\n0 0\n0 0\nk HK 1 1\n1 m ALL\n0\n")]),
        "the name file has no file MULT",
    ),
}


@pytest.mark.parametrize("name", REFUSED)
def test_what_no_deck_says_exactly_is_refused(name, tmp_path, tool):
    changes, said = REFUSED[name]
    status, out, err = tool("plain", deck(tmp_path / "deck", **changes), tmp_path / "out")
    assert status == 2 and said in err, err
    assert not (tmp_path / "out").exists()
    status, out, _ = tool("inside", tmp_path / "deck" / "m.nam")
    assert status == 1 and said in out


def test_upw_of_even_thickness_has_lpfs_equations(tmp_path, tool):
    nam = deck(tmp_path / "deck", nam=[("LPF 15", "UPW 15")], lpf=LPF_AS_UPW)
    status, out, err = tool("plain", nam, tmp_path / "out")
    assert status == 0 and "cells side by side are equally thick" in out, out + err


def test_a_cell_of_hk_0_in_one_layer_gets_ibound_0(tmp_path, tool, monkeypatch):
    it = Grid(7, layers=1)
    it.ibound = [[1] * CELLS]
    hk = it.drawn()
    hk[0][5] = Fraction(0)
    lines = ["50 -1E+30 0", "0", "0", "1", "0", "0", *rows_of(hk[0]), "CONSTANT 1"] + ["CONSTANT 1"] * it.is_transient
    status, out, err = tool("plain", it.write(tmp_path, "LPF", lines), tmp_path / "out")
    assert status in (0, 1) and "HK is 0 in the cell 1 2 2 (layer row column): IBOUND 0 there" in out, err
    model = model_of(tmp_path / "out", monkeypatch)
    assert model.ibound == [int(at != 5) for at in range(CELLS)]
    assert not any(5 in (a, b) for a, b, _ in model.faces)


def test_bcf6_that_isnt_confined_or_has_three_layers_is_refused(tmp_path, tool):
    wrong = [(1, "1", "LAYCON of layer 1 is 1"), (1, "10", "LAYAVG of layer 1 is 1"), (3, "0 0 0", "BCF6 of 3")]
    for layers, types, said in wrong:
        folder = tmp_path / types.replace(" ", "_")
        folder.mkdir()
        it = Grid(3, layers=layers)
        status, _, err = tool("plain", it.write(folder, "BCF6", ["50 0 0 1 1 0", types]), folder / "out")
        assert status == 2 and said in err, err
