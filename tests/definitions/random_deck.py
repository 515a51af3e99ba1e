"""Random small decks with all ten packages, in several spellings: a deck is a map from names to bytes, and a function
of its seed. Two decks of one shape differ in numbers of their stresses and in STRT alone."""
from __future__ import annotations

from random import Random

Files = dict[str, bytes]
LISTS = {"WEL": 1, "RIV": 3, "DRN": 2, "GHB": 2}
ZONES = "z.txt"


def spelled(number: str, draw: Random) -> str:
    """The number, at times in another spelling."""
    if draw.random() < 0.8 or "E" in number:
        return number
    return draw.choice([number + ("0" if "." in number else ".0"), number + "E0", number + "D0", number + "d+00"])


# Words on both sides of limits, and words of no form.
LIMITS = (
    "0 -1 2 7 65 999 1000 1001 100001 65537 4000000000 4000000001 -4000000001 1E39 -1E39 1E-39 1E40 1E1000"
    " 1.00000000000000000001 123456789012345678901 x 1E 3*1 2* *1 +1 . 0.0 -0.5 1e-9 SS TR CONSTANT INTERNAL OPEN/CLOSE"
).split()


def with_limit(content: bytes, draw: Random) -> bytes:
    """The content with one word that is such a one."""
    lines = content.split(b"\n")
    at = draw.randrange(len(lines))
    words = lines[at].split(b" ")
    words[draw.randrange(len(words))] = draw.choice(LIMITS).encode()
    lines[at] = b" ".join(words)
    return b"\n".join(lines)


class Shape:
    """What two decks have in common: grid, time, IBOUND, conductivities, and the cells of their stresses."""

    def __init__(self, draw: Random):
        self.draw = draw
        self.layers, self.rows, self.columns = draw.choice([1, 1, 2, 2, 3]), draw.randint(1, 3), draw.randint(1, 4)
        self.sheet, self.cells = self.rows * self.columns, self.layers * self.rows * self.columns
        self.beds = [draw.choice([0, 0, 1]) for _ in range(self.layers - 1)] + [0]
        self.times = [self.period() for _ in range(draw.choice([1, 1, 2]))]
        self.ibound = [draw.choice([1, 1, 1, 1, 1, 1, 0, -1]) for _ in range(self.cells)]
        kinds = [kind for kind in LISTS if draw.random() < 0.5]
        if -1 not in self.ibound and not {"RIV", "GHB"} & set(kinds):
            kinds.append("GHB")
        self.lists = {kind: [self.places() for _ in self.times] for kind in kinds}
        self.given = self.constant() if draw.random() < 0.4 else []
        self.recharge = draw.choice([0, 0, 1, 2, 3])
        self.evaporation = draw.choice([0, 0, 1, 2, 3])
        self.is_idle = [draw.random() < 0.2 for _ in range(self.sheet)]
        self.layer_of = [draw.randint(1, self.layers) for _ in range(self.sheet)]
        self.depths = self.array([draw.choice(["1", "2", "0.5", "4"]) for _ in range(self.sheet)])
        self.is_kept = draw.random() < 0.5
        self.fixed = self.common()

    def period(self) -> str:
        kind = self.draw.choice(["SS", "SS", "TR", "tr"])
        steps = self.draw.randint(1, 2)
        return f"{self.draw.choice(['1', '2.5', '10'])} {steps} {self.draw.choice(['1', '1.5', '2'])} {kind}"

    def place(self) -> str:
        sizes = self.layers, self.rows, self.columns
        return " ".join(str(self.draw.randint(1, size)) for size in sizes)

    def places(self) -> list[str]:
        return [self.place() for _ in range(self.draw.randint(0, 3))]

    def constant(self) -> list[dict[str, tuple[int, int]]]:
        """The heads of CHD's cells at the start and the end of each period."""
        heads = lambda: (self.draw.randint(4, 9), self.draw.randint(4, 9))  # noqa: E731
        return [{place: heads() for place in self.places()} for _ in self.times]

    def array(self, words: list[str]) -> str:
        """An array of one layer, in one of its forms."""
        words = [spelled(word, self.draw) for word in words]
        if len(set(words)) == 1 and self.draw.random() < 0.7:
            return f"CONSTANT {words[0]}\n"
        rows = [words[at : at + self.columns] for at in range(0, len(words), self.columns)]
        lines = [f"{len(row)}*{row[0]}" if len(set(row)) == 1 else " ".join(row) for row in rows]
        head = self.draw.choice(["INTERNAL 1 (FREE) -1", "internal 1.0 (FREE)", "INTERNAL 1 (free) 3"])
        return "\n".join([head, *lines]) + "\n"

    def positive(self, words: tuple[str, ...] = ("1", "2", "0.5", "3", "1E-1")) -> str:
        is_flat = self.draw.random() < 0.5
        one = self.draw.choice(words)
        return self.array([one if is_flat else self.draw.choice(words) for _ in range(self.sheet)])

    def by_layer(self, words: list[int]) -> str:
        sheets = [words[at : at + self.sheet] for at in range(0, self.cells, self.sheet)]
        return "".join(self.array_of_whole(sheet) for sheet in sheets)

    def array_of_whole(self, sheet: list[int]) -> str:
        rows = [sheet[at : at + self.columns] for at in range(0, self.sheet, self.columns)]
        return "INTERNAL 1 (FREE) -1\n" + "".join(" ".join(map(str, row)) + "\n" for row in rows)

    def widths(self, count: int) -> str:
        words = [self.draw.choice(["1", "2", "2.5", "4"]) for _ in range(count)]
        is_flat = self.draw.random() < 0.3
        return f"CONSTANT {words[0]}" if is_flat else "INTERNAL 1 (FREE) -1\n" + " ".join(words)

    def common(self) -> dict[str, str]:
        """The files of DIS and LPF, with the lines of IBOUND and of zones."""
        widths = [self.widths(count) for count in (self.columns, self.rows)]
        level, levels = 12.0, []
        for bed in self.beds:
            for _ in range(1 + bed):
                level -= self.draw.choice([1, 2, 0.5])
                levels.append(f"CONSTANT {level:g}")
        units = f"{self.draw.choice([4, 1, 0])} {self.draw.choice([2, 1])}"
        size = f"{self.layers} {self.rows} {self.columns} {len(self.times)} {units}"
        dis = [size, " ".join(map(str, self.beds)), *widths, "CONSTANT 12", *levels, *self.times]
        is_transient = any(time.lower().endswith("tr") for time in self.times)
        zeros = " ".join("0" * self.layers)
        isotropic = [self.draw.choice([1, -1, 0.5]) for _ in range(self.layers)]
        ratio = [self.draw.choice([0, 0, 1]) for _ in range(self.layers)]
        option = self.draw.choice(["", "", " STORAGECOEFFICIENT"])
        rows = [zeros, zeros, " ".join(map(str, isotropic)), " ".join(map(str, ratio)), zeros]
        lpf = "\n".join([f"0 -1E30 0{option}", *rows]) + "\n"
        for bed, along in zip(self.beds, isotropic):
            lpf += self.positive() + (self.positive() if along <= 0 else "") + self.positive()
            lpf += self.positive(("0.1", "1E-2")) if is_transient else ""
            lpf += self.positive() if bed else ""
        zones = self.by_layer([self.draw.choice([0, 1, 1, 2, 7]) for _ in range(self.cells)])
        return {"dis": "\n".join(dis) + "\n", "lpf": lpf, "ibound": self.by_layer(self.ibound), ZONES: zones}


class Deck:
    """The files of a shape, with numbers of their own."""

    def __init__(self, shape: Shape, draw: Random):
        self.shape, self.draw = shape, draw

    def level(self) -> str:
        return spelled(f"{self.draw.choice([5, 6, 7, 6.5, 7.25, 8])}", self.draw)

    def entry(self, kind: str) -> str:
        conductance = self.draw.choice(["1", "2", "0.5", "3"])
        if kind == "WEL":
            return self.draw.choice(["-1", "0.5", "-2.5", "3", "0"])
        if kind == "RIV":
            bottom = self.draw.choice([4, 5, 6.5])
            return f"{bottom + self.draw.choice([0, 1, 2.5])} {conductance} {bottom}"
        return f"{self.level()} {conductance}"

    def listed(self, kind: str) -> str:
        lines = [f"{self.draw.randint(3, 9)} {self.draw.choice([0, 50])}"]
        for number, places in enumerate(self.shape.lists[kind]):
            if number and self.shape.is_kept:
                lines.append("-1 0")
            else:
                lines += [f"{len(places)} 0", *(f"{place} {self.entry(kind)}" for place in places)]
        return "\n".join(lines) + "\n"

    def given(self) -> str:
        """Those of two decks may cross: what one starts higher by, the other may end higher by."""
        lines, (early, late) = ["9"], self.draw.choice([(0, 0), (1, 1), (2, 0), (0, 2)])
        for heads in self.shape.given:
            lines.append(str(len(heads)))
            lines += [f"{place} {start + early} {end + late}" for place, (start, end) in heads.items()]
        return "\n".join(lines) + "\n"

    def sheet(self, words: list[str], is_idle: bool = False) -> str:
        idle = self.shape.is_idle if is_idle else [False] * self.shape.sheet
        return self.shape.array(["0" if none else self.draw.choice(words) for none in idle])

    def areal(self, choice: int, first: list[str], more: str = "", flags: int = 1) -> str:
        """RCH or EVT: arrays of the first period, which others keep or read anew."""
        lines = f"{choice} 0\n"
        for number in range(len(self.shape.times)):
            is_read = not number or not self.shape.is_kept
            lines += " ".join(["1" if is_read else "-1"] * (flags + (choice == 2))) + "\n"
            if is_read:
                lines += "".join(first) + more
                lines += self.shape.array_of_whole(self.shape.layer_of) if choice == 2 else ""
        return lines

    def files(self, letter: str) -> Files:
        shape = self.shape
        heads = "".join(self.sheet(["5", "6", "7.5"]) for _ in range(shape.layers))
        basic = f"FREE\n{shape.fixed['ibound']}-999\n{heads}"
        parts = {"DIS": shape.fixed["dis"], "BAS6": basic, "LPF": shape.fixed["lpf"]}
        parts |= {kind: self.listed(kind) for kind in shape.lists}
        if shape.given:
            parts["CHD"] = self.given()
        if shape.recharge:
            parts["RCH"] = self.areal(shape.recharge, [self.sheet(["0.01", "1E-3", "0"])])
        if shape.evaporation:
            arrays = [self.sheet(["8", "7", "9.5"]), self.sheet(["0.01", "2E-3"], is_idle=True), shape.depths]
            parts["EVT"] = self.areal(shape.evaporation, arrays, flags=3)
        lines = [f"{kind} {unit} {letter}.{kind.lower()}\n" for unit, kind in enumerate(parts, 11)]
        texts = {f"{letter}.nam": "".join(lines)} | {f"{letter}.{kind.lower()}": part for kind, part in parts.items()}
        return {name: part.encode() for name, part in texts.items()}


def pair_of(seed: int) -> tuple[Files, Files, bytes]:
    """Two decks of one shape, a.nam and b.nam, and a zone file for both."""
    draw = Random(f"definitions {seed}")
    shape = Shape(draw)
    return Deck(shape, draw).files("a"), Deck(shape, draw).files("b"), shape.fixed[ZONES].encode()
