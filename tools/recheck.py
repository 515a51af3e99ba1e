#!/usr/bin/env python3
"""A third party's check of a listing of `heads`, in exact fractions.

    python3 recheck.py NAME LISTING [ZONES] [--wide] [--to NAME2]      (in the deck's folder)

Status 0: HOLDS. 1: a place can't be confirmed. 2: a deck or the listing can't be read. 3: the words aren't these.
It reads the deck by itself and makes the manual's equations without rounding. HOLDS says: each history of heads that
solves them lies between the listed heads, and its flows in their pairs, step by step. With a second deck: each history
whose every step solves those of some deck between, with numbers of stresses and STRT between theirs.

What is tested of a step. l and u are its listed heads; a history's old heads lie between those of the step before.
  (1) The head of each constant cell lies in its pair.
  (2) Each variable cell's balance (what flows in, less what flows out) at the heads l, with the lower old heads, is 0
      or more, or l is at most its floor; at u, with the upper old heads, it is 0 or less, or u is at least its ceiling.
  (3) Each group of linked variable cells has a known head (of a constant cell, a general head, storage), or its deep
      flows sum to more than 0: wells, recharge, rivers at their bottoms, less all evapotranspiration.
  (4) Each term's pair holds what its flows come to where each cell's head goes from u to l, and each pair of zones
      the sum of C (x - y) over the faces between them, where x and y go from l to u.

Floor. Let B be the least known head, river bottom and drain elevation, and q the sum of what cells lack by their deep
flows. Take a solution x and all cells below a level t <= B. Their balances sum to 0; the links among them cancel; what
comes in over the other links and from known heads isn't negative, and what else flows is at least their deep flows. So
each of those inflows is at most q, and a link or a known head of conductance C drops by at most q / C into a cell below
B. Hence a cell lies at or above B less q / C summed over a path to a known head: its floor. In a group without one
whose deep flows sum to more than 0 not all cells lie below B, since their balances sum to 0: there the path is one to
the farthest cell. Ceiling: likewise from above; rivers and drains hold too, B is the greatest known head, stage and
drain elevation, and q the sum of what cells get from wells and recharge. With --wide, one past 4 10^9 passes no cell.

Why that is enough. Take a solution x, and let l - x be greatest, e > 0, at some cells. There l > x >= floor, so the
balance at l is 0 or more. It is at most that at x, which is 0: each neighbour's l - x is at most e, the lower old head
at most the old one, and each other flow falls as the cell's own head rises. So it is 0, all neighbours have e too, and
so has the group; and no flow changes from x to x + e. A known head's flow would. Else rivers and drains lie above
x + e, evapotranspiration stands at nothing or at its all, and the flows of the group, which sum to 0, are its deep
flows at least, which sum to more than 0. So l <= x everywhere, and x <= u likewise. (4) and the next step follow.

Two decks. A flow has at each head a least and a greatest value of all decks between. (2) takes the least at l and the
greatest at u; (3), deep flows and the floor are of the least, the ceiling of the greatest, with the least conductances;
(4) takes both. A conductance from c to d is c and, besides, d - c where the flow is out (at l) or in (at u). A deck's
own flow at x lies between the two, so all of the above holds. Where the greatest flow of a branch is the same at x - e
and x, and the deck's own at x, that is the deck's deep flow, or 0 from a conductance of 0: not below the least one.
"""
import heapq
import re
import sys
from fractions import Fraction
from itertools import accumulate
from typing import Iterator, NamedTuple, Optional

HOLDS, NOT_CONFIRMED, NOT_READ, USAGE = 0, 1, 2, 3
TERMS = ["STORAGE", "CONSTANT HEAD", "WELLS", "DRAINS", "RIVER LEAKAGE", "HEAD DEP BOUNDS", "RECHARGE", "ET"]
GIVING = ("RIVER LEAKAGE", "HEAD DEP BOUNDS")
NUMBERS = {"WEL": 1, "RIV": 3, "DRN": 2, "GHB": 2, "CHD": 2, "RCH": 1, "EVT": 3}
WORD = re.compile(r"[^ \t,\r]+")
ZERO, ONE = Fraction(0), Fraction(1)
Values = list[Fraction]
Pair = tuple[Fraction, Fraction]
Face = tuple[int, int, Fraction]  # two cells, and the conductance between them
Faces = dict[tuple[int, int], list[Face]]
Entries = list[tuple[int, Values]]
Text = Iterator[list[str]]
# A step: its period and its number there, from 0; its length, none of a steady one; the part of PERLEN at its end.
Time = NamedTuple("Time", [("period", int), ("step", int), ("length", Optional[Fraction]), ("part", Fraction)])


class Fault(Exception):
    """A place that can't be confirmed."""


class Branch(NamedTuple):
    """The flow conductance x (level - head) into a cell. No level: it is the cell's old head. A head below `low` counts
    as `low`, one above `high` as `high`: of a river the bottom, of a drain its elevation, of evapotranspiration the
    extinction elevation and the surface. A rate Q, of a well or recharge, is 1 x (Q - 0): both bounds are 0."""
    term: str
    conductance: Fraction
    level: Optional[Fraction]
    low: Optional[Fraction] = None
    high: Optional[Fraction] = None
    deep: Fraction = ZERO  # the deep flow

    def flow(self, head: Fraction, old: Fraction) -> Fraction:
        if self.low is not None:
            head = max(head, self.low)
        if self.high is not None:
            head = min(head, self.high)
        return self.conductance * ((old if self.level is None else self.level) - head)


def number(word: str) -> Fraction:
    return Fraction(re.sub("[dD]", "E", word))


def lines_of(name: str) -> list[str]:
    with open(name.replace("\\", "/"), encoding="latin-1", newline="") as file:
        return file.read().split("\n")


def text_of(name: str, has_comments: bool = True) -> Text:
    """The words of the lines of a file that have some, from the first line that is no comment."""
    lines = lines_of(name)
    while lines and (not WORD.search(lines[0]) or (has_comments and lines[0].startswith("#"))):
        lines.pop(0)
    return iter([found for found in map(WORD.findall, lines) if found])


def read_values(text: Text, count: int) -> Values:
    """Numbers in free form, over as many lines as they need; N*X is N times X. The rest of a line is not read."""
    out = Values()
    while len(out) < count:
        for word in next(text):
            if len(out) < count:
                times, star, value = word.rpartition("*")
                out += [number(value)] * (int(times) if star else 1)
    return out[:count]


def read_array(text: Text, rows: int, cols: int) -> Values:
    """An array: CONSTANT value; INTERNAL factor format, and the rows; OPEN/CLOSE file factor format."""
    control = next(text)
    kind = control[0].upper()
    if kind == "CONSTANT":
        return [number(control[1])] * (rows * cols)
    if kind not in ("INTERNAL", "OPEN/CLOSE"):
        raise ValueError(f"an array begins with {control[0]}")
    source = text if kind == "INTERNAL" else text_of(control[1], has_comments=False)
    factor = number(control[1 if kind == "INTERNAL" else 2]) or ONE
    return [value * factor for _ in range(rows) for value in read_values(source, cols)]


class Model:
    """A deck. Cells are numbered from 0 along rows, then by row, then by layer. No floor below `least` passes one."""
    def __init__(self, name: str, least: float = float("-inf")):
        self.least, lines = least, [WORD.findall(line) for line in lines_of(name) if not line.startswith("#")]
        files = {line[0].upper(): line[2] for line in lines if len(line) > 2}
        self.read_grid(text_of(files["DIS"]))
        basic = text_of(files["BAS6"])
        next(basic)  # the options
        self.ibound = [int(value) for value in self.maps(basic, self.nlay)]
        next(basic)  # HNOFLO
        self.strt = self.maps(basic, self.nlay)
        self.read_layers(text_of(files["LPF"]))
        self.stresses: dict[str, list[Entries]] = {}
        for package in [package for package in NUMBERS if package in files]:
            read = self.read_areal if package in ("RCH", "EVT") else self.read_list
            self.stresses[package] = read(text_of(files[package]), NUMBERS[package])
        # The heads of CHD's cells at the start and the end of each period. One that it doesn't name keeps its last.
        self.given: list[dict[int, Pair]] = [{}]
        for entries in self.stresses.pop("CHD", [[] for _ in range(self.nper)]):
            kept = {cell: (end, end) for cell, (_, end) in self.given[-1].items()}
            self.given.append(kept | {cell: (start, end) for cell, (start, end) in entries})
        self.faces = [face for cell, kind in enumerate(self.ibound) if kind != 0 for face in self.faces_of(cell)]

    def maps(self, text: Text, count: int = 1) -> Values:
        return [value for _ in range(count) for value in read_array(text, self.nrow, self.ncol)]

    def read_grid(self, text: Text) -> None:
        """DIS. A transient period's steps are TSMULT times as long as the one before, a steady one's are alike."""
        self.nlay, self.nrow, self.ncol, self.nper, _, self.unit = (int(word) for word in next(text)[:6])
        self.sheet = self.nrow * self.ncol
        layers, rows, cols = range(1, self.nlay + 1), range(1, self.nrow + 1), range(1, self.ncol + 1)
        self.place = [f"{layer} {row} {col}" for layer in layers for row in rows for col in cols]
        self.has_bed = [value != 0 for value in read_values(text, self.nlay)]
        self.delr, self.delc = read_array(text, 1, self.ncol), read_array(text, 1, self.nrow)
        self.area = [across * down for down in self.delc for across in self.delr] * self.nlay
        self.thick, self.bed = Values(), Values()
        above = self.surface = self.maps(text)
        for layer in range(self.nlay):
            bottom = self.maps(text)
            bed_bottom = self.maps(text) if self.has_bed[layer] else bottom
            self.thick += [a - b for a, b in zip(above, bottom)]
            self.bed += [a - b for a, b in zip(bottom, bed_bottom)]
            above = bed_bottom
        self.times: list[Time] = []
        for period in range(self.nper):
            perlen, nstp, tsmult, kind = next(text)[:4]
            ratio = ONE if kind.upper() == "SS" else number(tsmult)
            ends = list(accumulate(ratio**step for step in range(int(nstp))))
            for step, end in enumerate(ends):
                length = None if kind.upper() == "SS" else number(perlen) * ratio**step / ends[-1]
                self.times.append(Time(period, step, length, end / ends[-1] if number(perlen) > 0 else ONE))

    def read_layers(self, text: Text) -> None:
        """LPF: per layer HK, HANI, VKA, SS and SY (of a convertible one) where a period is transient, VKCB of a bed."""
        self.is_coefficient = "STORAGECOEFFICIENT" in [word.upper() for word in next(text)[3:]]
        self.laytyp, _layavg, chani, layvka, _laywet = [read_values(text, self.nlay) for _ in range(5)]
        is_steady = all(time.length is None for time in self.times)
        self.hk, self.hani, self.vk, self.ss, self.sy, self.vkcb = [Values() for _ in range(6)]
        for layer in range(self.nlay):
            self.hk += self.maps(text)
            self.hani += [chani[layer]] * self.sheet if chani[layer] > 0 else self.maps(text)
            vka = self.maps(text)
            self.vk += vka if layvka[layer] == 0 else [h / v if v else ZERO for h, v in zip(self.hk[-len(vka) :], vka)]
            self.ss += [ZERO] * self.sheet if is_steady else self.maps(text)
            self.sy += [ZERO] * self.sheet if is_steady or self.laytyp[layer] == 0 else self.maps(text)
            self.vkcb += self.maps(text) if self.has_bed[layer] else [ZERO] * self.sheet

    def read_list(self, text: Text, count: int) -> list[Entries]:
        """The entries of each period: cell and numbers. A negative count of entries: those of the period before."""
        next(text)  # the maximum count
        periods: list[Entries] = []
        for _ in range(self.nper):
            entries = int(next(text)[0])
            lines = [next(text) for _ in range(entries)]
            places = [[int(word) - 1 for word in line[:3]] for line in lines]
            cells = [(layer * self.nrow + row) * self.ncol + col for layer, row, col in places]
            numbers = [[number(word) for word in line[3 : 3 + count]] for line in lines]
            periods.append(periods[-1] if entries < 0 else list(zip(cells, numbers)))
        return periods

    def read_areal(self, text: Text, count: int) -> list[Entries]:
        """As entries of each period: the cell that receives, and the arrays' numbers. A flag below 0 keeps an array."""
        option = int(next(text)[0])
        columns = [self.ibound[spot :: self.sheet] for spot in range(self.sheet)]
        highest = [next((layer for layer, kind in enumerate(column) if kind != 0), 0) for column in columns]
        arrays = [Values() for _ in range(count + 1)]
        periods: list[Entries] = []
        for _ in range(self.nper):
            flags = next(text)
            for at in range(count + 1 if option == 2 else count):
                if int(flags[at]) >= 0:
                    arrays[at] = self.maps(text)
            layers = {1: [0] * self.sheet, 2: [int(layer) - 1 for layer in arrays[count]], 3: highest}[option]
            cells = [layer * self.sheet + spot for spot, layer in enumerate(layers)]
            periods.append([(cell, [array[spot] for array in arrays[:count]]) for spot, cell in enumerate(cells)])
        return periods

    def heads_at(self, time: Time) -> dict[int, Fraction]:
        """The heads of the constant cells at the end of a step."""
        heads = {cell: self.strt[cell] for cell, kind in enumerate(self.ibound) if kind < 0}
        given = self.given[time.period + 1].items()
        return heads | {cell: a + (b - a) * time.part for cell, (a, b) in given if self.ibound[cell] != 0}

    def faces_of(self, a: int) -> Iterator[Face]:
        """From a cell to the next ones along its row, its column and below: harmonic means."""
        row, col = divmod(a % self.sheet, self.ncol)
        right, front, below = a + 1, a + self.ncol, a + self.sheet
        t = self.hk[a] * self.thick[a]
        if col + 1 < self.ncol and self.ibound[right]:
            next_t = self.hk[right] * self.thick[right]
            yield a, right, 2 * self.delc[row] / (self.delr[col] / t + self.delr[col + 1] / next_t)
        if row + 1 < self.nrow and self.ibound[front]:
            t, next_t = t * self.hani[a], self.hk[front] * self.hani[front] * self.thick[front]
            yield a, front, 2 * self.delr[col] / (self.delc[row] / t + self.delc[row + 1] / next_t)
        if below < len(self.ibound) and self.ibound[below]:
            bed = self.bed[a] / self.vkcb[a] if self.bed[a] else ZERO
            resistance = self.thick[a] / 2 / self.vk[a] + bed + self.thick[below] / 2 / self.vk[below]
            yield a, below, self.area[a] / resistance


def stress(package: str, values: Values, others: Values, area: Fraction, sign: int) -> list[Branch]:
    """The branches of an entry: Q; RECH; Bhead, Cond; Stage, Cond, Rbot; Elevation, Cond; SURF, EVTR, EXDP. Its numbers
    lie anywhere between `values` and `others`: the least flow of all at each head (sign 1), or the greatest (-1)."""
    low, high = ([side(pair) for pair in zip(values, others)] for side in (min, max))
    a, b = (low, high) if sign > 0 else (high, low)  # numbers with which the flow rises, and with which it falls
    more = high[1] - low[1] if len(low) > 1 else ZERO
    if package == "WEL":
        return [Branch("WELLS", ONE, a[0], ZERO, ZERO, deep=a[0])]
    if package == "RCH":
        return [Branch("RECHARGE", ONE, a[0] * area, ZERO, ZERO, deep=a[0] * area)]
    if package == "GHB":
        taken, given = Branch("HEAD DEP BOUNDS", more, a[0], low=a[0]), Branch("HEAD DEP BOUNDS", more, a[0], high=a[0])
        return [Branch("HEAD DEP BOUNDS", low[1], a[0])] + [taken if sign > 0 else given] * (more > 0)
    if package == "RIV":
        deep = a[0] - b[2]
        taken = Branch("RIVER LEAKAGE", more, a[0], max(a[0], b[2]), deep=more * min(deep, ZERO))
        given = Branch("RIVER LEAKAGE", more, a[0], b[2], a[0], deep=more * max(deep, ZERO))
        least = Branch("RIVER LEAKAGE", low[1], a[0], b[2], deep=low[1] * deep)
        return [least] + [taken if sign > 0 else given] * (more > 0)
    if package == "DRN":
        return [Branch("DRAINS", b[1], a[0], low=a[0])]
    if package == "EVT" and b[1] > 0:
        surface, rate, extinction = a[0], b[1] * area, a[0] - a[2]
        return [Branch("ET", rate / a[2], extinction, low=extinction, high=surface, deep=-rate)]
    return []


class Listing:
    """A listing, read step by step: its heads by cell, the pairs of its terms and of its zones."""
    def __init__(self, name: str, model: Model, is_span: bool = False):
        self.lines, self.at, self.model = lines_of(name), 0, model
        digits = self.take(rf"HEADS 2 DIGITS (\d+) UNIT {model.unit}" + " TO" * is_span + "|HEADS 1" * (not is_span))[0]
        term = next((line for line in self.lines if line.startswith("IN ")), "")
        self.places = len(term.split(" ")[1].partition(".")[2]) if digits is None else int(digits) + 9

    def take(self, form: str) -> tuple[str, ...]:
        """The parts of the next line, which has to be of this form."""
        line = self.lines[self.at] if self.at < len(self.lines) else ""
        self.at += 1
        found = re.fullmatch(form, line)
        if found is None:
            zone = " (a line ZONE: name the zone file as the third word)" if line.startswith("ZONE ") else ""
            raise Fault(f"line {self.at} of the listing isn't of the form due ({form[:40]}){zone}")
        return found.groups()

    def pair(self, before: str, places: int, after: str = "") -> Pair:
        form = rf"(-?(?:0|[1-9]\d*)\.\d{{{places}}})"
        low, high = self.take(f"{before} {form} {form}{after}")
        return Fraction(low), Fraction(high)

    def read_step(self, time: Time, faces: Faces) -> None:
        self.take(f"STEP {time.period + 1} {time.step + 1}")
        self.lower, self.upper = [ZERO] * len(self.model.ibound), [ZERO] * len(self.model.ibound)
        for cell, kind in enumerate(self.model.ibound):
            if kind != 0:
                self.lower[cell], self.upper[cell] = self.pair(f"HEAD {self.model.place[cell]}", 9)
        names = TERMS if "EVT" in self.model.stresses else TERMS[:-1]
        self.terms = {(a, b): self.pair(a, self.places, f" {b}") for a in ("IN", "OUT") for b in names}
        self.zones = {(a, b): self.pair(f"ZONE {a} {b}", self.places) for a, b in faces}


class Step:
    """The equations of a time step: the heads of its constant cells; of each variable cell its links to others, the
    branches of all its other flows, and its deep flow. With a second model: the least (sign 1), or the greatest (-1),
    of the heads and flows of all models between the two."""
    def __init__(self, model: Model, time: Time, second: Optional[Model] = None, sign: int = 1):
        self.model, self.place, second = model, model.place, second or model
        self.name = f"period {time.period + 1} step {time.step + 1}"
        heads = [each.heads_at(time) for each in (model, second)]
        self.constant = {cell: sign * min(sign * each[cell] for each in heads) for cell in heads[0]}
        self.cells = [cell for cell, kind in enumerate(model.ibound) if kind > 0 and cell not in self.constant]
        self.links: dict[int, list[tuple[int, Fraction]]] = {cell: [] for cell in self.cells}
        self.branches: dict[int, list[Branch]] = {cell: [] for cell in self.cells}
        for a, b, conductance in model.faces:
            for cell, other in ((a, b), (b, a)):
                if cell in self.links and other in self.constant:
                    self.branches[cell].append(Branch("CONSTANT HEAD", conductance, self.constant[other]))
                elif cell in self.links:
                    self.links[cell].append((other, conductance))
        for cell in self.cells:
            if time.length is not None:
                height = ONE if model.is_coefficient else model.thick[cell]
                capacity = model.ss[cell] * height * model.area[cell]
                self.branches[cell].append(Branch("STORAGE", capacity / time.length, None))
        for package, periods in model.stresses.items():
            for (cell, values), (_, others) in zip(periods[time.period], second.stresses[package][time.period]):
                if cell in self.branches:
                    self.branches[cell] += stress(package, values, others, model.area[cell], sign)
        self.deep = {cell: sum((branch.deep for branch in self.branches[cell]), ZERO) for cell in self.cells}

    def balance(self, cell: int, heads: Values, old: Values) -> Fraction:
        links = sum((conductance * (heads[other] - heads[cell]) for other, conductance in self.links[cell]), ZERO)
        return links + sum((branch.flow(heads[cell], old[cell]) for branch in self.branches[cell]), ZERO)

    def groups(self) -> Iterator[list[int]]:
        """The variable cells, by groups that links hold together."""
        left = set(self.cells)
        for first in self.cells:
            if first in left:
                left.remove(first)
                group = [first]
                for cell in group:
                    fresh = [other for other, _ in self.links[cell] if other in left]
                    left.difference_update(fresh)
                    group += fresh
                yield group

    def barriers(self, old: Values, sign: int) -> dict[int, Fraction]:
        """Floors (sign 1) or ceilings (sign -1): B less q / C summed over a path; of cells that nothing holds none."""
        q, levels = ZERO, Values()
        starts: dict[int, Fraction] = {}
        for cell in self.cells:
            rates = [branch.deep for branch in self.branches[cell] if branch.term in ("WELLS", "RECHARGE")]
            q += max(-self.deep[cell] if sign > 0 else sum(rates, ZERO), ZERO)
            heads = [branch for branch in self.branches[cell] if branch.conductance > 0 and branch.high is None]
            levels += [branch.low for branch in heads if sign > 0 and branch.low is not None]
            giving = [branch.high for branch in self.branches[cell] if sign < 0 and branch.term in GIVING]
            levels += [level for level in giving if level is not None]
            holding = [branch for branch in heads if sign < 0 or branch.low is None]
            levels += [old[cell] if branch.level is None else branch.level for branch in holding]
            if holding:
                starts[cell] = 1 / max(branch.conductance for branch in holding)
        far = self.shortest(starts)
        for group in self.groups():
            if group[0] not in far and sign > 0 and sum(self.deep[cell] for cell in group) > 0:
                lengths = self.shortest({group[0]: ZERO})
                far |= {cell: lengths[cell] + max(lengths.values()) for cell in group}
        base = sign * min((sign * level for level in levels), default=ZERO)
        return {cell: at for cell, way in far.items() if sign * (at := base - sign * q * way) >= self.model.least}

    def shortest(self, starts: dict[int, Fraction]) -> dict[int, Fraction]:
        """The least sum of 1 / C along links from the starts to each cell of their groups (Dijkstra)."""
        done: dict[int, Fraction] = {}
        heap = sorted((length, cell) for cell, length in starts.items())
        while heap:
            length, cell = heapq.heappop(heap)
            if cell not in done:
                done[cell] = length
                for other, conductance in self.links[cell]:
                    heapq.heappush(heap, (length + 1 / conductance, other))
        return done

    def zone_faces(self, zones: list[int]) -> Faces:
        """For each two zones, the smaller first: the faces between them that have a variable cell."""
        out: Faces = {}
        for x, y, conductance in self.model.faces:
            if zones[x] != zones[y] and 0 not in (zones[x], zones[y]) and (x in self.links or y in self.links):
                a, b = (x, y) if zones[x] < zones[y] else (y, x)
                out.setdefault((zones[a], zones[b]), []).append((a, b, conductance))
        return dict(sorted(out.items()))

    def check_heads(self, most: "Step", listing: Listing, low: Values, high: Values) -> None:
        """A Fault at the first cell that isn't confirmed. Old heads go from `low` to `high`, flows up to `most`'s."""
        for cell, head in sorted(self.constant.items()):
            top = most.constant[cell]
            if listing.lower[cell] > head or listing.upper[cell] < top:
                side, given = ("LOW", head) if listing.lower[cell] > head else ("HIGH", top)
                wrong = f"the constant head {float(given)} isn't in its pair"
                raise Fault(f"{self.name} {self.place[cell]} {side}: {wrong}")
            listing.lower[cell], listing.upper[cell] = head, top
        barriers: dict[str, dict[int, Fraction]] = {}
        sides = ("LOW", 1, self, listing.lower, low), ("HIGH", -1, most, listing.upper, high)
        for cell in self.cells:
            for side, sign, step, heads, old in sides:
                balance = step.balance(cell, heads, old)
                if sign * balance < 0:
                    if side not in barriers:
                        barriers[side] = step.barriers(old, sign)
                    if cell not in barriers[side] or sign * heads[cell] > sign * barriers[side][cell]:
                        wrong = f"the balance has the wrong sign, by {float(abs(balance)):.3g}"
                        raise Fault(f"{self.name} {self.place[cell]} {side}: {wrong}")
        for group in self.groups():
            holding = [branch for cell in group for branch in self.branches[cell] if branch.low is None]
            if all(branch.conductance <= 0 for branch in holding) and sum(self.deep[cell] for cell in group) <= 0:
                raise Fault(f"{self.name} {self.place[group[0]]}: nothing holds the group of this cell")

    def check_flows(self, most: "Step", listing: Listing, low: Values, high: Values, faces: Faces) -> None:
        """Each flow into a cell is least at its upper head and the lower old head."""
        sums = {name: [ZERO] * 4 for name in TERMS}  # in: the least and the greatest; out: the same
        for at, step, heads, old in ((0, self, listing.upper, low), (1, most, listing.lower, high)):
            for cell in self.cells:
                for branch in step.branches[cell]:
                    flow = branch.flow(heads[cell], old[cell])
                    sums[branch.term][at if flow > 0 else 3 - at] += abs(flow)
        for (side, name), (lower, upper) in listing.terms.items():
            least, greatest = sums[name][:2] if side == "IN" else sums[name][2:]
            if lower > least or upper < greatest:
                raise Fault(f"{self.name} {side} {name}: the pair doesn't hold the flows")
        for (a, b), (lower, upper) in listing.zones.items():
            least = sum((c * (listing.lower[x] - listing.upper[y]) for x, y, c in faces[a, b]), ZERO)
            greatest = sum((c * (listing.upper[x] - listing.lower[y]) for x, y, c in faces[a, b]), ZERO)
            if lower > least or upper < greatest:
                raise Fault(f"{self.name} ZONE {a} {b}: the pair doesn't hold the flow")


def demand_alike(one: Model, two: Model) -> None:
    """A ValueError where the decks differ in more than numbers of stresses and STRT. EVTR is 0 in both or in none, EXDP
    the same. And one where a layer is convertible: recheck_convertible.py reads such a deck."""
    if any(one.laytyp):
        raise ValueError("LAYTYP isn't 0: recheck_convertible.py reads convertible layers")
    free: dict[str, object] = {"strt": 0, "stresses": 0, "given": 0}
    shapes = [
        (vars(model) | free, [list(heads) for heads in model.given], list(model.stresses))
        + tuple([[cell for cell, _ in entries] for entries in periods] for periods in model.stresses.values())
        + tuple([(n[1] > 0, n[2]) for _, n in entries] for entries in model.stresses.get("EVT", []))
        for model in (one, two)
    ]
    if shapes[0] != shapes[1]:
        raise ValueError("the two decks aren't alike")


def check_listing(model: Model, listing: Listing, zones: list[int], other: Model) -> None:
    """A Fault at the first place of the listing that isn't confirmed. `other` is the second deck, or the model."""
    low, high = ([side(pair) for pair in zip(model.strt, other.strt)] for side in (min, max))
    for time in model.times:
        least = Step(model, time, other)
        most = least if other is model else Step(model, time, other, -1)
        faces = least.zone_faces(zones)
        listing.read_step(time, faces)
        least.check_heads(most, listing, low, high)
        least.check_flows(most, listing, low, high, faces)
        low, high = listing.lower, listing.upper
    listing.take("END")
    if listing.lines[listing.at :] not in ([""], []):
        raise Fault(f"line {listing.at + 1} of the listing: something stands after END")


def main(arguments: list[str]) -> int:
    least, words = -4e9 if "--wide" in arguments else float("-inf"), [word for word in arguments if word != "--wide"]
    words, second = (words[:-2], words[-1]) if words[-2:-1] == ["--to"] else (words, None)
    if len(words) not in (2, 3) or "--to" in words:
        print("usage: recheck.py NAME LISTING [ZONES] [--wide] [--to NAME2]   (in the deck's folder)", file=sys.stderr)
        return USAGE
    try:
        model = Model(words[0], least)
        other = model if second is None else Model(second, least)
        demand_alike(model, other)
        marks = model.maps(text_of(words[2], False), model.nlay) if words[2:] else [ZERO] * len(model.ibound)
        zones = [int(mark) for mark in marks]
        check_listing(model, Listing(words[1], model, second is not None), zones, other)
    except Fault as fault:
        print(f"NOT CONFIRMED: {fault}")
        return NOT_CONFIRMED
    except (OSError, StopIteration, KeyError, IndexError, ValueError, ZeroDivisionError) as error:
        print(f"NOT CONFIRMED: a deck or the listing can't be read here: {type(error).__name__} {error}")
        return NOT_READ
    print("HOLDS")
    return HOLDS


if __name__ == "__main__":
    sys.exit(main(sys.argv[1:]))
