"""Random models solved in fractions by the formulas of MODFLOW 6 (TM 6-A55), from the numbers that were drawn and not
from the files."""
from fractions import Fraction


def conductances(m):
    """Between neighbours: width T1 T2 / (T1 L2 + T2 L1) in a layer, the area over the sum of both halves' thickness
    over K33 between layers."""
    v, out = m.values, {}
    for c in range(m.cells):
        i, j = c % m.layer // m.cols, c % m.cols
        ways = ("row", 1, j + 1 < m.cols), ("col", m.cols, i + 1 < m.rows), ("down", m.layer, True)
        for way, step, is_there in ways:
            b = c + step
            if not is_there or b >= m.cells or not v["active"][c] or not v["active"][b]:
                continue
            if way == "down":
                halves = sum(v["thick"][n] / 2 / v["k33"][n] for n in (c, b))
                out[c, b] = v["delr"][j] * v["delc"][i] / halves
                continue
            k, along, at, width = {
                "row": (v["k"], v["delr"], j, v["delc"][i]),
                "col": (v["k22"], v["delc"], i, v["delr"][j]),
            }[way]
            t1, t2 = k[c] * v["thick"][c], k[b] * v["thick"][b]
            out[c, b] = width * t1 * t2 / (t1 * along[at + 1] / 2 + t2 * along[at] / 2)
    return out


class Equations:
    """The linear equations of a step, for rivers, drains and evapotranspiration as they stand at given heads."""

    def __init__(self, free):
        self.free, self.at = free, {c: n for n, c in enumerate(free)}
        self.rows = [[Fraction(0)] * (len(free) + 1) for _ in free]

    def add(self, c, slope, constant):
        """A flow into a cell: constant - slope * head."""
        if c in self.at:
            row = self.rows[self.at[c]]
            row[self.at[c]] += slope
            row[-1] += constant

    def join(self, a, b, conductance, heads):
        if a not in self.at:
            return
        self.add(a, conductance, 0)
        if b in self.at:
            self.rows[self.at[a]][self.at[b]] -= conductance
        else:
            self.rows[self.at[a]][-1] += conductance * heads[b]

    def solved(self):
        rows, size = self.rows, len(self.free)
        for x in range(size):
            pivot = next((y for y in range(x, size) if rows[y][x]), None)
            if pivot is None:
                return None
            rows[x], rows[pivot] = rows[pivot], rows[x]
            for y in range(size):
                if y != x and rows[y][x]:
                    factor = rows[y][x] / rows[x][x]
                    rows[y] = [a - factor * b if b else a for a, b in zip(rows[y], rows[x])]
        return {c: rows[n][-1] / rows[n][n] for n, c in enumerate(self.free)}


def equations(m, p, length, old, heads, branches, free):
    v, out, lists = m.values, Equations(free), {kind: each[p] for kind, each in m.lists.items()}
    area = lambda c: v["delr"][c % m.cols] * v["delc"][c % m.layer // m.cols]
    for (a, b), conductance in branches.items():
        out.join(a, b, conductance, heads)
        out.join(b, a, conductance, heads)
    for c in [] if m.steady[p] else free:
        storage = v["ss"][c] * (1 if m.is_coefficient else v["thick"][c]) * area(c) / length
        out.add(c, storage, storage * old[c])
    for c, (rate,) in lists["wel"]:
        out.add(c, 0, rate)
    for c, (rate,) in lists["rch"]:
        out.add(c, 0, rate * area(c))
    for c, (head, conductance) in lists["ghb"]:
        out.add(c, conductance, conductance * head)
    for c, (stage, conductance, bottom) in lists["riv"]:
        is_joined = heads[c] > bottom
        out.add(c, conductance * is_joined, conductance * (stage - bottom * (not is_joined)))
    for c, (level, conductance) in lists["drn"]:
        if heads[c] > level:
            out.add(c, conductance, conductance * level)
    for c, (surface, rate, depth) in lists["evt"]:
        most = rate * area(c)
        if heads[c] >= surface:
            out.add(c, 0, -most)
        elif heads[c] > surface - depth:
            out.add(c, most / depth, most / depth * (surface - depth))
    return out


def solution(m):
    """The exact heads of each period and step, by cell; None where no trial of the bends ends."""
    branches, old, out = conductances(m), list(m.values["start"]), {}
    for p, (length, count, growth) in enumerate(m.periods):
        step_length = length / count if growth == 1 else length * (1 - growth) / (1 - growth**count)
        given = {c: head for c, (head,) in m.lists["chd"][p]}
        free = [c for c in range(m.cells) if m.values["active"][c] and c not in given]
        for step in range(count):
            heads = dict(enumerate(old)) | given
            for _ in range(60):
                new = equations(m, p, step_length, old, heads, branches, free).solved()
                if new is None:
                    return None
                if all(new[c] == heads[c] for c in free):
                    break
                heads |= new
            else:
                return None
            out[p + 1, step + 1] = {c: heads[c] for c in range(m.cells) if m.values["active"][c]}
            old = [heads[c] for c in range(m.cells)]
            step_length *= growth
    return out
