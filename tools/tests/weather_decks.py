"""Random small decks in pairs, the two ends of a weather, with a plan of wells; and exact heads of both plans in
weathers between the two, drawn anew at each step. The equations are recheck.py's, solved by solution.py."""
import copy

from recheck import ZERO, Step
from solution import between, solve_step

SIZES = [(1, 1, 1), (1, 1, 3), (1, 2, 2), (1, 2, 3), (2, 1, 2), (2, 2, 2), (1, 3, 3), (1, 1, 6)]


class Ends:
    """Texts of two decks at once: a number that ranges stands as @n@ in them."""

    def __init__(self, draw):
        self.draw, self.numbers = draw, []

    def number(self, middle, half, least=-1e9):
        """The same number in both decks, or one of each, in either order."""
        draw = self.draw
        ends = [max(least, round(draw.uniform(middle - half, middle + half), 3)) for _ in "ab"]
        if draw.random() < 0.25:
            return str(ends[0])
        self.numbers.append(ends)
        return f"@{len(self.numbers) - 1}@"

    def filled(self, text, side):
        for n, ends in enumerate(self.numbers):
            text = text.replace(f"@{n}@", str(ends[side]))
        return text


class Decks:
    """The texts of a pair of decks and of a plan."""

    def __init__(self, draw):
        self.draw, self.ends = draw, Ends(draw)
        self.size = self.nlay, self.nrow, self.ncol = draw.choice(SIZES)
        self.sheet, self.cells = self.nrow * self.ncol, self.nlay * self.nrow * self.ncol
        self.periods = [
            (draw.choice(["10", "30", "1"]), draw.choice([1, 1, 2, 3]), draw.choice(["1", "1.5"]), draw.random() < 0.4)
            for _ in range(draw.choice([1, 1, 2]))
        ]
        self.files, self.names = {}, ["DIS 11 X.dis", "BAS6 12 X.bas", "LPF 13 X.lpf"]
        self.write_grid()
        self.write_lists()
        self.write_areal()
        rate = lambda: draw.choice(["-5", "-20", "-1", "-50", "-200", "-0.123", "5", "20"])
        self.plan = self.list_of(lambda: rate(), 2, least=1, repeats=False)

    def layers(self, words):
        """Arrays of all layers."""
        return "".join(self.layer(words) for _ in range(self.nlay))

    def layer(self, words):
        """An array of a layer."""
        rows = (" ".join(words() for _ in range(self.ncol)) for _ in range(self.nrow))
        return "INTERNAL 1 (FREE) -1\n" + "".join(f"{row}\n" for row in rows)

    def write_grid(self):
        draw, number = self.draw, self.ends.number
        choice = lambda *words: (lambda: draw.choice(words))
        beds = " ".join(["0"] * self.nlay)
        dis = f"{self.nlay} {self.nrow} {self.ncol} {len(self.periods)} 4 2\n{beds}\n"
        dis += f"CONSTANT {draw.choice(['100', '10'])}\nCONSTANT {draw.choice(['100', '10'])}\nCONSTANT 20\n"
        dis += "".join(f"CONSTANT {10 - 10 * k}\n" for k in range(self.nlay))
        dis += "".join(f"{p[0]} {p[1]} {p[2]} {'SS' if p[3] else 'TR'}\n" for p in self.periods)
        ibound = lambda: draw.choices(["1", "-1", "0"], [1, draw.choice([0, 0.1]), 0.07])[0]
        bas = "FREE\n" + self.layers(ibound) + "-999\n" + self.layers(lambda: number(10, 4))
        lpf = "0 -1E30 0\n" + "".join(" ".join([x] * self.nlay) + "\n" for x in "00100")
        is_transient = any(not p[3] for p in self.periods)
        for _ in range(self.nlay):
            lpf += self.layer(choice("1", "5", "0.2", "20", "0.01")) + f"CONSTANT {choice('1', '0.1', '0.001')()}\n"
            lpf += f"CONSTANT {choice('0.001', '0.0001', '0.01', '0')()}\n" * is_transient
        self.files |= {"dis": dis, "bas": bas, "lpf": lpf}

    def list_of(self, words, most, least=0, repeats=True, is_distinct=False):
        """A list package: entries at random cells in each period."""
        text = "99 0\n"
        for n in range(len(self.periods)):
            if repeats and n and self.draw.random() < 0.3:
                text += "-1 0\n"
                continue
            count = self.draw.randint(least, most)
            cells = [self.draw.randrange(self.cells) for _ in range(count)]
            cells = list(dict.fromkeys(cells)) if is_distinct else cells
            text += f"{len(cells)} 0\n" + "".join(f"{self.place(c)} {words()}\n" for c in cells)
        return text

    def place(self, cell):
        return f"{cell // self.sheet + 1} {cell % self.sheet // self.ncol + 1} {cell % self.ncol + 1}"

    def write_lists(self):
        draw, number = self.draw, self.ends.number
        cond = lambda: number(30, 28, 0.0) if draw.random() < 0.5 else draw.choice(["1", "10", "100", "300"])
        self.add("wel", 0.5, lambda: number(-10, 40), 2)
        self.add("riv", 0.75, lambda: f"{number(10, 1.5)} {cond()} {number(9, 2)}", 5)
        self.add("drn", 0.4, lambda: f"{number(10, 2)} {cond()}", 3)
        self.add("ghb", 0.5, lambda: f"{number(10, 2)} {cond()}", 2)
        self.add("chd", 0.2, self.given, 1, True)

    def given(self):
        """A head at a period's begin and one at its end, which rise from one deck to the other, or both fall."""
        draw = self.draw
        begin, end, more = round(draw.uniform(8, 13), 2), round(draw.uniform(8, 13), 2), round(draw.uniform(-1, 1), 2)
        self.ends.numbers += [(begin, round(begin + more, 2)), (end, round(end + more * draw.choice([1, 0]), 2))]
        return f"@{len(self.ends.numbers) - 2}@ @{len(self.ends.numbers) - 1}@"

    def add(self, kind, chance, words, most, is_distinct=False):
        if self.draw.random() < chance:
            self.files[kind] = self.list_of(words, most, is_distinct=is_distinct)
            self.names.append(f"{kind.upper()} {14 + len(self.names)} X.{kind}")

    def write_areal(self):
        draw, number = self.draw, self.ends.number
        if draw.random() < 0.6:
            rates = ("0\n" + self.layer(lambda: number(0.002, 0.004)) for _ in self.periods)
            self.files["rch"] = "3 0\n" + "".join(rates)
            self.names.append("RCH 31 X.rch")
        if draw.random() < 0.45:
            rate = lambda: "0" if draw.random() < 0.4 else number(0.004, 0.003, 0.001)
            depth = lambda: draw.choice(["1", "2", "4"])
            self.files["evt"] = "3 0\n" + "".join(
                "0 0 0\n" + self.layer(lambda: number(11, 2)) + self.layer(rate) + f"CONSTANT {depth()}\n"
                for _ in self.periods
            )
            self.names.append("EVT 32 X.evt")

    def write(self, folder):
        """Writes low.nam, high.nam and plan.wel."""
        for side, name in enumerate(("low", "high")):
            for kind, text in self.files.items():
                (folder / f"{name}.{kind}").write_text(self.ends.filled(text, side))
            (folder / f"{name}.nam").write_text("\n".join(self.names).replace("X.", f"{name}.") + "\n")
        (folder / "plan.wel").write_text(self.plan)


def with_wells(model, wells):
    """The model with more wells: for each period cells and rates."""
    made = copy.copy(model)
    own = model.stresses.get("WEL", [[] for _ in wells])
    made.stresses = model.stresses | {"WEL": [[*a, *b] for a, b in zip(own, wells)]}
    return made


def histories(low, high, wells, draw, guesses):
    """For each step: exact heads in the base plan and in the other one, and what each term gives more under the plan.
    `guesses`: for each step heads to begin with, in both plans."""
    old = [list(between(low, high, draw).strt)] * 2
    for time, guess in zip(low.times, guesses):
        made = between(low, high, draw)
        steps = [Step(model, time) for model in (made, with_wells(made, wells))]
        heads, more = [], {}
        for step, sign, before, first in zip(steps, (-1, 1), old, guess):
            for cell, head in step.constant.items():
                first[cell] = head
            found = solve_step(step, first, before)
            heads.append(found)
            for cell in step.cells:
                for branch in step.branches[cell]:
                    flow = branch.flow(found[cell], before[cell])
                    more[branch.term] = more.get(branch.term, ZERO) + sign * flow
        old = heads
        yield heads[0], heads[1], more
