"""What is wanted of the rows of the table, and which rows meet it."""
from __future__ import annotations

from dataclasses import dataclass
from typing import Iterator

from costs import Cost

# Ratios are not taken over fewer seconds.
LEAST = 0.01
WORKERS = 4
# A row that is within this of what is wanted counts as near.
NEAR = 1.3
GROWTH = "run, over that of sheet:512"
RUN_BY_CLOCK, QUICK_BY_CLOCK = (f"{kind} run by the clock, 1 worker over {WORKERS}" for kind in ("settled", "quick"))


@dataclass
class Row:
    """What a case took: each run by one worker, by several where that is wanted, and its linear systems in doubles."""

    cells: int
    run: Cost | None
    quick: Cost
    check: Cost
    run_by_workers: Cost | None
    quick_by_workers: Cost | None
    hypre: float
    pcg: float

    def parts(self) -> dict[str, float]:
        parts = {"quick": self.quick.seconds, "check": self.check.seconds}
        parts["bytes a cell"] = self.quick.bytes / self.cells
        if self.run:
            parts |= {"run": self.run.seconds, "run, over hypre": self.run.seconds / max(self.hypre, LEAST)}
        for part, alone, by_workers in (
            (RUN_BY_CLOCK, self.run, self.run_by_workers),
            (QUICK_BY_CLOCK, self.quick, self.quick_by_workers),
        ):
            if alone and by_workers:
                parts[part] = alone.clock / by_workers.clock
        return parts


@dataclass(frozen=True)
class Goal:
    """The most that a part of a case may be, or the least."""

    case: str
    part: str
    wanted: float
    is_least: bool = False

    def line(self, measured: float) -> str:
        over = self.wanted / measured if self.is_least else measured / self.wanted
        verdict = "met" if over <= 1 else f"within {NEAR}" if over <= NEAR else f"not met: {over:.1f} times"
        form = "{:,.0f}" if self.wanted >= 100 else "{:.2f}"
        return f"| {self.case} | {self.part} | {self.wanted:g} | {form.format(measured)} | {verdict} |"


GOALS = (
    Goal("sheet:512", "run", 8),
    Goal("sheet:1024", "run", 75),
    Goal("sheet:1024", GROWTH, 7),
    Goal("wells:256", "run", 3),
    Goal("contrasts:256", "run", 3),
    Goal("evt:256", "quick", 1.7),
    Goal("drains:256", "quick", 1.2),
    Goal("sheet:1024", "quick", 11),
    Goal("sheet:1024", "check", 2.5),
    Goal("channels:64", "quick", 5),
    Goal("karst:64", "quick", 8),
    Goal("faults:90", "quick", 2),
    Goal("steps:64:20", "run, over hypre", 2),
    Goal("steps:64:100", "run, over hypre", 2),
    Goal("steps:32:1000", "run, over hypre", 2),
    Goal("sheet:256", "bytes a cell", 700),
    Goal("sheet:1024", "bytes a cell", 700),
    Goal("sheet:512", RUN_BY_CLOCK, 2.4, is_least=True),
    Goal("sheet:1024", QUICK_BY_CLOCK, 1.9, is_least=True),
)


def wants(case: str, part: str) -> bool:
    return any((goal.case, goal.part) == (case, part) for goal in GOALS)


def verdicts(rows: dict[str, Row]) -> Iterator[str]:
    """A line for each goal whose case was measured."""
    for goal in GOALS:
        if goal.case not in rows:
            continue
        parts = rows[goal.case].parts()
        runs = [rows[case].run for case in (goal.case, "sheet:512") if case in rows]
        if goal.part == GROWTH and len(runs) == 2 and runs[0] and runs[1]:
            parts[GROWTH] = runs[0].seconds / runs[1].seconds
        if goal.part in parts:
            yield goal.line(parts[goal.part])
