"""Tables of a listing: heads.csv, budget.csv, zones.csv, and what the budget of a step comes to."""
from __future__ import annotations

from dataclasses import dataclass
from pathlib import Path

from ..common.text import decimal_text
from ..common.whole_files import whole_file
from .cell_lines import write_cells
from .listing import Listing, Step


Row = tuple[str, int, int, int, int]


@dataclass
class Budget:
    """The budget of a step in whole numbers of 10^-(digits + 9): rows (name, in_low, in_high, out_low, out_high), the
    last one the total; net terms (name, low, high, narrowed low, narrowed high); the percent discrepancy's range."""

    rows: list[Row]
    nets: list[Row]
    discrepancy: tuple[float, float] | None

    @property
    def is_empty(self) -> bool:
        """Whether no budget whose net terms sum to 0 lies between the bounds."""
        return any(low > high for *_, low, high in self.nets)


def budget_of(step: Step) -> Budget:
    """Totals and net terms. In an exact solution all net terms sum to 0, so each one lies also between the negated
    sums of the others' bounds (the theorem net_terms_lie_in_the_others): its pair is narrowed to what both say."""
    rows: list[Row] = [(name, a, b, c, d) for name, (a, b, c, d) in step.terms.items()]
    total = [sum(t[n] for t in step.terms.values()) for n in range(4)]
    lows, highs = {r[0]: r[1] - r[4] for r in rows}, {r[0]: r[2] - r[3] for r in rows}
    all_low, all_high = sum(lows.values()), sum(highs.values())
    nets = [
        (
            name,
            lows[name],
            highs[name],
            max(lows[name], -(all_high - highs[name])),
            min(highs[name], -(all_low - lows[name])),
        )
        for name in lows
    ]
    mean = sum(total) / 4
    discrepancy = ((total[0] - total[3]) / mean * 100, (total[1] - total[2]) / mean * 100) if mean else None
    rows.append(("TOTAL", total[0], total[1], total[2], total[3]))
    return Budget(rows, nets, discrepancy)


def write_heads_table(
    path: Path, listing: Listing, times: dict[tuple[int, int], tuple[float, float]] | None
) -> None:
    """The heads of all steps as a table, with all nine decimals."""
    with whole_file(path) as file:
        file.write("period,step,time,layer,row,col,lower,upper\n")
        for step in listing.steps:
            time = f"{times[step.period, step.step][1]:.12g}" if times and (step.period, step.step) in times else ""
            head = f"{step.period},{step.step},{time}"
            write_cells(file, f"{head},", ",", listing.cells, step.low, step.high)


def write_tables(
    listing: Listing, folder: Path, times: dict[tuple[int, int], tuple[float, float]] | None
) -> list[str]:
    """heads.csv, budget.csv and, where there are zones, zones.csv: their names. Every bound stands there with all its
    digits."""
    places = listing.flow_places
    write_heads_table(folder / "heads.csv", listing, times)
    with whole_file(folder / "budget.csv") as file:
        file.write(
            "period,step,term,in_lower,in_upper,out_lower,out_upper,net_lower,net_upper,narrowed_lower,narrowed_upper\n"
        )
        for step in listing.steps:
            budget = budget_of(step)
            nets = {n[0]: n[1:] for n in budget.nets}
            for name, *flows in budget.rows:
                net = nets.get(name, (flows[0] - flows[3], flows[1] - flows[2], 0, 0))
                file.write(
                    f"{step.period},{step.step},{name},"
                    + ",".join(decimal_text(v, places) for v in (*flows, *net))
                    + "\n"
                )
    if not any(s.zones for s in listing.steps):
        return ["heads.csv", "budget.csv"]
    with whole_file(folder / "zones.csv") as file:
        file.write("period,step,from,to,lower,upper\n")
        for step in listing.steps:
            for a, b, low, high in step.zones:
                file.write(
                    f"{step.period},{step.step},{a},{b},{decimal_text(low, places)},{decimal_text(high, places)}\n"
                )
    return ["heads.csv", "budget.csv", "zones.csv"]
