"""A listing of what a plan's wells do, as `heads run NAME --plan WELLS` puts it: three listings of the same cells and
steps, and where the plan's water comes from."""
from __future__ import annotations

import hashlib
import re
from dataclasses import dataclass
from pathlib import Path

import numpy as np

from ..common.marks import plain
from ..common.text import Problem, counted, decimal_text
from ..common.whole_files import whole_file
from .cell_lines import write_cells
from .listing import PLAN_FIRST, Listing, Step, bad_line, flow_of, forms_of, listing_bytes, steps_in

PARTS = ("BASE", "PLAN", "DRAWDOWN")
# What the numbers of each part are.
WHAT = {"BASE": "head without the plan's wells", "PLAN": "head with the plan's wells", "DRAWDOWN": "drawdown"}
LINES = (*PARTS, "STEP", "SOURCE", "ZONE")
FIRST_LINE = re.compile(r"DRAWDOWN 1 DIGITS (\d+) UNIT (-?\d+)( TO)?")
Pair = tuple[int, int]


@dataclass(repr=False)
class PlanListing:
    """`base`, `planned`: the heads without the plan's wells and with them; `drawdown`: base less planned of the same
    weather, above 0 where the plan lowers the head, and what flows more between zones under the plan; `sources`: what
    each term gives more under the plan, in less out, in 10^-flow_places, for each step."""

    base: Listing
    planned: Listing
    drawdown: Listing
    sources: list[dict[str, Pair]]

    def __repr__(self) -> str:
        size = f"{counted(len(self.drawdown.steps), 'step')} of {counted(len(self.drawdown.cells), 'cell')}"
        return f"<{self.path.name}: a plan, {size}, {self.drawdown.digits} digits, ends with {self.drawdown.end}>"

    @property
    def path(self) -> Path:
        return self.drawdown.path

    @property
    def parts(self) -> tuple[Listing, Listing, Listing]:
        return self.base, self.planned, self.drawdown


def is_plan_listing(given: object) -> bool:
    """Whether something given is a plan's listing, a part of one, or a file that begins as one does."""
    if not isinstance(given, Path) or not given.is_file():
        return isinstance(given, PlanListing) or isinstance(given, Listing) and bool(given.part)
    with open(given, "rb") as file:
        return plain(file.read(64))[0].startswith(f"{PLAN_FIRST} ".encode())


def read_plan_listing(path: str | Path) -> PlanListing:
    """Reads a plan's listing; one that ended early as far as its steps are whole."""
    content = listing_bytes(Path(path))
    lines = content.decode("latin-1").split("\n")
    first = FIRST_LINE.fullmatch(lines[0].strip())
    if first is None:
        raise Problem(f"{path}, line 1: no listing of what a plan does begins with {lines[0][:60]!r}")
    ranges, end = steps_in(lines, LINES)
    digits, unit, is_span = int(first[1]), int(first[2]), first[3] is not None
    digest = hashlib.sha256(content).hexdigest()
    base, planned, drawdown = (
        Listing(Path(path), digits, unit, end=end, is_span=is_span, sha256=digest, part=word) for word in PARTS
    )
    drawdown.is_change = True
    out = PlanListing(base, planned, drawdown, [])
    for begin, stop in ranges:
        is_part = (begin, stop) == ranges[-1] and not end
        try:
            steps, cells, sources = step_of(lines, begin, stop, out.drawdown.flow_places)
        except (ValueError, IndexError):
            if is_part:
                break
            raise Problem(f"{path}, {bad_line(lines, begin, stop, forms_of(out.drawdown.flow_places))}") from None
        if not out.sources:
            for part in out.parts:
                part.cells = cells
        elif len(cells) != len(out.drawdown.cells) and is_part:
            break
        elif not np.array_equal(cells, out.drawdown.cells):
            raise Problem(f"{path}, line {begin + 1}: this step has other cells than the first")
        for part, step in zip(out.parts, steps):
            part.steps.append(step)
        out.sources.append(sources)
    return out


def step_of(
    lines: list[str], begin: int, end: int, places: int
) -> tuple[list[Step], np.ndarray, dict[str, Pair]]:
    """The three parts of the step whose line STEP is lines[begin], its cells, and its sources."""
    _, period, number = lines[begin].split()
    last = begin + 1
    while last < end and lines[last].startswith(PARTS):
        last += 1
    rows = [line.split() for line in lines[begin + 1 : last]]
    if any(row[0] != PARTS[n % len(PARTS)] for n, row in enumerate(rows)) or len(rows) % len(PARTS):
        raise ValueError("the three lines of each cell aren't in their order")
    text = " ".join(word for row in rows for word in row[1:]).replace(".", "")
    table = np.array(text.split(), dtype=np.int64).reshape(len(rows) // len(PARTS), len(PARTS), 5)
    cells = table[:, 0, :3]
    if not all(np.array_equal(cells, table[:, n, :3]) for n in range(len(PARTS))):
        raise ValueError("the three lines of a cell have other cells")
    steps = [Step(int(period), int(number), part[:, 3].copy(), part[:, 4].copy()) for part in table.transpose(1, 0, 2)]
    sources: dict[str, Pair] = {}
    for line in lines[last:end]:
        word, *rest = line.split(None, 3)
        if word == "ZONE":
            low, high = (flow_of(each, places) for each in rest[2].split())
            steps[-1].zones.append((int(rest[0]), int(rest[1]), low, high))
        elif word == "SOURCE":
            sources[rest[2].strip()] = flow_of(rest[0], places), flow_of(rest[1], places)
        else:
            raise ValueError(f"a line begins with {word}")
    return steps, cells, sources


def write_plan_tables(
    listing: PlanListing, path: Path, sources: Path, times: dict[tuple[int, int], tuple[float, float]]
) -> None:
    """The three pairs of each cell, and what each term gives more under the plan, as tables of all steps with all
    digits."""
    pairs = ",".join(f"{part.lower()}_{side}" for part in PARTS for side in ("lower", "upper"))
    with whole_file(path) as file:
        file.write(f"period,step,time,layer,row,col,{pairs}\n")
        for steps in zip(*(part.steps for part in listing.parts)):
            begin = f"{steps[0].period},{steps[0].step},{times[steps[0].period, steps[0].step][1]:.12g},"
            heads = (side for step in steps for side in (step.low, step.high))
            write_cells(file, begin, ",", listing.drawdown.cells, *heads)
    with whole_file(sources) as file:
        file.write("period,step,term,more_lower,more_upper\n")
        for step, terms in zip(listing.drawdown.steps, listing.sources):
            for name, pair in terms.items():
                more = ",".join(decimal_text(each, listing.drawdown.flow_places) for each in pair)
                file.write(f"{step.period},{step.step},{name},{more}\n")
