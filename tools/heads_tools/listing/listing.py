"""A listing of `heads` as arrays of whole numbers of its last digits, and as numpy arrays of heads."""
from __future__ import annotations

import functools
import hashlib
import math
import re
from dataclasses import dataclass, field
from pathlib import Path
from typing import Mapping, NamedTuple, overload

import numpy as np

from ..common.marks import plain_listing, tell
from ..common.text import Problem, counted, decimal_text, read_raw

TERMS = ["STORAGE", "CONSTANT HEAD", "WELLS", "DRAINS", "RIVER LEAKAGE", "HEAD DEP BOUNDS", "RECHARGE", "ET"]
UNITS_IN_ONE = 10**9
FIFTHS = 5**9
NO_LISTING = ("REFUSED", "READFAULT", "MEMORY", "USAGE:", "CERTIFIED", "NOT")
HEADS_LINES, PLAN_FIRST = ("HEAD", "STEP", "IN ", "OUT ", "ZONE"), "DRAWDOWN"


# A layer, a row and a column, from 1.
Cell = tuple[int, int, int]


@dataclass(repr=False)
class Step:
    """One time step. `low`, `high`: heads in 10^-9 length units, shape (cells,); `terms`: name to the whole
    numbers in_low, in_high, out_low, out_high of 10^-(digits + 9) length units cubed by time unit; `zones`: the
    flows (from, to, low, high) in the same unit."""

    period: int
    step: int
    low: np.ndarray
    high: np.ndarray
    terms: dict[str, list[int]] = field(default_factory=dict)
    zones: list[tuple[int, int, int, int]] = field(default_factory=list)

    def __repr__(self) -> str:
        return f"<period {self.period} step {self.step}: {counted(len(self.low), 'cell')}>"

    def width(self) -> np.ndarray:
        return self.high - self.low


class Bounds(NamedTuple):
    """Lower and upper heads."""

    lower: np.ndarray
    upper: np.ndarray


@dataclass(repr=False)
class Listing:
    """A listing. `cells`: layer, row and column of each cell with flow, from 1, shape (cells, 3); `end`: its last
    line; `is_change`: its heads are those of one run less those of another (`changes_of` in drawdown.py); `is_span`: it
    was made of two decks and holds for every deck between them; `sha256`: that of the bytes that were read;
    `is_convertible`: it is of a model with convertible layers, and holds for gentle heads (gentle.py); `part`: of which
    part of a plan's listing it is, BASE, PLAN or DRAWDOWN (plan_listing.py)."""

    path: Path
    digits: int
    unit: int
    steps: list[Step] = field(default_factory=list)
    cells: np.ndarray = field(default_factory=lambda: np.zeros((0, 3), int))
    end: str = ""
    is_change: bool = False
    is_span: bool = False
    sha256: str = ""
    is_convertible: bool = False
    part: str = ""

    def __repr__(self) -> str:
        size = f"{counted(len(self.steps), 'step')} of {counted(len(self.cells), 'cell')}"
        return f"<{self.path.name}: {size}, {self.digits} digits, ends with {self.end or 'a part of a step'}>"

    @property
    def is_whole(self) -> bool:
        return self.end == "END"

    @property
    def flow_places(self) -> int:
        return self.digits + 9

    @property
    def shape(self) -> tuple[int, int, int]:
        """The greatest layer, row and column of a cell with flow: the least grid that holds them."""
        if not len(self.cells):
            return 0, 0, 0
        layer, row, column = self.cells.max(axis=0).tolist()
        return layer, row, column

    @functools.cached_property
    def places(self) -> np.ndarray:
        """The place of each cell of the grid in the arrays of a step, -1 where it has no flow."""
        out = np.full(self.shape, -1)
        out[tuple((self.cells - 1).T)] = np.arange(len(self.cells))
        return out

    def has(self, cell: tuple[int, int, int]) -> bool:
        """Whether a cell (layer, row, column) has flow."""
        is_within = all(1 <= n <= most for n, most in zip(cell, self.shape))
        return is_within and bool(self.places[tuple(n - 1 for n in cell)] >= 0)

    @overload
    def at(self, cell: tuple[int, int, int]) -> int:
        ...

    @overload
    def at(
        self,
        *,
        kstpkper: tuple[int, int] | None = None,
        totim: float | None = None,
        times: Mapping[tuple[int, int], tuple[float, float]] | None = None,
    ) -> Bounds:
        ...

    def at(
        self,
        cell: tuple[int, int, int] | None = None,
        *,
        kstpkper: tuple[int, int] | None = None,
        totim: float | None = None,
        times: Mapping[tuple[int, int], tuple[float, float]] | None = None,
    ) -> int | Bounds:
        """The place of a cell (layer, row, column) in the arrays of a step; or lower and upper heads of a step, shape
        (layers, rows, cols): that of `kstpkper`, step and period from 0 as FloPy counts, or that which ends at the time
        `totim` (`times`: those of the model, model.times)."""
        if cell is None:
            step = self.step_of(kstpkper, totim, times or {})
            return Bounds(self.grid(head_floor(step.low)), self.grid(head_ceiling(step.high)))
        if not self.has(cell):
            raise Problem("cell {},{},{} isn't in the listing: it has no flow, or lies outside the grid".format(*cell))
        return int(self.places[tuple(n - 1 for n in cell)])

    def cell(self, at: int) -> Cell:
        """The layer, row and column of a place in the arrays of a step."""
        layer, row, column = self.cells[at].tolist()
        return layer, row, column

    def widest(self) -> tuple[int, Step, Cell]:
        """The greatest upper less lower in 10^-9, its step and its cell."""
        step = max(self.steps, key=lambda s: int(s.width().max(initial=-1)))
        at = int(step.width().argmax())
        return int(step.width()[at]), step, self.cell(at)

    def lower(self, shape: tuple[int, int, int] | None = None) -> np.ndarray:
        """Lower heads in length units, shape (steps, layers, rows, cols), rounded down; nan where there is no flow."""
        return np.array([self.grid(head_floor(s.low), shape) for s in self.steps])

    def upper(self, shape: tuple[int, int, int] | None = None) -> np.ndarray:
        """Upper heads in length units, shape (steps, layers, rows, cols), rounded up; nan where there is no flow."""
        return np.array([self.grid(head_ceiling(s.high), shape) for s in self.steps])

    def step_at(self, period: int, step: int) -> Step:
        """The step of a stress period."""
        found = next((each for each in self.steps if (each.period, each.step) == (period, step)), None)
        if found is None:
            raise Problem(f"{self.path} has no period {period} step {step}")
        return found

    def step_of(
        self,
        kstpkper: tuple[int, int] | None,
        totim: float | None,
        times: Mapping[tuple[int, int], tuple[float, float]],
    ) -> Step:
        """The step that is named by its numbers from 0, or by the time of its end."""
        if (kstpkper is None) == (totim is None):
            raise Problem("at(cell), at(kstpkper=(step, period)) from 0, or at(totim=.., times=model.times)")
        if kstpkper is not None:
            return self.step_at(kstpkper[1] + 1, kstpkper[0] + 1)
        here = {(step.period, step.step) for step in self.steps}
        near = [key for key, (_, end) in times.items() if key in here and math.isclose(end, totim or 0, rel_tol=1e-6)]
        if not near:
            raise Problem(f"{self.path} has no step that ends at {totim}" + ("" if times else ": times=model.times"))
        return self.step_at(*near[-1])

    def series(self, cell: tuple[int, int, int]) -> tuple[np.ndarray, np.ndarray]:
        """Lower and upper heads of a cell (layer, row, column) at the ends of all steps, rounded outward."""
        at = self.at(cell)
        low, high = (np.array([getattr(step, side)[at] for step in self.steps]) for side in ("low", "high"))
        return head_floor(low), head_ceiling(high)

    def grid(self, values: np.ndarray, shape: tuple[int, int, int] | None = None) -> np.ndarray:
        """Values of the cells with flow on the whole grid, nan elsewhere."""
        out = np.full(shape or self.shape, np.nan)
        out[tuple((self.cells - 1).T)] = values
        return out

    def summary(self) -> str:
        if not len(self.cells):
            return f"{counted(len(self.steps), 'step')} without a cell with flow"
        width, step, cell = self.widest()
        name = "range" if self.is_span else "pair"
        return (
            f"{counted(len(self.steps), 'step')} of {counted(len(self.cells), 'cell')}; widest {name}"
            f" {decimal_text(width, 9)} (period {step.period} step {step.step}, layer row column"
            f" {' '.join(map(str, cell))})"
        )


def head_floor(units: np.ndarray) -> np.ndarray:
    """The heads of whole numbers of 10^-9 as doubles, rounded down; exact where a double can hold the head."""
    near = np.where(
        np.abs(units) < 2**53, units / UNITS_IN_ONE, units // UNITS_IN_ONE + units % UNITS_IN_ONE / UNITS_IN_ONE
    )
    return np.where(units % FIFTHS == 0, units // FIFTHS / 512, np.nextafter(near, -np.inf))


def head_ceiling(units: np.ndarray) -> np.ndarray:
    """The same, rounded up; 0 has no sign."""
    return 0.0 - head_floor(-units)


def refuse_convertible(path: Path) -> None:
    raise Problem(
        f"{path} is of a model with convertible layers: it holds for gentle heads alone, and this command takes"
        " listings of confined models"
    )


def refuse_plan_listing(path: Path) -> None:
    raise Problem(
        f"{path} lists what a plan does (`heads run NAME --plan WELLS`): `look`, `observe`, `export` and `inside`"
        " take it, and `check` with --plan"
    )


def listing_bytes(path: Path) -> bytes:
    """The bytes of a listing as `heads` writes them; it is said where the file has others."""
    content, said = plain_listing(read_raw(path))
    tell(path, said)
    return content


def read_listing(path: str | Path, has_convertible: bool = False) -> Listing:
    """Reads a listing; one of a model with convertible layers only where that is asked for. One that ended early is
    read as far as its steps are whole; `end` is its last line. One that a shell or a mail program has written in UTF-16
    or with CR LF is read as `heads` wrote it; `sha256` is of that."""
    content = listing_bytes(Path(path))
    lines = content.decode("latin-1").split("\n")
    first = lines[0].split()
    if not lines[0].strip():
        raise Problem(f"{path} is empty: the write failed, or the run was stopped")
    if first[0] in NO_LISTING:
        raise Problem(f"{path} has no listing, it ended with: {lines[0][:100]}")
    if first[0] == PLAN_FIRST:
        refuse_plan_listing(Path(path))
    is_span, is_convertible = first[6:] == ["TO"], first[6:] == ["CONVERTIBLE"]
    if is_convertible and not has_convertible:
        refuse_convertible(Path(path))
    if (
        len(first) != 6 + is_span + is_convertible
        or first[0] != "HEADS"
        or first[2] != "DIGITS"
        or not (first[3] + first[5].lstrip("-")).isdigit()
    ):
        raise Problem(f"{path}, line 1: no listing of `heads` begins with {lines[0][:60]!r}")
    digest = hashlib.sha256(content).hexdigest()
    listing = Listing(Path(path), int(first[3]), int(first[5]), is_span=is_span, sha256=digest)
    listing.is_convertible = is_convertible
    parts, listing.end = steps_in(lines, HEADS_LINES)
    for begin, end in parts:
        is_last = (begin, end) == parts[-1]
        try:
            step, cells = _read_step(lines, begin, end, listing.flow_places)
        except (ValueError, IndexError):
            if is_last and not listing.end:
                break
            raise Problem(f"{path}, {bad_line(lines, begin, end, forms_of(listing.flow_places))}") from None
        if not listing.steps:
            listing.cells = cells
        elif len(step.low) != len(listing.cells) and is_last and not listing.end:
            break
        elif not np.array_equal(cells, listing.cells):
            raise Problem(f"{path}, line {begin + 1}: this step has other cells than the first")
        listing.steps.append(step)
    return listing


def steps_in(lines: list[str], words: tuple[str, ...]) -> tuple[list[tuple[int, int]], str]:
    """Where the lines of each step begin and end, and the last line, if it begins with none of the words that a step's
    lines begin with."""
    starts = [n for n, line in enumerate(lines) if line.startswith("STEP ")]
    tail = next((n for n in range(len(lines) - 1, -1, -1) if lines[n].strip()), 0)
    end = lines[tail].strip() if not lines[tail].startswith(words) else ""
    return list(zip(starts, starts[1:] + [tail if end else tail + 1])), end


def _read_step(lines: list[str], begin: int, end: int, places: int) -> tuple[Step, np.ndarray]:
    """The step whose line STEP is lines[begin], and its cells."""
    _, period, number = lines[begin].split()
    last = begin + 1
    while last < end and lines[last].startswith("HEAD "):
        last += 1
    text = " ".join(lines[begin + 1 : last]).replace("HEAD ", "").replace(".", "")
    table = np.array(text.split(), dtype=np.int64).reshape(last - begin - 1, 5)
    step = Step(int(period), int(number), table[:, 3].copy(), table[:, 4].copy())
    for line in lines[last:end]:
        word, *rest = line.split(None, 3)
        if word == "ZONE":
            low, high = (flow_of(w, places) for w in rest[2].split())
            step.zones.append((int(rest[0]), int(rest[1]), low, high))
            continue
        if word not in ("IN", "OUT"):
            raise ValueError(f"a line begins with {word}")
        pair = step.terms.setdefault(rest[2].strip(), [0, 0, 0, 0])
        at = 0 if word == "IN" else 2
        pair[at], pair[at + 1] = flow_of(rest[0], places), flow_of(rest[1], places)
    return step, table[:, :3]


def flow_of(word: str, places: int) -> int:
    whole, _, part = word.partition(".")
    if len(part) != places:
        raise ValueError(f"a flow with {len(part)} decimals where {places} are due")
    return int(whole + part)


def forms_of(places: int) -> dict[str, str]:
    """The forms of a listing's lines by their first words."""
    flow = rf"-?\d+\.\d{{{places}}}" if places else r"-?\d+"
    pair = r"( \d+){3}( -?\d+\.\d{9}){2}"
    forms = {"STEP": r"STEP( \d+){2}", "ZONE": rf"ZONE( \d+){{2}}( {flow}){{2}}"}
    forms |= {word: word + pair for word in ("HEAD", "BASE", "PLAN", "DRAWDOWN")}
    return forms | {word: rf"{word}( {flow}){{2}} \S.*" for word in ("IN", "OUT", "SOURCE")}


def bad_line(lines: list[str], begin: int, end: int, forms: dict[str, str]) -> str:
    """The first line of a step that isn't of any form of a listing's lines, by its number from 1, and what is wrong."""
    for n in range(begin, end):
        line = lines[n].rstrip()
        if not line:
            return f"line {n + 1}: it is empty, and a listing has no empty lines"
        word = line.split()[0]
        if word not in forms:
            return f"line {n + 1}: no line of a step begins with `{word[:40]}`"
        if not re.fullmatch(forms[word], line):
            wrong = [w for w in line.split()[1:] if re.fullmatch(r"[+-]?(nan|inf(inity)?)", w.lower())]
            return f"line {n + 1}: `{line[:80]}` isn't of the form of a line {word}" + (
                f": `{wrong[0]}` is no number" if wrong else ""
            )
    return f"line {begin + 1}: the lines of this step aren't in the order of a listing"
