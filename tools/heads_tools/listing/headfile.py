"""MODFLOW's binary head files, single or double, with or without Fortran's record marks, and tables of heads."""
from __future__ import annotations

import csv
import math
import struct
from pathlib import Path
from typing import Dict, Tuple

import numpy as np

from ..common.limits import WIDE
from ..common.marks import plain, tell
from ..common.text import Problem, counted, read_raw
from ..common.whole_files import whole_file
from .listing import Listing
from .spans import demand_one

ANY_STEP = (0, 0)
NO_HEAD = 1e20


class Heads(Dict[Tuple[int, int], np.ndarray]):
    """Heads by (period, step), shown in one line. `has_grid`: they are of a binary file, whose layers are whole."""

    has_grid = False

    def __repr__(self) -> str:
        shape = " x ".join(map(str, next(iter(self.values())).shape)) if self else "no"
        return f"<heads of {counted(len(self), 'step')}, {shape} cells>"


def read_heads(path: str | Path, shape: tuple[int, int, int] | None = None, most: float = NO_HEAD) -> Heads:
    """Heads by (period, step), each of shape (layers, rows, cols), nan where none stands. From MODFLOW's binary file,
    or from a table of lines `[period,step,]layer,row,col,head`, whose heads without period hold for any step. Of a
    binary file numbers from `most` up are no heads."""
    path = Path(path)
    raw = read_raw(path)
    if raw.startswith((b"HEADS ", b"DRAWDOWN ")):
        raise Problem(f"{path} is a listing of `heads`, and a head file or a table is due: `heads-tools hds` makes one")
    for marks in (0, 4):
        for real, size in (("f", 4), ("d", 8)):
            if raw[marks + 8 + 2 * size : marks + 24 + 2 * size].strip().upper() == b"HEAD":
                return _binary(path, raw, marks, real, size, shape, most)
    text, said = plain(raw)
    if all(32 <= b < 127 or b in b"\t\n\r" for b in text[:400]) and text:
        tell(path, said)
        return _table(path, text.decode("latin-1"), shape)
    raise Problem(f"{path} is neither a head file of MODFLOW nor a table layer,row,col,head")


def _binary(
    path: Path, raw: bytes, marks: int, real: str, size: int, shape: tuple[int, int, int] | None, most: float
) -> Heads:
    layers: dict[tuple[int, int], dict[int, np.ndarray]] = {}
    head, at = struct.Struct(f"<2i2{real}16s3i"), 0
    while at < len(raw):
        if at + marks + head.size > len(raw):
            raise Problem(f"{path} ends within a record, at byte {at}")
        step, period, _, _, what, ncol, nrow, layer = head.unpack_from(raw, at + marks)
        at += head.size + 3 * marks
        if ncol < 1 or nrow < 1 or at + ncol * nrow * size > len(raw):
            raise Problem(f"{path} ends within the heads of period {period}, step {step}, layer {layer}")
        if what.strip().upper() == b"HEAD":
            values = np.frombuffer(raw, f"<f{size}", ncol * nrow, at).astype(float).reshape(nrow, ncol)
            layers.setdefault((period, step), {})[layer] = np.where(np.abs(values) < most, values, np.nan)
        at += ncol * nrow * size + marks
    out = Heads()
    out.has_grid = True
    for key, by_layer in layers.items():
        first = next(iter(by_layer.values()))
        out[key] = np.full(shape or (max(by_layer), *first.shape), np.nan)
        for layer, values in by_layer.items():
            if not 1 <= layer <= len(out[key]) or values.shape != out[key].shape[1:]:
                raise Problem(
                    f"{path}: layer {layer} of {values.shape[0]} rows and {values.shape[1]} columns is of another grid"
                )
            out[key][layer - 1] = values
    return out


def _table(path: Path, text: str, shape: tuple[int, int, int] | None) -> Heads:
    most = shape or (WIDE.layers, WIDE.side, WIDE.side)
    rows: dict[tuple[int, int], list[tuple[int, int, int, float]]] = {}
    lines: dict[tuple[int, int], list[int]] = {}
    for n, row in enumerate(csv.reader(text.splitlines()), 1):
        if not row or row[0].startswith("#") or (n == 1 and any(c.isalpha() for c in row[0])):
            continue
        try:
            key = (int(row[0]), int(row[1])) if len(row) >= 6 else ANY_STEP
            k, i, j, head = (*(int(w) for w in row[-4:-1]), float(row[-1]))
            if min(k, i, j) < 1 or not math.isfinite(head):
                raise ValueError
        except (ValueError, IndexError):
            raise Problem(
                f"{path}, line {n}: a line is [period,step,]layer,row,col,head, and this one `{','.join(row)[:60]}`"
            ) from None
        if k > most[0] or i > most[1] or j > most[2]:
            of = f"the grid of {shape}" if shape else "every grid that is read"
            raise Problem(f"{path}, line {n}: layer, row, column ({k}, {i}, {j}) lie outside {of}")
        rows.setdefault(key, []).append((k, i, j, head))
        lines.setdefault(key, []).append(n)
    out = Heads()
    for key, entries in rows.items():
        table = np.array(entries)
        cells = table[:, :3].astype(int) - 1
        out[key] = np.full(shape or tuple(cells.max(axis=0) + 1), np.nan)
        demand_once(path, np.ravel_multi_index(tuple(cells.T), out[key].shape), lines[key])
        out[key][tuple(cells.T)] = table[:, 3]
    return out


def demand_once(path: Path, cells: np.ndarray, lines: list[int]) -> None:
    """Refuses a table that has a cell twice: which of the two heads would count?"""
    _, first, numbers = np.unique(cells, return_index=True, return_inverse=True)
    again = np.flatnonzero(first[numbers] != np.arange(len(cells)))
    if len(again):
        one, two = lines[first[numbers[again[0]]]], lines[again[0]]
        raise Problem(f"{path}, line {two}: its cell stands in line {one}, too")


def write_heads(
    path: str | Path,
    listing: Listing,
    side: str = "middle",
    shape: tuple[int, int, int] | None = None,
    times: dict[tuple[int, int], tuple[float, float]] | None = None,
    is_single: bool = False,
    no_flow: float = -999.99,
) -> None:
    """Writes a head file that FloPy, ModelMuse and Model Viewer read. `side`: lower (rounded down), upper (rounded up)
    or middle (rounded). `times`: for each step the time within its period and in all."""
    if side == "middle":
        demand_one(listing, "the middle of a range is no deck's head. Take the lower or the upper heads")
    shape = shape or listing.shape
    real, dtype = ("f", "<f4") if is_single else ("d", "<f8")
    with whole_file(path, binary=True) as file:
        for n, (step, low, high) in enumerate(zip(listing.steps, listing.lower(shape), listing.upper(shape))):
            grid = {"lower": low, "upper": high, "middle": (low + high) / 2}[side]
            out = np.where(np.isnan(grid), no_flow, grid).astype(dtype)
            if is_single and side != "middle":
                wrong = out > grid if side == "lower" else out < grid
                out = np.where(
                    wrong, np.nextafter(out, np.float32(-np.inf if side == "lower" else np.inf)), out
                ).astype(dtype)
            within, total = (times or {}).get((step.period, step.step), (float(n + 1), float(n + 1)))
            for layer in range(shape[0]):
                file.write(
                    struct.pack(
                        f"<2i2{real}16s3i",
                        step.step,
                        step.period,
                        within,
                        total,
                        b"            HEAD",
                        shape[2],
                        shape[1],
                        layer + 1,
                    )
                )
                file.write(out[layer].tobytes())
