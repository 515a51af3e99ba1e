"""model: what was read of a deck, for comparison with the summaries of FloPy or ModelMuse."""
from __future__ import annotations

import numpy as np

from ..common.text import counted
from .deck import COLUMNS
from .model import Model, value


def describe(model: Model) -> list[str]:
    deck, active = model.deck, model.ibound != 0
    nlay, nrow, ncol = model.shape
    out = [
        (
            f"{deck.path.name}: {counted(nlay, 'layer')}, {counted(nrow, 'row')}, {counted(ncol, 'column')}:"
            f" {counted(deck.cells, 'cell')}"
        ),
        (
            f"  IBOUND: {int((model.ibound > 0).sum())} above 0, {int((model.ibound < 0).sum())} below 0 (constant), "
            f"{int((model.ibound == 0).sum())} without flow"
        ),
        f"  units (not converted): {model.length}, {model.time} (LENUNI {deck.lenuni}, ITMUNI {deck.itmuni})",
        (
            f"  DELR {span(model.delr)}, in all {model.delr.sum():.6g}; DELC {span(model.delc)}, in all"
            f" {model.delc.sum():.6g}"
        ),
        f"  top of layer 1: {span(model.top[active.any(axis=0)])}",
    ]
    for k in range(nlay):
        here = active[k]
        if not here.any():
            out.append(f"  layer {k + 1}: no cell with flow")
            continue
        names = [
            ("thickness", model.thick),
            ("bottom", model.bottom),
            ("STRT", model.strt),
            ("HK", model.hk),
            ("HANI", model.hani),
            ("vertical K", model.vk),
        ]
        names += [("storage coefficient" if model.is_coefficient else "SS", model.ss)] if deck.is_transient else []
        names += [("bed", model.bed), ("VKCB", model.vkcb)] if deck.laycbd[k] else []
        out.append(
            f"  layer {k + 1}: {int(here.sum())} cells with flow; "
            + "; ".join(f"{name} {span(array[k][here])}" for name, array in names)
        )
    out += periods(model)
    for kind, lists in deck.lists.items():
        out.append(
            f"  {kind}: "
            + " ".join(list_text(kind, p, entries) for p, entries in enumerate(lists, 1) if p <= 12)
            + (" .." if len(lists) > 12 else "")
        )
    for kind, areal in deck.areal.items():
        out.append(
            f"  {kind}: option {areal.option}; "
            + " ".join(
                f"[{p}: " + ("; ".join(f"{n} {span(a.floats())}" for n, a in arrays.items()) or "as before") + "]"
                for p, (_, arrays) in enumerate(areal.periods, 1)
                if p <= 12
            )
        )
    return out


def span(values: np.ndarray) -> str:
    """The range of values, in six digits."""
    if values.size == 0:
        return "none"
    low, high = float(values.min()), float(values.max())
    return f"{low:.6g}" if low == high else f"{low:.6g} to {high:.6g}"


def periods(model: Model) -> list[str]:
    deck = model.deck
    steps = sum(p.nstp for p in deck.periods)
    out = [
        f"  {counted(len(deck.periods), 'period')}, {counted(steps, 'step')},"
        f" {sum(value(p.perlen) for p in deck.periods):.6g} {model.time} in all"
    ]
    for n, p in enumerate(deck.periods[:12], 1):
        first = model.times[n, 1][0] if p.nstp else 0
        out.append(
            f"    period {n}: {'steady' if p.is_steady else 'transient'}, PERLEN {p.perlen}, NSTP {p.nstp}, TSMULT"
            f" {p.tsmult}, first step {first:.6g}"
        )
    return out + ([f"    and {len(deck.periods) - 12} more"] if len(deck.periods) > 12 else [])


def list_text(kind: str, period: int, entries: list | None) -> str:
    if entries is None:
        return f"[{period}: as before]"
    columns = [np.array([value(e.words[n]) for e in entries]) for n in range(len(COLUMNS[kind]))]
    return (
        f"[{period}: {len(entries)} {'entry' if len(entries) == 1 else 'entries'}"
        + "".join(f"; {name} {span(c)}" for name, c in zip(COLUMNS[kind], columns) if entries)
        + "]"
    )
