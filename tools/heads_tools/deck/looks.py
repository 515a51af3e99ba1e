"""What a deck has at its cells and entries that the program refuses, or that MODFLOW-2005 takes otherwise."""
from __future__ import annotations

from pathlib import Path

import numpy as np

from .deck import Deck
from .model import Model
from .packages import read_deck
from .sources import Report


def careful(nam: Path) -> list[str]:
    """Where MODFLOW-2005 reads a deck otherwise than `heads` does, for the user of a run."""
    deck, report = read_deck(nam)
    if len(deck.ibound) == deck.nlay > 0:
        look_at_given_heads(deck, report)
    return [str(r) for r in report.blocking + report.warnings]


def look_at_cells(model: Model, report: Report) -> None:
    """Values that the program refuses in cells with flow."""
    deck, active = model.deck, model.ibound != 0
    tests = [
        ("DIS", "its top isn't above its bottom", model.thick <= 0),
        ("LPF", "HK isn't above 0", model.hk <= 0),
        ("LPF", "HANI isn't above 0", model.hani <= 0),
        ("LPF", "SS is below 0", model.ss < 0),
        ("BAS6", "STRT is past 4,000,000,000", np.abs(model.strt) > 4e9),
    ]
    if model.shape[0] > 1:
        tests.append(("LPF", "VKA isn't above 0", model.vk <= 0))
        below = np.zeros_like(active)
        below[:-1] = active[1:]
        tests.append(("LPF", "VKCB of the bed below it isn't above 0", (model.vkcb <= 0) & (model.bed != 0) & below))
        tests.append(("DIS", "the bed below it has a bottom above its top", (model.bed < 0) & below))
    for kind, text, where in tests:
        bad = np.flatnonzero(where & active)
        if bad.size:
            first = " ".join(map(str, model.cell(bad[0])))
            cells = f"the cell {first}" if bad.size == 1 else f"{bad.size} cells with flow, the first one {first}"
            report.add("refusals", deck.files[kind], 0, f"{cells} (layer row column): {text}")


def look_at_given_heads(deck: Deck, report: Report) -> None:
    """Given heads in cells without flow."""
    ibound = [array.floats() for array in deck.ibound] if "CHD" in deck.lists else []
    for e in (e for entries in deck.lists.get("CHD", []) for e in entries or []):
        k, i, j = e.cell
        if 1 <= k <= deck.nlay and 1 <= i <= deck.nrow and 1 <= j <= deck.ncol and ibound[k - 1][i - 1, j - 1] == 0:
            report.add(
                "warnings",
                e.file,
                e.line,
                "CHD in a cell without flow (IBOUND 0): MODFLOW-2005 stops here, for `heads` the entry has no effect",
            )


def look_at_entries(model: Model, report: Report) -> None:
    """Entries and arrays of stresses that are refused, or that MODFLOW-2005 takes otherwise."""
    deck = model.deck
    look_at_given_heads(deck, report)
    for kind, periods in deck.lists.items():
        for p, entries in enumerate(periods, 1):
            seen: set[tuple[int, int, int]] = set()
            for e in entries or []:
                no_heads = ("WEL", 0), ("RIV", 1), ("DRN", 1), ("GHB", 1)
                heads = [
                    float(w.replace("D", "E").replace("d", "e"))
                    for n, w in enumerate(e.words)
                    if (kind, n) not in no_heads
                ]
                if any(abs(h) > 4e9 for h in heads):
                    report.add("refusals", e.file, e.line, "a head or an elevation past 4,000,000,000")
                if kind == "CHD" and e.cell in seen:
                    report.add(
                        "refusals",
                        e.file,
                        e.line,
                        "the cell stands twice in this CHD list (MODFLOW-2005 adds the two heads): write one entry",
                    )
                seen.add(e.cell)
    for kind, areal in deck.areal.items():
        layers = {"RCH": "IRCH", "EVT": "IEVT"}[kind]
        for _, arrays in areal.periods:
            if layers in arrays and ((v := arrays[layers].floats()) < 0).any() | (v > deck.nlay).any():
                report.add("refusals", deck.files[kind], 0, f"{layers} lies outside 0 to {deck.nlay}")
            if kind == "EVT" and "EVTR" in arrays and (arrays["EVTR"].floats() < 0).any():
                report.add("refusals", deck.files[kind], 0, "EVTR is below 0 in a column")
