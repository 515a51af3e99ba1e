"""What `inside` says of a deck with convertible layers: whether `certify --convertible` takes it, and of a run's heads
whether they are gentle and whether the layers are full."""
from __future__ import annotations

from pathlib import Path

import numpy as np

from ..common.text import Problem, counted, decimal_text
from ..listing.headfile import read_heads
from .convertible import Convertible, read_convertible
from .gentle import GENTLE, first_not_gentle, reasons_of
from .run_heads import RunHeads
from .water_steps import StepData, steps_of

MOST_STEPS = 6


def water_lines(nam: Path, heads: Path | None) -> list[str]:
    """Lines of a deck that isn't inside by its LAYTYP; nothing where no layer is convertible."""
    try:
        water, _ = read_convertible(nam)
    except Problem as error:
        return [f"convertible layers: {error}"]
    out = [
        "convertible layers: `heads-tools certify --convertible` takes the deck, for gentle heads;"
        " `heads-tools plain --as-confined` where the layers are full"
    ]
    if heads is None:
        return [*out, "whether a run's heads are gentle: --heads RUN.HDS"]
    run = RunHeads(heads, read_heads(heads, water.shape, np.inf), water)
    told = [step_line(water, run, data) for data in steps_of(water) if run.key(data)]
    if not told:
        return [*out, f"{heads.name} has none of the model's periods and steps"]
    more = [f"and {len(told) - MOST_STEPS} more steps"] if len(told) > MOST_STEPS else []
    shown = told if len(told) <= MOST_STEPS else sorted(told, key=lambda line: GENTLE_HEADS in line)[:MOST_STEPS]
    return [*out, *(f"{heads.name}, {line}" for line in shown), *more, GENTLE]


GENTLE_HEADS = "the heads are gentle"


def step_line(water: Convertible, run: RunHeads, data: StepData) -> str:
    """Of one step: whether the heads are gentle, where not, and whether the convertible layers are full."""
    key = run.key(data)
    if key is None:
        return ""
    lacking = run.lacks(key, data)
    if lacking.size:
        return f"{data.name}: no head at layer row column {water.name(lacking[0])}"
    dry = np.flatnonzero(run.dry[key])
    if dry.size:
        return (
            f"{data.name}: {counted(int(dry.size), 'cell')} dry, first at layer row column {water.name(dry[0])}:"
            " `heads-tools plain --dry` writes the deck without them"
        )
    low, high = run.pair(key, data)
    fault = first_not_gentle(water, low, high, data.is_variable)
    said = GENTLE_HEADS
    if fault:
        count = int((reasons_of(water, low, high, data.is_variable)[0] > 0).sum())
        said = f"NOT GENTLE in {counted(count, 'cell')}: {fault.text}"
    return f"{data.name}: {said}; {fullness(water, low)}"


def fullness(water: Convertible, low: np.ndarray) -> str:
    """In how many cells of convertible layers the water table is, or by how much all of them are full."""
    above = (low - water.tops)[water.in_layer]
    count = int((above < 0).sum())
    if count:
        return f"{count} of {counted(len(above), 'cell')} of convertible layers aren't full"
    least = decimal_text(int(above.min(initial=2**62)), 9)
    return f"the convertible layers are full, by {least} {water.model.length} or more above the tops"
