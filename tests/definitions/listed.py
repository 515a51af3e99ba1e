"""The values of a listing, read from its bytes: whole numbers of the last place that is printed; and changes of it."""
from __future__ import annotations

import math
from random import Random
from typing import Any

from .bench import TERMS
from .solved import TERM_NAMES, History
from .values import changed, record

Values = tuple[Any, ...]
HEAD_PLACES = 9


def whole(word: str) -> int:
    return int(word.replace(".", ""))


def listed(model: Any, content: bytes) -> Values:
    """The steps of a listing of this model."""
    grid, steps = model.v_grid, list[dict[str, Any]]()
    cells = grid.v_layers * grid.v_rows * grid.v_cols
    for line in content.decode("latin-1").split("\n"):
        words = line.split(" ")
        if words[0] == "STEP":
            at = record(period=int(words[1]), step=int(words[2]))
            flows = {side: [record(lo=0, hi=0)] * len(TERMS) for side in ("IN", "OUT")}
            steps.append({"at": at, "heads": [record(low=0, high=0)] * cells, "zones": [], **flows})
        elif words[0] == "HEAD":
            layer, row, column = map(int, words[1:4])
            cell = ((layer - 1) * grid.v_rows + row - 1) * grid.v_cols + column - 1
            steps[-1]["heads"][cell] = record(low=whole(words[4]), high=whole(words[5]))
        elif words[0] in ("IN", "OUT"):
            term = TERMS.index(" ".join(words[3:]))
            steps[-1][words[0]][term] = record(lo=whole(words[1]), hi=whole(words[2]))
        elif words[0] == "ZONE":
            flow = {"from": int(words[1]), "to": int(words[2]), "lo": whole(words[3]), "hi": whole(words[4])}
            steps[-1]["zones"].append(record(**flow))
    return tuple(made(step) for step in steps)


def made(step: dict[str, Any]) -> Any:
    budget = record(into=tuple(step["IN"]), out=tuple(step["OUT"]))
    return record(at=step["at"], heads=tuple(step["heads"]), budget=budget, zones=tuple(step["zones"]))


def replaced(items: Values, place: int, item: Any) -> Values:
    return items[:place] + (item,) + items[place + 1 :]


def moved_number(values: Values, history: History, digits: int, zones: list[int], draw: Random) -> tuple[str, Values]:
    """The values with one head, term or flow moved past the exact solution."""
    place = draw.randrange(len(values))
    step, solved = values[place], history.steps[place]
    kinds = ["head"] * bool(solved.step.cells) + ["term"] + ["flow"] * bool(step.v_zones)
    kind = draw.choice(kinds)
    if kind == "head":
        cell = draw.choice(solved.step.cells)
        up = math.floor(solved.heads[cell] * 10**HEAD_PLACES) + 1
        down = math.ceil(solved.heads[cell] * 10**HEAD_PLACES) - 1
        bound = record(low=up, high=up + 4) if draw.random() < 0.5 else record(low=down - 4, high=down)
        return kind, replaced(values, place, changed(step, heads=replaced(step.v_heads, cell, bound)))
    scale = 10 ** (digits + HEAD_PLACES)
    if kind == "term":
        # A deck without EVT lists no ET.
        count = len(TERMS) - ("EVT" not in solved.step.model.stresses)
        term, side = draw.randrange(count), draw.choice(["into", "out"])
        flow = solved.terms()["In" if side == "into" else "Out", TERM_NAMES[term]]
        low = math.floor(flow * scale) + 1
        terms = replaced(getattr(step.v_budget, f"v_{side}"), term, record(lo=low, hi=low + 8))
        return kind, replaced(values, place, changed(step, budget=changed(step.v_budget, **{side: terms})))
    at = draw.randrange(len(step.v_zones))
    old = step.v_zones[at]
    flow = solved.flows(zones)[old.v_from, old.v_to]
    low = math.floor(flow * scale) + 1
    zone = changed(old, lo=low, hi=low + 8)
    return kind, replaced(values, place, changed(step, zones=replaced(step.v_zones, at, zone)))


def other_label(values: Values, draw: Random) -> Values:
    """The values with the label of one step exchanged for that of another, or for that of none."""
    place = draw.randrange(len(values))
    others = [step.v_at for step in values if step is not values[place]] or [record(period=1, step=2)]
    return replaced(values, place, changed(values[place], at=draw.choice(others)))


def without_pair(values: Values, draw: Random) -> Values:
    """The values without one line of zones; there has to be one."""
    place = draw.choice([at for at, step in enumerate(values) if step.v_zones])
    zones = values[place].v_zones
    at = draw.randrange(len(zones))
    return replaced(values, place, changed(values[place], zones=zones[:at] + zones[at + 1 :]))


def with_other_digit(content: bytes, draw: Random) -> bytes:
    """The listing with one digit after its first line exchanged for another one."""
    first = content.index(b"\n")
    at = draw.choice([at for at in range(first, len(content)) if content[at : at + 1].isdigit()])
    return content[:at] + b"%d" % draw.randrange(10) + content[at + 1 :]
