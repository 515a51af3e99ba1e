"""BCF6 with confined layers, of one or two layers, as LPF with the same equations (TM 6-A16, chapter 5).

BCF's transmissivity is LPF's HK times thickness, its storage coefficient that of STORAGECOEFFICIENT, TRPY is CHANI. Its
leakance VCONT lies between two layers: with VKA = VCONT times thickness in both, each half has the resistance
1 / (2 VCONT), and the two together 1 / VCONT. Where HK is no decimal, or a layer has a bed below it, each cell is 1
thick; the elevations of the deck then say nothing, and no equation of confined layers needs them."""
from __future__ import annotations

from decimal import Decimal

import numpy as np

from ..common.spelling import exact_quotient, exact_word, quoted_words
from ..common.text import Problem
from .array_records import read_array
from .grid_files import marker
from .parameters import ONE, ZERO, all_digits, decimals
from .reading import Reading
from .sources import Array
from .thickness import active_cells, cell_at, take_out

MOST_LAYERS = 2


def read_bcf(reading: Reading) -> None:
    s, deck = reading.start("LPF"), reading.deck
    if deck.nlay > MOST_LAYERS:
        raise Problem(
            f"BCF6 of {deck.nlay} layers: no deck with LPF has its leakances (VCONT) exactly, since a layer between two"
            " others shares its VKA with both"
        )
    line = s.line()
    w = quoted_words(line) if deck.is_free else [line[:10].strip() or "0", line[10:20].strip() or "0"]
    hdry = marker(reading, s, w[1], "HDRY") if len(w) > 1 else "-999.99"
    demand_confined(reading)
    trpy = decimals(read_array(reading, 1, deck.nlay, "TRPY")).ravel()
    shape = deck.nrow, deck.ncol
    arrays = []
    for k in range(deck.nlay):
        names = ["Sf1"] * deck.is_transient + ["Tran"] + ["Vcont"] * (k + 1 < deck.nlay)
        arrays.append({name: read_array(reading, *shape, f"{name} of layer {k + 1}") for name in names})
    deck.options["LPF"] = f"{w[0]} {hdry} 0" + " STORAGECOEFFICIENT" * deck.is_transient
    zeros = ["0"] * deck.nlay
    deck.layer_words = [zeros, zeros, [exact_word(value, "TRPY") for value in trpy], zeros, zeros]
    if any(value <= 0 for value in trpy):
        raise Problem("TRPY isn't above 0")
    leakance = decimals(arrays[0]["Vcont"]) if deck.nlay > 1 else np.full(shape, ONE, dtype=object)
    demand_leakance(reading, leakance)
    for k, layer in enumerate(arrays):
        dry = (layer["Tran"].floats() == 0) & active_cells(reading)[k] & (deck.nlay == 1)
        take_out(reading, k, dry, "the transmissivity is 0")
    set_properties(reading, arrays, np.where(leakance == ZERO, ONE, leakance))


def demand_confined(reading: Reading) -> None:
    """Reads the layers' types, and refuses all but confined ones with the harmonic mean."""
    s, deck = reading.now, reading.deck
    s.due = "Ltype"
    if deck.is_free:
        types = s.free_values(deck.nlay)
    else:
        line = s.line(is_blank_taken=True)
        types = [line[2 * k : 2 * k + 2].strip() or "0" for k in range(deck.nlay)]
    for k, word in enumerate(types):
        if s.integer(word, "Ltype") % 10:
            raise Problem(f"LAYCON of layer {k + 1} is {int(word) % 10}: only confined layers (0) are read of BCF6")
        if int(word):
            raise Problem(f"LAYAVG of layer {k + 1} is {int(word) // 10}: only the harmonic mean (0) is read")


def demand_leakance(reading: Reading, leakance: np.ndarray) -> None:
    """Refuses two cells with flow, one above the other, without a leakance between them: in LPF they have one."""
    deck, active = reading.deck, active_cells(reading)
    wrong = (leakance <= ZERO) & active.all(axis=0) if deck.nlay > 1 else np.zeros(active.shape[1:], dtype=bool)
    if wrong.any():
        cell = cell_at(1, int(np.flatnonzero(wrong)[0]), deck.ncol)
        reading.refuse(f"Vcont isn't above 0 at the cell {cell} (layer row column), and LPF's cells there are joined")


def set_properties(reading: Reading, arrays: list[dict[str, Array]], leakance: np.ndarray) -> None:
    """LPF's arrays, with the deck's own thickness where all of HK can be said with it, else with 1."""
    deck, active = reading.deck, active_cells(reading)
    with all_digits():
        thick = [decimals(deck.top_of(k)) - decimals(deck.bottom[k]) for k in range(deck.nlay)]
    flows = [decimals(layer["Tran"]) for layer in arrays]
    hk = [quotients(flow, b, active[k]) for k, (flow, b) in enumerate(zip(flows, thick))]
    own = [each for each in hk if each is not None]
    if deck.bed_bottom or len(own) < deck.nlay:
        reading.need("each cell written 1 thick, with the transmissivity as HK: no top or bottom is an elevation")
        shape = deck.nrow, deck.ncol
        thick, own = [np.full(shape, ONE, dtype=object)] * deck.nlay, flows
        deck.top = Array([str(deck.nlay)], "1", shape)
        deck.bottom = [Array([str(deck.nlay - 1 - k)], "1", shape) for k in range(deck.nlay)]
        deck.bed_bottom, deck.laycbd = {}, [0] * deck.nlay
    with all_digits():
        vertical = [leakance * np.where(b > ZERO, b, ONE) for b in thick]
    for k, layer in enumerate(arrays):
        found = {"HK": array_of(own[k], layer["Tran"], "HK"), "VKA": array_of(vertical[k], layer["Tran"], "VKA")}
        deck.properties.append(found | ({"SS": layer["Sf1"]} if deck.is_transient else {}))


def quotients(flow: np.ndarray, thick: np.ndarray, active: np.ndarray) -> np.ndarray | None:
    """Transmissivity over thickness where there is flow, if decimals say it everywhere."""
    out = np.full(flow.shape, ONE, dtype=object)
    known: dict[tuple[Decimal, Decimal], Decimal | None] = {}
    for at in zip(*np.nonzero(active)):
        pair = flow[at], thick[at]
        if pair not in known:
            known[pair] = exact_quotient(*pair) if pair[1] > ZERO else None
        found = known[pair]
        if found is None:
            return None
        out[at] = found
    return out


def array_of(values: np.ndarray, like: Array, what: str) -> Array:
    flat = values.ravel().tolist()
    words = [exact_word(flat[0], what)] if len(set(flat)) == 1 else [exact_word(value, what) for value in flat]
    return Array(words, "1", like.shape, like.file, like.line)
